#!/usr/bin/env python3
"""Compares `kineo demo` with the plain evaluation, and writes its generated job as files.

    tests/demo.py [PROGRAM]                    ten seeds of small sizes, and words that are refused
    tests/demo.py --write SEED RECORDS FOLDER  feeds and a schedule, on which `kineo replay` can be run
"""
import argparse
import os

from commands import USAGE, demo
from jobs import feeds_of, schedule_of
from programs import Check, answer, conclude, program_of
from texts import text_of

# Seeds and numbers of records; only the last job is long enough for a restart.
JOBS = [(0, 1), (1, 2), (7, 3), (2 ** 64 - 1, 4), (12345, 16), (2 ** 63, 100), (3, 333), (99, 1000), (7, 4000),
        (2024, 12000)]
REFUSED = ['', '--seed 1', '--records 1', '--seed 1 --records 0', '--seed 1 --records 500001', '--seed 1 --records 1 1',
           '--seed 18446744073709551616 --records 1', '--seed -1 --records 1', '--seed 01 --records 1',
           '--seed 1 --seed 1 --records 1', '--seed 1 --records 1 --top 1']


def checks(program):
    """The program against this for ten seeds, and words that are refused."""
    for seed, count in JOBS:
        words = ['--seed', str(seed), '--records', str(count)]
        yield Check(f'demo {words}', demo(words), answer(program, ['demo', *words]))
    for words in REFUSED:
        yield Check(f'demo {words}', USAGE, answer(program, ['demo', *words.split()]))
    words = ['--records=1', '--seed=18446744073709551615']
    yield Check(f'demo {words}', demo(words), answer(program, ['demo', *words]))


def write(folder, seed, count):
    """Writes the job as files: `kineo replay --parts 4 --script schedule --feeds feed0,feed1,feed2` runs it."""
    texts = feeds_of(seed, count)
    files = {f'feed{i}': text for i, text in enumerate(texts)}
    files['schedule'] = text_of(schedule_of(seed, [text.count('\n') for text in texts]))
    for name, text in files.items():
        with open(os.path.join(folder, name), 'w', encoding='ascii') as file:
            file.write(text)


def main():
    parser = argparse.ArgumentParser(description='Compares `kineo demo` with the plain evaluation.')
    parser.add_argument('program', nargs='?')
    parser.add_argument('--write', nargs=3, metavar=('SEED', 'RECORDS', 'FOLDER'))
    asked = parser.parse_args()
    if asked.write:
        seed, count, folder = asked.write
        write(folder, int(seed), int(count))
        return
    conclude(checks(program_of(asked.program)))


if __name__ == '__main__':
    main()
