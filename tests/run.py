#!/usr/bin/env python3
"""Runs all that needs the program, and compares standard output, standard error and exit status to the byte.

    tests/run.py [--stage STAGE] [PROGRAM]
    tests/run.py --plain                    all that needs no program: the plain evaluation on what is worked by hand

PROGRAM is the launcher `kineo` at the top of the repository, which builds the program, where it is left out.
STAGE says how far the program is: `replay`, or `demo` where it has both. The last line is `N passed, M failed`.
"""
import argparse
import os
import subprocess
from itertools import chain

import cookbook
import demo
import examples
import manual
import model
import replay
import steps
from commands import CANNOT_READ, USAGE, Answer, limit
from commands import replay as replayed
from model import files_of, stored
from programs import TOP, Check, answer, answer_over, conclude, program_of
from texts import text_of

STAGES = ('replay', 'demo')
# How far the program is.
STAGE = 'demo'

STORED_SEEDS = range(1, 301)
FIRST = os.path.join(TOP, 'examples', 'first')
WORDS = ['replay', '--rules', 'in', '--script', 's', '--feeds', 'a']
ONE = 'stamp 0 1\ndeliver 0 0 0 1\nreport 0\nraise 0\ncut\n'
LINES = ['stamp 0 1', 'deliver 0 0 0 1', 'report 0', 'raise 0', 'cut', 'cut 1', 'commit 0', 'begin', 'turn 1', 'mine',
         'crash 0', 'restart 0']
CANNOT_WRITE = Answer(None, 5, 'kineo: cannot write\n')
ONE_BAD = Answer('epoch 1 0@1 records 1 bad 1\n', 0, '')
MOST_BYTES, MOST_RECORDS, MOST_LINES = 33554432, 2097152, 1048576


def from_data(program, name):
    """Each case of a file of data."""
    for case in stored(name):
        files = {file: text.encode().decode('latin-1') for file, text in case['files'].items()}
        want = Answer(case['stdout'], case['status'], case['stderr'])
        yield Check(case['name'], want, answer_over(program, case['words'], files))


def worked_runs(program):
    """Each worked run prints its report."""
    for run in stored('reports.json'):
        words, files = files_of(run)
        want = Answer(text_of(run['report']), 0, '')
        yield Check(run['name'], want, answer_over(program, ['replay', *words], files))


def changed_lines(program):
    """Each line of a schedule with one character exchanged."""
    for line in LINES:
        for at in range(len(line)):
            for new in '0 a\t':
                files = {'a': 'f,1,2\n', 's': f'cut\n{line[:at]}{new}{line[at + 1:]}\n'}
                want = replayed(['--trace', *WORDS[1:]], files)
                yield Check(f'the schedule {files["s"]!r}', want, answer_over(program, [*WORDS, '--trace'], files))


def limit_cases():
    """Feeds and schedules of the most bytes, records and lines, and of one more; and files missing after these."""
    two = [*WORDS[:-1], 'a,b']
    yield 'a feed of the most bytes', WORDS, {'a': 'f' * MOST_BYTES, 's': ONE}, ONE_BAD
    yield 'a feed of one byte more', WORDS, {'a': 'f' * (MOST_BYTES + 1), 's': ONE}, limit('feed-bytes')
    yield 'a feed of the most records', WORDS, {'a': 'f\n' * MOST_RECORDS, 's': ONE}, ONE_BAD
    yield 'a feed of one record more', WORDS, {'a': 'f\n' * (MOST_RECORDS + 1), 's': ONE}, limit('records')
    yield 'a schedule of one byte more', WORDS, {'a': '', 's': long_schedule(MOST_BYTES + 1)}, limit('script-bytes')
    yield 'feeds of one byte more together', two, {'a': 'f' * MOST_BYTES, 'b': 'f'}, limit('feed-bytes')
    yield 'a feed of one byte more, and no second feed', two, {'a': 'f' * (MOST_BYTES + 1)}, limit('feed-bytes')
    yield 'a feed of the most bytes, and no second feed', two, {'a': 'f' * MOST_BYTES}, CANNOT_READ
    yield 'feeds of one record more together', two, {'a': 'f\n' * MOST_RECORDS, 'b': 'f\n'}, limit('records')
    yield 'a feed of one record more, and no schedule', WORDS, {'a': 'f\n' * (MOST_RECORDS + 1)}, limit('records')
    yield 'a feed of the most records, and no schedule', WORDS, {'a': 'f\n' * MOST_RECORDS}, CANNOT_READ
    yield 'a feed of the most records, and no event', WORDS, {'a': 'f\n' * MOST_RECORDS, 's': ''}, Answer('', 0, '')
    yield 'a schedule of the most bytes', WORDS, {'a': 'f\n', 's': long_schedule(MOST_BYTES)}, ONE_BAD
    yield 'a schedule of the most lines', WORDS, {'a': 'f\n', 's': ONE + '\n' * (MOST_LINES - 5)}, ONE_BAD
    yield 'a schedule of one line more', WORDS, {'a': 'f\n', 's': 'x\n' + '\n' * MOST_LINES}, limit('script-lines')


def at_the_limits(program):
    """The program on files at its limits."""
    for name, words, files, want in limit_cases():
        yield Check(name, want, answer_over(program, words, files))


def long_schedule(size):
    """The schedule with a remark that makes it so many bytes long."""
    return ONE + '#' * (size - len(ONE))


def where_nothing_can_be_written(program):
    """A standard output that is full, unread or closed."""
    files = {'a': 'f,1,2\n', 's': ONE}

    def full(files):
        with open('/dev/full', 'wb') as device:
            return answer_over(program, WORDS, files, stdout=device)

    def unread():
        read, write = os.pipe()
        os.close(read)
        try:
            return answer_over(program, WORDS, files, stdout=write)
        finally:
            os.close(write)

    def closed():
        return answer_over(program, WORDS, files, stdout=None, preexec_fn=lambda: os.close(1))

    yield Check('a full standard output', CANNOT_WRITE, full(files))
    yield Check('a standard output that nobody reads', CANNOT_WRITE, unread())
    yield Check('a closed standard output', CANNOT_WRITE, closed())
    yield Check('a full standard output and no feed', CANNOT_READ._replace(stdout=None), full({'s': ONE}))
    with open('/dev/full', 'wb') as device:
        told = answer(program, ['demo', '--seed', '1', '--records', '10'], stdout=device)
    yield Check('a full standard output of demo', CANNOT_WRITE, told)


def piped(program):
    """How the program ends where a feed is a pipe."""
    read, write = os.pipe()
    os.write(write, b'f,1,2\n')
    os.close(write)
    try:
        return answer_over(program, [*WORDS[:-1], f'/dev/fd/{read}'], {'s': ONE}, pass_fds=[read])
    finally:
        os.close(read)


def others(program):
    """What a table of texts can't say."""
    yield Check('a pipe for a feed', CANNOT_READ, piped(program))
    yield Check('a word that is no text', USAGE, answer(program, [*WORDS, b'\xff']))
    yield Check('a folder for a feed', CANNOT_READ, answer_over(program, [*WORDS[:-1], '.'], {'s': ONE}))


def without_a_command(program, stage):
    """Words of commands that aren't built are those of no command."""
    unbuilt = ['live --feeds a --every 1', *(['demo --seed 1 --records 1'] if stage == 'replay' else [])]
    for words in unbuilt:
        yield Check(f'the words {words!r}', USAGE, answer(program, words.split()))


def checks(program, stage):
    """All checks."""
    yield from at_the_limits(program)
    yield from where_nothing_can_be_written(program)
    yield from others(program)
    yield from from_data(program, 'cases.json')
    yield from worked_runs(program)
    yield from changed_lines(program)
    yield from examples.checks(program)
    yield from cookbook.checks(program)
    yield from replay.checks(program, replay.odd_cases())
    yield from replay.checks(program, map(replay.random_case, STORED_SEEDS))
    yield from manual.checks(program, ('replay', 'demo') if stage == 'demo' else ('replay',))
    yield from without_a_command(program, stage)
    if stage == 'demo':
        yield from demo.checks(program)


def main():
    parser = argparse.ArgumentParser(description='Runs all that needs the program.')
    parser.add_argument('program', nargs='?')
    parser.add_argument('--stage', choices=STAGES, default=STAGE)
    parser.add_argument('--plain', action='store_true')
    asked = parser.parse_args()
    if asked.plain:
        conclude(chain(model.checks(), steps.stored_checks(), cookbook.plain_checks(), examples.plain_checks()))
    program = program_of(asked.program)
    # The first call builds the program where that is needed; what it says of that is no part of a case.
    subprocess.run([program, *WORDS], cwd=FIRST, stdin=subprocess.DEVNULL, stdout=subprocess.DEVNULL, check=False)
    conclude(checks(program, asked.stage))


if __name__ == '__main__':
    main()
