#!/usr/bin/env python3
"""Runs the examples that ship, and compares each report with the file `report` beside it.

    tests/examples.py [PROGRAM]  by the program
    tests/examples.py --plain    by the plain evaluation, and what was made of reports: pictures, and where years end
"""
import argparse
import os
import subprocess

from commands import Answer, replay
from plain import Files
from programs import TOP, Check, answer, conclude, program_of

EXAMPLES = {
    'first': '--rules in --script s --feeds a',
    'late': '--parts 2 --script schedule --feeds follows',
    'debian': '--parts 4 --landmarks 1 --script by-year --feeds feed0.csv,feed1.csv,feed2.csv',
}
PICTURES = {
    'exposure.svg': ('expo unstable', 'Exposure to "unstable"'),
    'reach.svg': ('hops 1', 'How many people a walk over certifications reaches from maintainer 1'),
}


def folder_of(name):
    """Where an example stands."""
    return os.path.join(TOP, 'examples', name)


def content(name, file):
    """The text of a file of an example."""
    with open(os.path.join(folder_of(name), file), encoding='ascii') as opened:
        return opened.read()


def wanted(name):
    """How an example's run ends."""
    return Answer(content(name, 'report'), 0, '')


def checks(program):
    """Each example by the program."""
    for name, words in EXAMPLES.items():
        yield Check(f'the example {name}', wanted(name), answer(program, ['replay', *words.split()], folder_of(name)))


def years():
    """The positions at the years' ends, as the report of Debian's records has them."""
    for line in content('debian', 'report').splitlines():
        if line.startswith('epoch'):
            ends = line.split()[2:5]
            yield ' '.join('0' if end == '-' else end.split('@')[1] for end in ends)


def drawn(series, title):
    """The picture of a series of the report of Debian's records."""
    folder = folder_of('debian')
    points = subprocess.run(['./series.py', 'report', *series.split()], cwd=folder, stdout=subprocess.PIPE, check=True)
    picture = subprocess.run(['./picture.py', '--first', '1995', '--title', title], cwd=folder, input=points.stdout,
                             stdout=subprocess.PIPE, check=True)
    return picture.stdout.decode()


def plain_checks():
    """Each example by the plain evaluation, the pictures, and where years end."""
    for name, words in EXAMPLES.items():
        yield Check(f'the example {name}', wanted(name), replay(words.split(), Files(folder_of(name))))
    for name, (series, title) in PICTURES.items():
        yield Check(f'the picture {name}', content('debian', name), drawn(series, title))
    yield Check('the ends of years', content('debian', 'years.ends').splitlines(), list(years()))


def main():
    parser = argparse.ArgumentParser(description='Runs the examples that ship.')
    parser.add_argument('program', nargs='?')
    parser.add_argument('--plain', action='store_true')
    asked = parser.parse_args()
    conclude(plain_checks() if asked.plain else checks(program_of(asked.program)))


if __name__ == '__main__':
    main()
