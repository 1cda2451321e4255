#!/usr/bin/env python3
"""Runs every example of docs/COOKBOOK.md as it stands there.

    tests/cookbook.py [PROGRAM]  by the program
    tests/cookbook.py --plain    by the plain evaluation

A section has a command in a block of `sh`, and files, each a line with its name and then a block. The file `report`
is what the command prints.
"""
import argparse
import os
import re
from typing import Dict, List, NamedTuple

from commands import Answer, replay
from programs import TOP, Check, answer_over, conclude, program_of

PAGE = os.path.join(TOP, 'docs', 'COOKBOOK.md')
SECTION = re.compile(r'^## ', re.MULTILINE)
COMMAND = re.compile(r'^```sh\nkineo (.*)\n```$', re.MULTILINE)
FILE = re.compile(r'^`(\w+)`:\n\n```\n(.*?)^```$', re.MULTILINE | re.DOTALL)


class Recipe(NamedTuple):
    """A section of the page."""
    title: str
    words: List[str]
    files: Dict[str, str]
    report: str


def recipes():
    """The sections of the page."""
    with open(PAGE, encoding='utf-8') as file:
        _, *sections = SECTION.split(file.read())
    for section in sections:
        files = dict(FILE.findall(section))
        report = files.pop('report')
        yield Recipe(section.split('\n')[0], COMMAND.search(section).group(1).split(), files, report)


def checks(program):
    """Each section by the program."""
    for recipe in recipes():
        yield Check(recipe.title, Answer(recipe.report, 0, ''), answer_over(program, recipe.words, recipe.files))


def plain_checks():
    """Each section by the plain evaluation."""
    for recipe in recipes():
        yield Check(recipe.title, Answer(recipe.report, 0, ''), replay(recipe.words[1:], recipe.files))


def main():
    parser = argparse.ArgumentParser(description='Runs every example of docs/COOKBOOK.md.')
    parser.add_argument('program', nargs='?')
    parser.add_argument('--plain', action='store_true')
    asked = parser.parse_args()
    conclude(plain_checks() if asked.plain else checks(program_of(asked.program)))


if __name__ == '__main__':
    main()
