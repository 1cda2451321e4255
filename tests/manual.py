#!/usr/bin/env python3
"""Compares the man page and the shell completions with what the program takes.

    tests/manual.py [PROGRAM]

Of each option on the page docs/kineo.1: whether the program takes it, needs it, takes the ends of its range and
nothing past them, and has its default. Then: whether the completions offer just these options, in bash by a
bash that runs them, and whether the page's example prints what stands there.
"""
import argparse
import os
import re
import shutil
import subprocess
from typing import NamedTuple, Optional, Tuple

from commands import USAGE
from programs import TOP, Check, answer_over, conclude, program_of
from texts import text_of

PAGE = os.path.join(TOP, 'docs', 'kineo.1')
BASH = os.path.join(TOP, 'completions', 'kineo.bash')
ZSH = os.path.join(TOP, 'completions', '_kineo')

SECTION = re.compile(r'^\.SH OPTIONS OF (\w+)\n(.*?)(?=^\.SH)', re.MULTILINE | re.DOTALL)
OPTION = re.compile(r'^\.TP\n\.BI? \\-\\-(\w+)( " \w+")?\n(.*?)(?=^\.TP|\Z)', re.MULTILINE | re.DOTALL)
EXAMPLE = re.compile(r'^\.nf\n\.RS\n(.*?)^\.RE', re.MULTILINE | re.DOTALL)

# A run on which each option makes a difference: twelve users are followed.
FILES = {
    'feed': text_of(f'f,{u},{u + 20}' for u in range(12)),
    'schedule': text_of(['stamp 0 16', 'deliver 0 0 0 12', 'report 0', 'raise 0', 'cut']),
}
WORDS = {'replay': {'script': 'schedule', 'feeds': 'feed', 'landmarks': '1'}, 'demo': {'seed': '1', 'records': '1'}}
COMPLETED = [
    (['re'], ['replay']), (['replay', '--trace', '--t'], ['--top']), (['replay', '--rules', 'in,ou'], ['in,out']),
    (['replay', '--rules', '=', 'cl'], ['close']), (['replay', '--top', ''], []),
    (['replay', '--feeds', 'README.md,docs/kin'], ['README.md,docs/kineo.1']),
]
OTHERS = {'parts': '2', 'rules': 'in', 'top': '9'}
SLOW = {('records', 500000)}


class Option(NamedTuple):
    """An option as the page has it."""
    command: str
    name: str
    takes_value: bool
    is_required: bool
    default: Optional[str]
    length: Optional[Tuple[int, int]]
    numbers: Optional[Tuple[int, int]]


def bounds(pattern, text):
    """The two numbers of a range on the page, or None."""
    found = re.search(pattern, text)
    return (int(found.group(1)), int(found.group(2))) if found else None


def options():
    """All options of the page."""
    with open(PAGE, encoding='ascii') as file:
        page = file.read()
    for command, section in SECTION.findall(page):
        for name, value, text in OPTION.findall(section):
            found = re.search(r'^The default is (.*)\.$', text, re.MULTILINE)
            default = found.group(1).replace('\\:', '') if found else None
            yield Option(command.lower(), name, bool(value), 'Required.' in text, default,
                         bounds(r'list of (\d+) to (\d+)', text), bounds(r'from (\d+) to (\d+)', text))


class Runs:
    """Runs the program with the words of a command, some of them changed."""

    def __init__(self, program):
        self.program = program

    def __call__(self, command, changes=(), more=()):
        values = {**WORDS[command], **dict(changes)}
        words = [f'--{name}={value}' for name, value in values.items() if value is not None]
        return answer_over(self.program, [command, *words, *more], FILES)


def range_checks(run, option):
    """The ends of a number's range are taken, and nothing past them is."""
    low, high = option.numbers
    for number in (low, high):
        if (option.name, number) not in SLOW:
            taken = run(option.command, {option.name: number}).status
            yield Check(f'{option.command} --{option.name} {number}', 0, taken)
    for number in (low - 1, high + 1):
        yield Check(f'{option.command} --{option.name} {number}', USAGE, run(option.command, {option.name: number}))


def length_checks(run, option):
    """A list of the most parts is taken, and none with one part more or with an empty one."""
    one = WORDS[option.command][option.name]
    parts = [str(u) for u in range(option.length[1] + 1)] if one.isdigit() else [one] * (option.length[1] + 1)
    name = f'{option.command} --{option.name}'
    yield Check(f'{name} of the most parts', 0, run(option.command, {option.name: ','.join(parts[1:])}).status)
    yield Check(f'{name} of one part more', USAGE, run(option.command, {option.name: ','.join(parts)}))
    yield Check(f'{name} with an empty part', USAGE, run(option.command, {option.name: one + ','}))


def option_checks(run, option):
    """What the page says of an option."""
    name, plain = f'{option.command} --{option.name}', run(option.command)
    yield Check(f'{name}, without it', option.is_required, run(option.command, {option.name: None}) == USAGE)
    bare = run(option.command, {option.name: None}, [f'--{option.name}'])
    yield Check(f'{name} without a value', option.takes_value, bare == USAGE)
    value = option.default or WORDS[option.command].get(option.name)
    word = f'--{option.name}={value}' if option.takes_value else f'--{option.name}'
    yield Check(f'{name} twice', USAGE, run(option.command, {option.name: None}, [word, word]))
    if option.default:
        yield Check(f'{name}, its default', plain, run(option.command, {option.name: option.default}))
        yield Check(f'{name}, another value', True, plain != run(option.command, {option.name: OTHERS[option.name]}))
    if option.numbers and not option.length:
        yield from range_checks(run, option)
    if option.length:
        yield from length_checks(run, option)


def completed(*words):
    """What the completion answers in bash to the last of these words."""
    script = '. "$0"; COMP_WORDS=("$@"); COMP_CWORD=$(($# - 1)); _kineo; printf "%s\\n" "${COMPREPLY[@]}"'
    done = subprocess.run(['bash', '-c', script, BASH, 'kineo', *words], cwd=TOP, stdout=subprocess.PIPE, check=False)
    return done.stdout.decode().split()


def completion_checks():
    """The completions offer the options of the page."""
    named = {command: [f'--{option.name}' for option in options() if option.command == command] for command in WORDS}
    with open(ZSH, encoding='ascii') as file:
        arrays = dict(re.findall(r'^    (\w+)=\((.*?)^    \)', file.read(), re.MULTILINE | re.DOTALL))
    for command, names in named.items():
        yield Check(f'completion of {command} in bash', names, completed(command, '--'))
        yield Check(f'completion of {command} in zsh', names, re.findall(r"'(--\w+)", arrays[command]))
    for words, want in COMPLETED:
        yield Check(f'completion of {words}', want, completed(*words))
    if shutil.which('zsh'):
        yield Check('the completion of zsh is read', 0, subprocess.run(['zsh', '-n', ZSH], check=False).returncode)


def example_check(program):
    """The first example of the page prints what stands there."""
    with open(PAGE, encoding='ascii') as file:
        lines = EXAMPLE.search(file.read()).group(1).replace('\\\\', '\\').splitlines()
    commands = [line[2:] for line in lines if line.startswith('$ ')]
    want = text_of(line for line in lines if not line.startswith('$ '))
    came = answer_over('bash', ['-c', text_of(['kineo() { "$0" "$@"; }', *commands]), program], {})
    return Check('the example of the man page', (want, 0, ''), tuple(came))


def checks(program, commands):
    """All checks of the page, its options of these commands alone."""
    run = Runs(program)
    for option in options():
        if option.command in commands:
            yield from option_checks(run, option)
    yield from completion_checks()
    yield example_check(program)


def main():
    parser = argparse.ArgumentParser(description='Compares the man page and the completions with the program.')
    parser.add_argument('program', nargs='?')
    asked = parser.parse_args()
    conclude(checks(program_of(asked.program), WORDS))


if __name__ == '__main__':
    main()
