"""The words of the commands: a list of items in any order, each `--name`, `--name VALUE` or `--name=VALUE`."""
from typing import NamedTuple, Tuple

from graphs import number
from rules import RULES

FLAG = object()


class Replay(NamedTuple):
    """What the words of `replay` ask for."""
    script: str
    feeds: Tuple[str, ...]
    parts: int = 1
    rules: Tuple[str, ...] = RULES
    landmarks: Tuple[int, ...] = ()
    top: int = 10
    trace: bool = False


class Demo(NamedTuple):
    """What the words of `demo` ask for."""
    seed: int
    records: int


class Usage(Exception):
    """The words aren't of the grammar."""


def within(low, high):
    """Reads a number from `low` to `high`."""
    def read(text):
        value = number(text, range(low, high + 1))
        if value is None:
            raise Usage
        return value
    return read


def listed(read, most, distinct):
    """Reads 1 to `most` values parted by `,`."""
    def read_all(text):
        values = tuple(read(part) for part in text.split(','))
        if len(values) > most or (distinct and len(set(values)) < len(values)):
            raise Usage
        return values
    return read_all


def name(text):
    """A file name, which is any text but the empty one."""
    if not text:
        raise Usage
    return text


def rule(text):
    """The name of a rule."""
    if text not in RULES:
        raise Usage
    return text


REPLAY = {
    'script': name, 'feeds': listed(name, 16, distinct=False), 'parts': within(1, 64),
    'rules': listed(rule, len(RULES), distinct=True), 'landmarks': listed(within(0, 2 ** 32 - 1), 16, distinct=True),
    'top': within(0, 1000), 'trace': FLAG,
}
DEMO = {'seed': within(0, 2 ** 64 - 1), 'records': within(1, 500000)}


def items(words, options):
    """The items of a list of words: pairs of a name and its value, which is True for a flag."""
    words = list(words)
    while words:
        word = words.pop(0)
        option, equals, value = word[2:].partition('=')
        if not word.startswith('--') or option not in options or (options[option] is FLAG and equals):
            raise Usage
        if options[option] is FLAG:
            yield option, True
        elif equals or words:
            yield option, value if equals else words.pop(0)
        else:
            raise Usage


def read(words, options, command):
    """The command with the values of its options.

    Each name comes at most once, and the required ones come. A value isn't empty and doesn't begin with `-`.
    """
    values = {}
    for option, value in items(words, options):
        if option in values or value == '' or (value is not True and value.startswith('-')):
            raise Usage
        values[option] = value if value is True else options[option](value)
    try:
        return command(**values)
    except TypeError:
        raise Usage from None


def read_replay(words):
    """What the words after `replay` ask for, or the exception Usage."""
    return read(words, REPLAY, Replay)


def read_demo(words):
    """What the words after `demo` ask for, or the exception Usage."""
    return read(words, DEMO, Demo)
