#!/usr/bin/env python3
"""Runs `kineo replay` on random words, feeds and schedules, and compares how each run ends with the plain evaluation.

    tests/replay.py [--seed N] [--count N] [PROGRAM]

Cases have seeds from N on, from the clock where N is left out. In many a case something is wrong: a word, a
file that isn't there, a line outside the grammar. What a case needs to be run again is printed with each one
that differs.
"""
import argparse
import random
import time
from concurrent.futures import ThreadPoolExecutor
from itertools import islice
from typing import Any, Dict, List, NamedTuple

from commands import replay
from draws import Draws, random_landmarks, random_record
from graphs import BYTE_ORDER_MARK, records
from histories import History
from model import stored
from programs import FOLDER, Check, answer_over, conclude, program_of
from rules import RULES
from schedules import MOST_RECORDS
from texts import text_of

PROCESSES = 2
AT_ONCE = 100

# Records, lines, words and values of options that are odd; many of them are refused.
ODD = stored('odd.json')


class Case(NamedTuple):
    """Words of `replay` and the files that are there."""
    name: str
    words: List[str]
    files: Dict[str, Any]


# Feeds

ENDS = ['\n', '\n', '\n', '\n', '\n', '\n', '\r\n', '\r', '\n\n', '\r\n\r\n']


def random_feed(draw):
    """The text of a feed: most often plain records, each with its LF, else an odd one."""
    if draw.random() < 0.7:
        return text_of(random_record(draw) for _ in range(draw.randrange(24)))
    return odd_feed(draw)


def odd_feed(draw):
    """The text of a feed with odd records and ends of lines, perhaps without the last one, or with a mark."""
    text = ''
    for _ in range(draw.randrange(12)):
        record = draw.choice(ODD['records']) if draw.random() < 0.4 else random_record(draw)
        text += record + draw.choice(ENDS)
    if draw.random() < 0.3:
        text = text[:-1]
    return BYTE_ORDER_MARK + text if draw.random() < 0.1 else text


# Schedules

def changed(draw, line):
    """A line with one character left out, put in or exchanged."""
    at, new = draw.randrange(len(line) + 1), draw.choice(' 0129-+abcdefghijklmnoprstuvw#\t\r\x00')
    return draw.choice([line[:at] + line[at + 1:], line[:at] + new + line[at:], line[:at] + new + line[at + 1:]])


def random_schedule(draw, feeds, parts):
    """The text of a schedule over these feeds: most often of the grammar."""
    history = History([records(feed) for feed in feeds], parts)
    draws = Draws(draw, history)
    lines = draws.schedule(draw.randrange(20))
    if draw.random() < 0.7:
        lines += draws.noted([*(f'stamp {i} 16' for i in history.nodes)])
        lines += draws.noted([*draws.catch_up(), draw.choice(['cut', 'cut 3'])])
    if draw.random() < 0.2:
        lines.insert(draw.randrange(len(lines) + 1), draw.choice(['', '#', '# a line that says nothing']))
    if draw.random() < 0.1:
        lines.insert(draw.randrange(len(lines) + 1), draw.choice(ODD['lines']))
    if lines and draw.random() < 0.07:
        at = draw.randrange(len(lines))
        lines[at] = changed(draw, lines[at])
    if draw.random() < 0.1:
        lines = [line + draw.choice(['', '', '', '\r']) for line in lines]
    text = text_of(lines)
    return text[:-1] if draw.random() < 0.1 else text


# Words

def random_rules(draw):
    """Some of the rules in any order."""
    return ','.join(draw.sample(RULES, draw.randint(1, len(RULES))))


def random_items(draw, names, parts):
    """The options of a case with their values, in any order. None stands for the value of a flag."""
    items = [('script', 's'), ('feeds', ','.join(names))]
    if parts > 1 or draw.random() < 0.2:
        items.append(('parts', str(parts)))
    if draw.random() < 0.4:
        items.append(('rules', random_rules(draw)))
    landmarks = random_landmarks(draw)
    if landmarks:
        items.append(('landmarks', ','.join(landmarks)))
    if draw.random() < 0.4:
        items.append(('top', str(draw.choice([0, 1, 2, 3, 10, 1000]))))
    if draw.random() < 0.5:
        items.append(('trace', None))
    draw.shuffle(items)
    return items


def worded(draw, items):
    """Items as words, in either form."""
    for option, value in items:
        if value is None:
            yield f'--{option}'
        elif draw.random() < 0.3:
            yield f'--{option}={value}'
        else:
            yield from (f'--{option}', value)


def spoilt_items(draw, items):
    """Items of which one has an odd value, is left out, or comes twice."""
    at = draw.randrange(len(items))
    option = items[at][0]
    odd = (option, draw.choice(ODD['values'][option])) if option in ODD['values'] else items[at]
    exchanged = items[:at] + [odd] + items[at + 1:]
    return draw.choice([exchanged, exchanged, items[:at] + items[at + 1:], items + [items[at]]])


def spoilt_words(draw, words):
    """Words of which one is left out, or with an odd one among them."""
    at, odd = draw.randrange(len(words) + 1), draw.choice(ODD['words'])
    before, at_it, after = words[:at], words[at:at + 1], words[at + 1:]
    return draw.choice([before + after, before + [odd] + at_it + after, before + [odd] + after])


# Cases

def random_case(seed):
    """A random case."""
    draw = random.Random(seed)
    names = draw.choice([['a'], ['a'], ['a', 'b'], ['a', 'b'], ['a', 'b', 'c'], ['b', 'a', 'b']])
    parts = draw.choices([1, 2, 3, 4, 64], weights=[10, 6, 4, 2, 1])[0]
    files = {name: random_feed(draw) for name in sorted(set(names))}
    files['s'] = random_schedule(draw, [files[name] for name in names], parts)
    items = random_items(draw, names, parts)
    if draw.random() < 0.12:
        items = spoilt_items(draw, items)
    words = list(worded(draw, items))
    if draw.random() < 0.12:
        words = spoilt_words(draw, words)
    if draw.random() < 0.06:
        del files[draw.choice(sorted(files))]
    if files and draw.random() < 0.03:
        files[draw.choice(sorted(files))] = FOLDER
    return Case(f'seed {seed}', words, files)


def odd_cases():
    """Each odd record, line, value and word by itself, in a run where all else is in order."""
    files = {'a': 'f,1,2\nf,3,2\n', 's': text_of(['stamp 0 2', 'deliver 0 0 0 2', 'report 0', 'raise 0', 'cut'])}
    words = ['--script', 's', '--feeds', 'a', '--trace']
    for record in ODD['records']:
        yield Case(f'the record {record!r}', words, {**files, 'a': record + '\n'})
    for line in ODD['lines']:
        yield Case(f'the line {line!r}', words, {**files, 's': f'cut\n{line}\ncut\n'})
    for option, values in ODD['values'].items():
        others = {'script': 's', 'feeds': 'a'}
        others.pop(option, None)
        for value in values:
            rest = [word for other in others.items() for word in (f'--{other[0]}', other[1])]
            yield Case(f'the value {value!r} of {option}', [*rest, f'--{option}', value], files)
            yield Case(f'the value {value!r} of {option}, after `=`', [f'--{option}={value}', *rest], files)
    for word in ODD['words']:
        yield Case(f'the word {word!r}, last', [*words, word], files)
        yield Case(f'the word {word!r}, first', [word, *words], files)


def check(program, case):
    """Compares how the program ends with how it must end."""
    texts = {name: text for name, text in case.files.items() if text is not FOLDER}
    came = answer_over(program, ['replay', *case.words], case.files)
    return Check(f'{case.name}: {case.words} over {case.files}', replay(case.words, texts), came)


def checks(program, cases):
    """The checks of these cases, which are made as they are needed."""
    cases = iter(cases)
    with ThreadPoolExecutor(PROCESSES) as pool:
        while True:
            some = list(islice(cases, AT_ONCE))
            if not some:
                return
            yield from pool.map(lambda case: check(program, case), some)


def main():
    parser = argparse.ArgumentParser(description='Runs `kineo replay` on random cases.')
    parser.add_argument('program', nargs='?')
    parser.add_argument('--seed', type=int)
    parser.add_argument('--count', type=int, default=1000)
    asked = parser.parse_args()
    first = int(time.time()) % MOST_RECORDS if asked.seed is None else asked.seed
    print(f'seeds {first} to {first + asked.count - 1}')
    conclude(checks(program_of(asked.program), map(random_case, range(first, first + asked.count))))


if __name__ == '__main__':
    main()
