#!/usr/bin/env python3
"""What a world answers, evaluated from the definitions of docs/MODEL.md alone. It knows nothing of the code.

    tests/model.py              reads cases, and prints what a world answers to each line
    tests/model.py --self-test  compares the worked schedules of schedules.json and the worked runs of reports.json
                                with what they must answer

A case begins with `world P FEEDS` or `world P FEEDS LANDMARKS`: P partitions; feeds parted by `;`, whose
records are parted by `|` (the feed `|` has none); landmarks parted by `,`. Then come lines of the schedule
language, each answered by the text of its outcome. Four more lines are no events: `vectors` prints where each
cut epoch ends; `store K` the snapshot of epoch K, and `deltas K` what epoch K changed in each partition, or `none`
where it isn't kept; and `result` the values of the epoch begun last, `active U` with the least active user where users
are active, or `not-begun` where no epoch was begun. Empty lines and lines that begin with `#` answer nothing; what is
none of these answers `bad line`.
"""
import json
import os
import sys
from itertools import islice

from commands import Answer, replay
from graphs import changes, number, records, user
from histories import History
from jobs import seeded, words_of
from programs import Check, conclude
from reports import results
from schedules import MOST_RECORDS, event_of
from texts import text_of
from turns import active_users

TESTS = os.path.dirname(os.path.abspath(__file__))
MOST_FEEDS = MOST_LANDMARKS = 16
MOST_PARTS = 64


def world_of(line):
    """The empty history that a line begins, or None."""
    words = line.split(' ')
    if len(words) not in (3, 4) or words[0] != 'world' or number(words[1], range(1, MOST_PARTS + 1)) is None:
        return None
    feeds = words[2].split(';')
    landmarks = [user(text) for text in words[3].split(',')] if len(words) == 4 else []
    if len(feeds) > MOST_FEEDS or len(landmarks) > MOST_LANDMARKS:
        return None
    if None in landmarks or len(set(landmarks)) < len(landmarks):
        return None
    return History([records(feed.replace('|', '\n')) for feed in feeds], int(words[1]), landmarks)


def vectors(history):
    """Where each cut epoch ends."""
    n = len(history.events)
    for k in range(1, history.cuts(n) + 1):
        yield ' '.join(['epoch', str(k), *history.entries(n, k)])


def is_kept(history, k):
    """Whether every partition has committed an epoch, and no later one is mined."""
    n = len(history.events)
    return history.mined(n) <= k <= min(history.committed(n, p) for p in history.parts)


def store(history, k):
    """The snapshot of an epoch."""
    return [f'store {k}', *history.snapshot(k).text()]


def deltas(history, k):
    """What an epoch changed, by partitions; epoch 0 nothing."""
    return [f'deltas {k}', *changes(history.snapshot(max(k, 1) - 1), history.snapshot(k), len(history.parts))]


def result(history):
    """The values of the epoch begun last, where nobody is active."""
    n = len(history.events)
    k = history.mined(n) + history.is_open(n)
    active = active_users(history)
    if active:
        return [f'active {min(active)}']
    return [f'result {k}', *results(history.snapshot(k), history.landmarks)] if k else ['not-begun']


def look(history, line):
    """The answer in lines to a line that is no event, or None."""
    words = line.split(' ')
    if line == 'vectors':
        return vectors(history)
    if line == 'result':
        return result(history)
    told = {'store': store, 'deltas': deltas}.get(words[0])
    k = number(words[1], range(MOST_RECORDS + 1)) if len(words) == 2 and told else None
    if k is None:
        return None
    return told(history, k) if is_kept(history, k) else ['none']


def answers(lines):
    """What each line answers, in lines."""
    history = None
    for line in lines:
        line = line[:-1] if line.endswith('\r') else line
        if not line or line.startswith('#'):
            continue
        world = world_of(line)
        if world:
            history = world
            yield line
            continue
        event = event_of(line, len(history.nodes), len(history.parts)) if history else None
        told = look(history, line) if history and not event else None
        if event:
            yield history.answer(event)
        elif told is None:
            yield 'bad line'
        else:
            yield from told


def commits(parts, epochs):
    """Lines by which each of these partitions commits so many epochs."""
    return [f'commit {p}' for _ in range(epochs) for p in parts]


# Worked schedules and runs

def stored(name):
    """The content of a file of data."""
    with open(os.path.join(TESTS, name), encoding='utf-8') as file:
        return json.load(file)


def worked():
    """The worked schedules.

    Each has a name, a world and lines, and by hand: `answers` to the lines (some have none), `vectors`, and of some
    `stores`, what stands in each epoch once all partitions have committed all that is cut.
    """
    return stored('schedules.json')


def looks(case):
    """The answers to the lines of a worked schedule, its vectors and its stores, each as far as they are worked."""
    lines, epochs = [case['world'], *case['lines']], len(case['vectors'])
    everything = commits(world_of(lines[0]).parts, epochs)
    stores = [f'store {k}' for k in range(1, epochs + 1)]
    told = list(answers(lines))
    if 'answers' in case:
        yield Check(case['name'], case['answers'], told[1:])
    yield Check(f'{case["name"]}, vectors', case['vectors'], list(answers([*lines, 'vectors']))[len(told):])
    if 'stores' in case:
        came = list(answers([*lines, *everything, *stores]))
        yield Check(f'{case["name"]}, stores', case['stores'], came[len(told) + len(everything):])


def files_of(run):
    """The words and files of a worked run: a schedule, feeds, options and, by hand, the report."""
    names = [f'feed{i}' for i in range(len(run['feeds']))]
    words = ['--script', 'schedule', '--feeds', ','.join(names), *run['words']]
    return words, {'schedule': text_of(run['schedule']), **dict(zip(names, run['feeds']))}


def generators():
    """The first words that the generators of `demo` draw, which are those of their authors' own programs."""
    drawn = [41943041, 58720359, 3588806011781223, 3591011842654386, 9228616714210784205, 9973669472204895162]
    yield Check('Xoshiro256PlusPlus from 1, 2, 3, 4', drawn, list(islice(words_of([1, 2, 3, 4]), len(drawn))))
    drawn = [6457827717110365317, 3203168211198807973, 9817491932198370423, 4593380528125082431]
    yield Check('SplitMix64 from 1234567', drawn, list(seeded(1234567)))


def checks():
    """All that is worked, against what comes."""
    for case in worked():
        yield from looks(case)
    for run in stored('reports.json'):
        yield Check(run['name'], Answer(text_of(run['report']), 0, ''), replay(*files_of(run)))
    yield from generators()


def main():
    words = sys.argv[1:]
    if words == ['--self-test']:
        conclude(checks())
    if words:
        sys.exit(__doc__)
    for text in answers(sys.stdin.read().split('\n')):
        print(text)


if __name__ == '__main__':
    main()
