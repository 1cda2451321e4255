#!/usr/bin/env python3
"""Runs the world on cases, through the program of crates/kin_steps, and compares each answer with that of model.py.

    tests/steps.py [--seed N] [--count N] [PROGRAM]  fresh random schedules, by seeds from N on (else from the clock)
    tests/steps.py --stored [PROGRAM]                whether the stored cases are those that --write writes; where
                                                     PROGRAM stands, it runs too
    tests/steps.py --write                           writes the stored cases and what the model answers to them

PROGRAM is else crates/kin_steps/out/kin_steps, as `rt run` in crates/kin_steps builds it. The stored cases are
the files stdin and stdout there, which the gate runs: the worked schedules, committed by all partitions and by one, and
mined; the worked runs, with all values of each epoch; a table of fair cuts; a schedule of two partitions with a
restart put in at every place; and random schedules. Each case ends with its vectors and, of each cut epoch, the
store and what it changed, and some with the values of each epoch that is mined.
"""
import argparse
import os
import random
import subprocess
import time
from itertools import chain

from draws import USERS, Draws, random_landmarks, random_record
from model import answers, commits, files_of, stored, world_of, worked
from programs import LONGEST, TOP, Check, conclude
from schedules import MOST_RECORDS
from texts import text_of
from words import read_replay

STEPS = os.path.join(TOP, 'crates', 'kin_steps')
STORED_SEEDS = range(1, 101)

FOUR_FOLLOWS = 'f,1,9|f,2,9|f,3,9|f,4,9;f,5,8|f,6,8|f,7,8|f,10,8'
ALL_AGREED = ['stamp 0 2', 'stamp 0 2', 'stamp 1 2', 'stamp 1 2', 'deliver 0 0 0 2', 'deliver 0 0 0 4',
              'deliver 0 1 0 2', 'deliver 0 1 0 4', 'report 0', 'raise 0', 'raise 1']


def looks(epochs):
    """Lines that ask for all that stands after so many cuts."""
    return ['vectors', *(f'{what} {k}' for k in range(1, epochs + 1) for what in ('store', 'deltas'))]


def mines(epochs):
    """Lines that mine so many epochs, and ask for the values of each."""
    return ['mine', 'result'] * epochs


def worked_cases():
    """Each worked schedule, committed by all partitions, mined after that, and committed by one partition alone."""
    for case in worked():
        epochs = len(case['vectors'])
        parts = world_of(case['world']).parts
        everything = [*case['lines'], *commits(parts, epochs)]
        by_one = [*case['lines'], *commits(parts[-1:], epochs)]
        begun = ['result', 'begin', 'turn 1', 'result']
        yield [f'# {case["name"]}, committed', case['world'], *everything, *looks(epochs)]
        mined = [*everything, *begun, *mines(epochs), *looks(epochs)]
        yield [f'# {case["name"]}, mined', f'{case["world"]} 1,4', *mined]
        if len(parts) > 1:
            yield [f'# {case["name"]}, committed by one partition', case['world'], *by_one, *looks(epochs)]


def run_cases():
    """Each worked run whose feeds a line can have, and then every epoch committed and mined, with its values."""
    for run in stored('reports.json'):
        asked = read_replay(files_of(run)[0])
        if not any(sign in feed for feed in run['feeds'] for sign in '\r";'):
            feeds = ';'.join(feed.rstrip('\n').replace('\n', '|') or '|' for feed in run['feeds'])
            landmarks = ','.join(str(u) for u in asked.landmarks or (1,))
            epochs = sum(line.startswith('cut') for line in run['schedule'])
            last = [*commits(range(asked.parts), epochs), *looks(epochs), *mines(epochs)]
            yield [f'# {run["name"]}', f'world {asked.parts} {feeds} {landmarks}', *run['schedule'], *last]


def fair_cases():
    """Two nodes of four follows each, all agreed: cut with each number until nothing is new, and then without."""
    for size in range(1, 13):
        epochs = -(-8 // size) + 2
        cuts = [f'cut {size}'] * (epochs - 1) + ['cut']
        last = [*commits([0], epochs), *looks(epochs)]
        yield [f'# cuts with {size}', f'world 1 {FOUR_FOLLOWS}', *ALL_AGREED, *cuts, *last]
    yield ['# a cut without a number', f'world 1 {FOUR_FOLLOWS}', *ALL_AGREED, 'cut', 'commit 0', *looks(1)]


def restart_cases():
    """Both orders of the schedule whose restart one partition has not seen, with one more restart at each place."""
    for case in worked():
        if case['name'].startswith('a restart that one partition has not seen'):
            for place in range(len(case['lines']) + 1):
                lines = case['lines'][:place] + ['crash 0', 'restart 0'] + case['lines'][place:]
                name = f'# {case["name"]}, and one more restart before line {place + 1}'
                yield [name, case['world'], *lines, 'commit 0', 'commit 1', *looks(1)]


# Random cases

def random_world(draw):
    """The line of a world with random feeds, partitions and landmarks."""
    feeds = ['|'.join(random_record(draw) for _ in range(draw.randrange(4, 40))) for _ in range(draw.randint(1, 3))]
    landmarks = ','.join(random_landmarks(draw))
    return ' '.join([f'world {draw.randint(1, 4)} {";".join(feeds)}', *([landmarks] if landmarks else [])])


class CaseDraws(Draws):
    """Draws lines of cases: besides events there are looks, and a few lines that say nothing."""

    def kinds(self):
        """What is drawn, and how often."""
        return {**super().kinds(), self.look: 1, self.wrong: 0.3}

    def look(self):
        """A store, or the values of the epoch begun last."""
        k = self.draw.randrange(5)
        return [self.draw.choice(['result', f'store {k}', f'deltas {k}'])]

    def wrong(self):
        """A line that is nothing."""
        return [self.draw.choice(['report', 'stamp 0', 'crash 9', 'cut 0', 'commit 99', 'result 1', 'store'])]


def random_case(seed):
    """A random world and schedule.

    What is cut is committed by all partitions or all but one, and in half of the cases mined.
    """
    draw = random.Random(seed)
    world = random_world(draw)
    history = world_of(world)
    draws = CaseDraws(draw, history)
    lines = draws.schedule(draw.randint(30, 60))
    if draw.random() < 0.6:
        lines += draws.noted([*draws.all_reports(), 'cut'])
    epochs = history.cuts(len(history.events))
    last = commits(history.parts if draw.random() < 0.8 else history.parts[:-1], epochs)
    mined = draw.choice([[], [], mines(epochs), turned(draw, epochs)])
    return [f'# by seed {seed}', world, *lines, *last, *looks(epochs), *mined]


def turned(draw, epochs):
    """Lines that mine so many epochs, each after some turns, and ask for the values after each line."""
    for _ in range(epochs):
        turns = [f'turn {draw.randrange(USERS)}' for _ in range(draw.randrange(3 * USERS))]
        yield from (line for event in ['begin', *turns, 'mine'] for line in (event, 'result'))


# Runs

def stored_cases():
    """The cases that are stored."""
    yield from worked_cases()
    yield from run_cases()
    yield from fair_cases()
    yield from restart_cases()
    yield from (random_case(seed) for seed in STORED_SEEDS)


def stored_texts():
    """What the stored files are to have."""
    lines = [line for case in stored_cases() for line in case]
    return {'stdin': text_of(lines), 'stdout': text_of(answers(lines))}


def write():
    """Writes the stored files."""
    for name, text in stored_texts().items():
        with open(os.path.join(STEPS, name), 'w', encoding='utf-8') as file:
            file.write(text)


def stored_checks():
    """Whether each stored file is what `write` would write."""
    for name, text in stored_texts().items():
        with open(os.path.join(STEPS, name), encoding='utf-8') as file:
            title = f'the stored {name} of kin_steps, which `tests/steps.py --write` writes'
            yield Check(title, True, file.read() == text)


def checks(program, cases):
    """The program, run on all cases at once."""
    cases = list(cases)
    text = text_of(line for case in cases for line in case)
    done = subprocess.run([program], input=text.encode(), stdout=subprocess.PIPE, timeout=LONGEST, check=False)
    came = done.stdout.decode().splitlines()
    for case in cases:
        want = list(answers(case))
        yield Check('\n'.join(case), want, came[:len(want)])
        came = came[len(want):]
    yield Check('the end of the program', (0, []), (done.returncode, came))


def main():
    parser = argparse.ArgumentParser(description='Runs the world on cases.')
    parser.add_argument('program', nargs='?')
    parser.add_argument('--write', action='store_true')
    parser.add_argument('--stored', action='store_true')
    parser.add_argument('--seed', type=int)
    parser.add_argument('--count', type=int, default=200)
    asked = parser.parse_args()
    if asked.write:
        write()
    elif asked.stored:
        more = checks(os.path.abspath(asked.program), stored_cases()) if asked.program else ()
        conclude(chain(stored_checks(), more))
    else:
        first = int(time.time()) % MOST_RECORDS if asked.seed is None else asked.seed
        print(f'seeds {first} to {first + asked.count - 1}')
        program = os.path.abspath(asked.program) if asked.program else os.path.join(STEPS, 'out', 'kin_steps')
        conclude(checks(program, map(random_case, range(first, first + asked.count))))


if __name__ == '__main__':
    main()
