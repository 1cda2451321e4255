#!/usr/bin/env python3
"""Times the program and parts of it on this machine. It is no test, and nothing is compared.

    bench/run.py [PROGRAM]            parts, by the program of crates/kin_bench, which `rt run -- chains 1 forward`
                                      builds there
    bench/run.py --command [PROGRAM]  whole commands, by the launcher at the top of the repository where PROGRAM is left
                                      out

A line has a job, its seconds, microseconds for each item, and its peak memory, which is no less than Python's own,
about 15 MiB. The items of `epochs` are records, or with `ones`, `tens` and `idle` epochs. With `-release` each epoch is
let go after the next; what is kept at the end of `epochs` isn't freed. A line of a difference is what a job takes
beyond another one: `worlds N steps` is `forward` beyond `open`, which reads the feeds and opens the world, so N events
of a world; `commits N stamps` is `cuts` beyond `open`, the same records stamped, delivered, agreed and cut;
`commits N commits` is `forward` beyond `cuts`, the commits; and `epochs N singles` is `ones` beyond `before`, the same
200,000 records, so N epochs of one record. `mining N 0`, `2` and `16` are ten epochs of N records each, mined from so
many landmarks after 200,000 records as one epoch; with `-scratch` they are evaluated from scratch instead, and with
`-open` they are left out; with `-epochs` behind it is the epochs alone, their commits among them.
"""
import argparse
import os
import subprocess
import sys
import tempfile
import time
from typing import List, NamedTuple

TOP = os.path.dirname(os.path.dirname(os.path.abspath(__file__)))
sys.path.insert(0, os.path.join(TOP, 'tests'))

from demo import write  # noqa: E402
from texts import text_of  # noqa: E402

PARTS = os.path.join(TOP, 'crates', 'kin_bench', 'out', 'kin_bench')
JOBS = [
    *(('chains', count, how) for count in (100000, 1000000) for how in ('forward', 'reverse')),
    *(('stores', count, how) for count in (20000, 200000) for how in ('celebrity', 'spread')),
    *(('worlds', count, how) for count in (10000, 1000000) for how in ('open', 'forward')),
    *(('commits', count, how) for count in (20000, 200000) for how in ('open', 'cuts', 'forward')),
    *(('epochs', 200000, how) for how in ('even', 'even-release', 'rank')),
    *(('epochs', 500000, how) for how in ('long', 'long-release')),
    *(('epochs', 20000, how) for how in ('before', 'ones', 'tens')),
    *(('epochs', 1000000, how) for how in ('idle', 'idle-release')),
    *(('mining', count, f'{landmarks}{until}') for count in (1, 10, 100, 1000, 10000) for landmarks in (0, 2, 16)
      for until in ('-open', '', '-scratch')),
]
DIFFERENCES = {('worlds', 'forward'): ('steps', 'open'), ('commits', 'cuts'): ('stamps', 'open'),
               ('commits', 'forward'): ('commits', 'cuts'), ('epochs', 'ones'): ('singles', 'before'),
               **{('mining', f'{landmarks}{how}'): (f'{landmarks}{how}-epochs', f'{landmarks}-open')
                  for landmarks in (0, 2, 16) for how in ('', '-scratch')}}
SHORT = 20000
LINES = 1048576
REPLAY = ['replay', '--script', 'schedule', '--feeds']


class Cost(NamedTuple):
    """What a job takes."""
    seconds: float
    mebibytes: float


def cost(words: List[str], folder=None) -> Cost:
    """What one run takes. What it prints goes nowhere."""
    start = time.monotonic()
    with subprocess.Popen(words, cwd=folder, stdin=subprocess.DEVNULL, stdout=subprocess.DEVNULL) as child:
        _, status, used = os.wait4(child.pid, 0)
        child.returncode = os.WEXITSTATUS(status) if os.WIFEXITED(status) else -1
    if child.returncode != 0:
        sys.exit(f'{" ".join(words)}: exit {child.returncode}')
    return Cost(time.monotonic() - start, used.ru_maxrss / 1024)


def least_cost(words, runs):
    """The cost of the quickest run: where runs are short, the start of a process matters little in it."""
    return min(cost(words) for _ in range(runs))


def show(what, how, count, took):
    """A line of the table."""
    memory = f'{took.mebibytes:7.0f} MiB' if took.mebibytes else ''
    print(f'{what:8} {how:12} {count:8} {took.seconds:8.3f} {took.seconds / count * 1e6:8.2f} {memory}', flush=True)


def parts(program):
    """Times the parts."""
    costs = {}
    for what, count, how in JOBS:
        runs = 5 if count <= SHORT and what != 'mining' else 1
        costs[what, count, how] = least_cost([program, what, str(count), how], runs)
        show(what, how, count, costs[what, count, how])
        if (what, how) in DIFFERENCES:
            name, less = DIFFERENCES[what, how]
            show(what, name, count, Cost(costs[what, count, how].seconds - costs[what, count, less].seconds, 0))


def commands(program):
    """Times whole commands: the files of a generated job, a schedule of the most lines, and generated jobs."""
    with tempfile.TemporaryDirectory() as folder:
        write(folder, 7, 200000)
        words = [program, *REPLAY, 'feed0,feed1,feed2', '--parts', '4', '--landmarks', '0']
        show('replay', 'records', 200000, cost(words, folder))
        with open(os.path.join(folder, 'schedule'), 'w', encoding='ascii') as file:
            file.write(text_of(['report 0', 'cut'] * (LINES // 2)))
        show('replay', 'lines', LINES, cost([program, *REPLAY, 'feed0'], folder))
    for count in (20000, 50000, 200000):
        show('demo', 'seed 7', count, cost([program, 'demo', '--seed', '7', '--records', str(count)]))


def main():
    parser = argparse.ArgumentParser(description='Times the program and parts of it on this machine.')
    parser.add_argument('program', nargs='?')
    parser.add_argument('--command', action='store_true')
    asked = parser.parse_args()
    print(f'{"job":8} {"how":12} {"items":>8} {"seconds":>8} {"us/item":>8} {"peak":>11}')
    if asked.command:
        commands(os.path.abspath(asked.program or os.path.join(TOP, 'kineo')))
    else:
        parts(os.path.abspath(asked.program or PARTS))


if __name__ == '__main__':
    main()
