"""The commands, evaluated plainly: what each prints, how it ends, and what it says on standard error."""
from typing import NamedTuple

from graphs import records
from histories import History
from jobs import NODES, PARTS, feeds_of, schedule_of
from reports import block, report, run
from schedules import MOST_RECORDS, Outside, events_of
from texts import lines_of, text_of
from words import Replay, Usage, read_demo, read_replay

MOST_BYTES = 33554432
MOST_LINES = 1048576


class Answer(NamedTuple):
    """How a run of the program ends."""
    stdout: str
    status: int
    stderr: str


USAGE = Answer('', 2, 'kineo: usage\n')
CANNOT_READ = Answer('', 4, 'kineo: cannot read\n')


def limit(which):
    """The answer where a limit is passed."""
    return Answer('', 6, f'kineo: limit {which}\n')


def replay(words, texts):
    """The answer of `replay` to the words after it. The refusals stand in their order.

    `texts` has the text of each file, with a character for each byte. A file that isn't there can't be read.
    """
    try:
        asked = read_replay(words)
    except Usage:
        return USAGE
    taken = 0
    for name in asked.feeds:
        if name not in texts:
            return CANNOT_READ
        taken += len(texts[name])
        if taken > MOST_BYTES:
            return limit('feed-bytes')
    feeds = [records(texts[name]) for name in asked.feeds]
    if sum(len(feed) for feed in feeds) > MOST_RECORDS:
        return limit('records')
    if asked.script not in texts:
        return CANNOT_READ
    if len(texts[asked.script]) > MOST_BYTES:
        return limit('script-bytes')
    lines = lines_of(texts[asked.script])
    if len(lines) > MOST_LINES:
        return limit('script-lines')
    try:
        events = list(events_of(lines, len(feeds), asked.parts))
    except Outside as line:
        return Answer('', 3, f'kineo: script line {line}\n')
    return Answer(text_of(report(History(feeds, asked.parts), events, asked)), 0, '')


def demo(words):
    """The answer of `demo` to the words after it."""
    try:
        asked = read_demo(words)
    except Usage:
        return USAGE
    feeds = [records(text) for text in feeds_of(asked.seed, asked.records)]
    history = History(feeds, PARTS)
    run(history, events_of(schedule_of(asked.seed, [len(feed) for feed in feeds]), NODES, PARTS))
    epochs, bad = history.cuts(len(history.events)), sum(feed.count(('bad',)) for feed in feeds)
    head = f'demo seed {asked.seed} records {asked.records} epochs {epochs} bad {bad}'
    return Answer(text_of([head, *block(history, epochs, Replay('', (), landmarks=(0,)))]), 0, '')


def kineo(words, texts):
    """The answer of the program to its words."""
    if words[:1] == ['replay']:
        return replay(words[1:], texts)
    return demo(words[1:]) if words[:1] == ['demo'] else USAGE
