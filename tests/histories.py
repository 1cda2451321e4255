"""Histories of events, and what they mean by the definitions of docs/MODEL.md."""
from bisect import bisect_left
from collections import defaultdict
from typing import NamedTuple

from graphs import Graph
from schedules import MOST_RESTARTS, Event


class Stamp(NamedTuple):
    """A transaction of a node and incarnation: the records past `begin` up to `to`."""
    node: int
    inc: int
    begin: int
    to: int


def known(notion):
    """Keeps what a notion gave.

    It changes no answer, since what is true of the first n events stays true of them.
    """
    def look_up(self, *of):
        key = (notion.__name__, *of)
        if key not in self.kept:
            self.kept[key] = notion(self, *of)
        return self.kept[key]
    look_up.__doc__ = notion.__doc__
    return look_up


def end_of(stamps):
    """Where a list of stamps ends."""
    return stamps[-1].to if stamps else 0


class History:
    """A list of events over feeds and partitions.

    Each notion takes n first, and speaks of the history of the first n events. An event is accepted where it
    has no refusal. The places of the accepted events of each kind are kept in lists that grow with the history,
    so those among the first n events are the front of such a list; likewise the stamps of each node. And it is
    kept which event first brought a transaction to a partition.
    """

    def __init__(self, feeds, parts, landmarks=()):
        self.feeds, self.parts, self.landmarks = feeds, range(parts), landmarks
        self.nodes = range(len(feeds))
        self.events, self.places, self.made = [], defaultdict(list), [[] for _ in feeds]
        self.first, self.kept = {}, {}

    def answer(self, event):
        """The outcome of one more event, which the history has from then on."""
        n = len(self.events)
        self.events.append(event)
        if self.refusal(n) is None:
            subject = tuple(number for number in (event.part, event.node) if number is not None)
            for key in {(event.word,), (event.word, *subject)}:
                self.places[key].append(n)
            if event.word == 'stamp':
                self.made[event.node].append(self.stamp_of(n))
            if event.word == 'deliver':
                self.first.setdefault((event.part, self.named(n)), n)
        return self.outcome(n)

    # Accepted events

    def count(self, n, word, *of):
        """How many events of this kind were accepted."""
        return bisect_left(self.places[(word, *of)], n)

    def accepted(self, n, word, *of):
        """The places of the accepted events of this kind, oldest first."""
        return self.places[(word, *of)][:self.count(n, word, *of)]

    def last(self, n, word, *of):
        """The place of the last accepted event of this kind, or -1."""
        count = self.count(n, word, *of)
        return self.places[(word, *of)][count - 1] if count else -1

    # Nodes

    def inc(self, n, i):
        """How often a node came back."""
        return self.count(n, 'restart', i)

    def up(self, n, i):
        """No accepted crash stands after the last accepted restart."""
        return self.last(n, 'crash', i) <= self.last(n, 'restart', i)

    def base(self, n, i, c):
        """Where incarnation c began: at the agreed position when it came back."""
        return self.agreed(self.places['restart', i][c - 1], i) if c else 0

    def line(self, n, i):
        """The surviving transactions of a node."""
        m = max(self.last(n, 'stamp', i), self.last(n, 'restart', i))
        return self.line_after(m, i) if m >= 0 else []

    @known
    def line_after(self, m, i):
        """The line of a node after event m, which is an accepted stamp or restart of it."""
        if self.events[m].word == 'restart':
            return [stamp for stamp in self.line(m, i) if stamp.to <= self.agreed(m, i)]
        return self.line(m, i) + [self.stamp_of(m)]

    @known
    def stamp_of(self, n):
        """The stamp that event n makes."""
        event = self.events[n]
        i, begin = event.node, end_of(self.line(n, event.node))
        return Stamp(i, self.inc(n, i), begin, min(begin + event.n, len(self.feeds[i])))

    def stamps(self, n, i):
        """All stamps that the node ever made."""
        return self.made[i][:self.count(n, 'stamp', i)]

    # Partitions

    @known
    def named(self, n):
        """The stamp that event n delivers: the one of its node and incarnation that ends where it says, or None."""
        event = self.events[n]
        key = event.inc, event.to
        return next((stamp for stamp in self.stamps(n, event.node) if (stamp.inc, stamp.to) == key), None)

    def came(self, n, p, stamp):
        """Whether a transaction came to a partition."""
        return self.first.get((p, stamp), n) < n

    def seen(self, n, p, i):
        """The greatest incarnation of a node that came to a partition."""
        return max((self.events[m].inc for m in self.accepted(n, 'deliver', p, i)), default=0)

    def top(self, n, p, i):
        """The end of the longest run of stamps of that incarnation, from its base on, that all came."""
        seen = self.seen(n, p, i)
        run = self.base(n, i, seen)
        for stamp in self.stamps(n, i):
            if stamp.inc == seen and stamp.begin == run:
                if not self.came(n, p, stamp):
                    break
                run = stamp.to
        return run

    def ack(self, n, p, i):
        """The end of the longest front of the line that had come whole to the partition when it reported last."""
        report, front = self.last(n, 'report', p), []
        for stamp in self.line(n, i):
            if not self.came(report, p, stamp):
                break
            front.append(stamp)
        return end_of(front)

    def agreed(self, n, i):
        """The least that the partitions had acknowledged at the last raise."""
        m = self.last(n, 'raise', i)
        return self.agreed_by(m, i) if m >= 0 else 0

    @known
    def agreed_by(self, m, i):
        """The least that the partitions have acknowledged at event m, a raise."""
        return min(self.ack(m, p, i) for p in self.parts)

    # Epochs

    def cuts(self, n):
        """How many epochs are cut."""
        return self.count(n, 'cut')

    @known
    def vector(self, k):
        """One position for each node: where epoch k ends. No later event changes it."""
        if k == 0:
            return [0 for _ in self.nodes]
        m = self.places['cut',][k - 1]
        agreed = [self.agreed(m, i) for i in self.nodes]
        size = self.events[m].n
        return agreed if size is None else self.fair(m, self.vector(k - 1), agreed, size)

    def fair(self, n, prev, agreed, size):
        """From `prev` on, the shortest front with so many records of all that is agreed.

        What is agreed stands in the order of its number within its node, and at equal numbers by node.
        """
        pending = [[stamp for stamp in self.line(n, i) if prev[i] < stamp.to <= agreed[i]] for i in self.nodes]
        in_turn = sorted((place, stamp) for stamps in pending for place, stamp in enumerate(stamps))
        vector, taken = list(prev), 0
        for _, stamp in in_turn:
            if taken >= size:
                break
            vector[stamp.node], taken = stamp.to, taken + stamp.to - stamp.begin
        return vector

    def committed(self, n, p):
        """How many epochs a partition has committed."""
        return self.count(n, 'commit', p)

    def mined(self, n):
        """How many epochs were mined."""
        return self.count(n, 'mine')

    def is_open(self, n):
        """Whether an epoch was begun and not yet mined."""
        return self.last(n, 'begin') > self.last(n, 'mine')

    def new_records(self, k):
        """The records that epoch k adds, each with its place: node by node, by number."""
        for i in self.nodes:
            for r in range(self.vector(k - 1)[i], self.vector(k)[i]):
                yield (k, i, r + 1), self.feeds[i][r]

    def snapshot(self, k):
        """The graph of all records within vector k, folded in the agreed order: by epoch, by node, by number."""
        graph = Graph()
        for epoch in range(1, k + 1):
            for place, record in self.new_records(epoch):
                graph.apply(place, record)
        return graph

    def entries(self, n, k):
        """Vector k as it is printed: with the incarnation of the transaction that ends there."""
        for i, position in enumerate(self.vector(k)):
            incs = [stamp.inc for stamp in self.line(n, i) if stamp.to == position]
            yield f'{incs[0]}@{position}' if position else '-'

    # Outcomes

    def held_back(self, n):
        """Why the next epoch can't be opened."""
        k = self.mined(n) + 1
        if self.cuts(n) < k:
            return 'nothing-cut'
        return next((f'not-committed {p}' for p in self.parts if self.committed(n, p) < k), None)

    @known
    def refusal(self, n):
        """Why event n is refused, or None where it is accepted."""
        event = self.events[n]
        word, i, p = event.word, event.node, event.part
        if word == 'stamp' and self.up(n, i):
            return 'exhausted' if end_of(self.line(n, i)) == len(self.feeds[i]) else None
        if word in ('stamp', 'crash'):
            return None if self.up(n, i) else 'down'
        if word == 'restart':
            return 'up' if self.up(n, i) else 'spent' if self.inc(n, i) == MOST_RESTARTS else None
        if word == 'deliver':
            return None if self.named(n) else 'not-sent'
        if word == 'cut':
            return next((f'not-reported {q}' for q in self.parts if not self.count(n, 'report', q)), None)
        if word == 'commit':
            return 'nothing-cut' if self.committed(n, p) == self.cuts(n) else None
        if word == 'begin':
            return f'busy {self.mined(n) + 1}' if self.is_open(n) else self.held_back(n)
        if word == 'turn':
            return None if self.is_open(n) else 'not-begun'
        if word == 'mine':
            return None if self.is_open(n) else self.held_back(n)
        return None

    def delivery(self, n):
        """What an accepted delivery answers."""
        p, i, stamp = self.events[n].part, self.events[n].node, self.named(n)
        if self.seen(n, p, i) > stamp.inc:
            return f'stale {self.seen(n, p, i)}'
        if self.came(n, p, stamp):
            return 'repeat'
        top = self.top(n + 1, p, i)
        return f'early {top}' if stamp.to > top else f'held {top}'

    def outcome(self, n):
        """What event n answers, as text."""
        word, i, p = self.events[n].word, self.events[n].node, self.events[n].part
        if self.refusal(n):
            return self.refusal(n)
        if word == 'stamp':
            stamp = self.stamp_of(n)
            return f'stamped {stamp.inc} {stamp.begin} {stamp.to}'
        if word == 'deliver':
            return self.delivery(n)
        if word == 'raise':
            old, new = self.agreed(n, i), self.agreed(n + 1, i)
            return f'raised {new}' if new > old else f'level {new}'
        if word == 'restart':
            inc = self.inc(n + 1, i)
            return f'restarted {inc} {self.base(n + 1, i, inc)}'
        if word == 'commit':
            return f'committed {self.committed(n, p) + 1}'
        cut, mined = self.cuts(n) + 1, self.mined(n) + 1
        plain = {'cut': f'epoch {cut}', 'begin': f'begun {mined}', 'mine': f'mined {mined}', 'report': 'reported',
                 'turn': 'turned', 'crash': 'crashed'}
        return plain[word]

    # What is left to do

    def next_of_drain(self):
        """What a run does next after its schedule, or None where nothing is left.

        The least partition that hasn't committed every cut commits; where there is none, the next epoch is mined.
        """
        n = len(self.events)
        behind = [p for p in self.parts if self.committed(n, p) < self.cuts(n)]
        if behind:
            return Event('commit', part=behind[0])
        return Event('mine') if self.mined(n) < self.cuts(n) else None
