#!/usr/bin/env python3
"""Counts the edges that the turns of hops and closeness read in the epochs of the jobs `mining` of bench/run.py.

    bench/reads.py

The program's own counter of them exists for contracts alone, so this makes the same random records and the same turns.
A line has the landmarks, the records of an epoch, and the mean of what all turns of one of ten epochs read: each turn
of hops 1 and the follow edges out of its user, and each turn of closeness 2 and the follow and mention edges. The last
line has what the edges of the whole graph are, which an evaluation from scratch reads once. Epochs are taken as so many
records in turn, where the program takes whole stamps.
"""
from collections import defaultdict

MASK = 2 ** 64 - 1
BEFORE, AFTER, EPOCHS = 200000, 100000, 10


def rotated(word, by):
    """The word, rotated to the left."""
    return (word << by | word >> 64 - by) & MASK


def draws(seed):
    """The words of xoshiro256++, seeded by splitmix64."""
    state = []
    for _ in range(4):
        seed = seed + 0x9e3779b97f4a7c15 & MASK
        word = (seed ^ seed >> 30) * 0xbf58476d1ce4e5b9 & MASK
        word = (word ^ word >> 27) * 0x94d049bb133111eb & MASK
        state.append(word ^ word >> 31)
    while True:
        yield rotated(state[0] + state[3] & MASK, 23) + state[0] & MASK
        last = state[1] << 17 & MASK
        state[2] ^= state[0]
        state[3] ^= state[1]
        state[1] ^= state[2]
        state[0] ^= state[3]
        state[2] ^= last
        state[3] = rotated(state[3], 45)


def records(count):
    """Random records, each as its follow edges and its mention edges."""
    words, users = draws(1), count // 4 + 2
    for _ in range(count):
        user, word = next(words) // 16 % users, next(words)
        kind, other = word % 16, word % (users - 1)
        other += other >= user
        items = [next(words) for _ in range(1 + word % 3)] if 10 <= kind < 15 else []
        yield ([(user, other)] if kind < 9 else []), [(user, item // 2 % users) for item in items if item % 2 == 0]


class Walks:
    """A rule of walks from a landmark, with the costs of follow and mention edges, over edges that are shared."""

    def __init__(self, landmark, costs, base, edges):
        self.landmark, self.costs, self.base, self.edges = landmark, costs, base, edges
        self.values = {}

    def size(self, user):
        """What a turn of the user reads."""
        return self.base + sum(len(edges[user]) for cost, edges in zip(self.costs, self.edges) if cost)

    def settle(self, starts):
        """Turns, wave by wave and lesser values first, until nobody is active: what they read."""
        reads, active = 0, {u for cost, some in zip(self.costs, starts) if cost for u in some}
        if not self.values:
            self.values[self.landmark] = 0
            active.add(self.landmark)
        while active:
            wave, active = sorted(active, key=lambda u: self.values.get(u, -1)), set()
            for u in wave:
                reads += self.size(u)
                if u in self.values:
                    self.offer(u, active)
        return reads

    def offer(self, user, active):
        """Offers the user's value along its edges."""
        for cost, edges in zip(self.costs, self.edges):
            for w in edges[user] if cost else ():
                offer = self.values[user] + cost
                if offer < self.values.get(w, offer + 1):
                    self.values[w] = offer
                    active.add(w)


class Job:
    """The graph and the walks of some landmarks, epoch by epoch."""

    def __init__(self, landmarks):
        self.edges = defaultdict(set), defaultdict(set)
        self.walks = [Walks(landmark, costs, base, self.edges) for landmark in range(landmarks)
                      for costs, base in (((1, 0), 1), ((3, 1), 2))]

    def epoch(self, some):
        """An epoch of these records: what its turns read."""
        starts = set(), set()
        for record in some:
            for mine, edges, new in zip(starts, self.edges, record):
                for u, w in new:
                    if w not in edges[u]:
                        edges[u].add(w)
                        mine.add(u)
        return sum(walks.settle(starts) for walks in self.walks)


def main():
    every = list(records(BEFORE + AFTER))
    print(f'{"landmarks":>9} {"records":>8} {"reads":>10}')
    for landmarks in (0, 2, 16):
        for size in (1, 10, 100, 1000, 10000):
            job = Job(landmarks)
            job.epoch(every[:BEFORE])
            reads = sum(job.epoch(every[at:at + size]) for at in range(BEFORE, BEFORE + EPOCHS * size, size))
            print(f'{landmarks:9} {size:8} {reads / EPOCHS:10.1f}', flush=True)
    follows, mentions = (sum(map(len, edges.values())) for edges in job.edges)
    print(f'edges: {follows} follows, {mentions} mentions')


if __name__ == '__main__':
    main()
