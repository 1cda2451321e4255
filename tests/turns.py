"""The open epoch's turns, made one by one, and who is active after them."""
from collections import defaultdict
from math import inf

from rules import FOLLOW_COST, LAYERS, MENTION_COST, MOST_RANK, closeness, hops, out_counts


class Walks:
    """A rule of walks from a landmark in an open epoch.

    It begins with the values of the epoch before. Active are those with a new edge out of them, and a landmark that has
    become a vertex, with 0. A turn of an active user offers its value along each edge; who is offered less than it has
    takes that and is active.
    """

    def __init__(self, rule, costs, landmark, was, graph):
        self.values, self.ways, self.active = dict(rule(was, landmark)), defaultdict(list), set()
        for name, cost in costs.items():
            before, now = getattr(was, name), getattr(graph, name)
            self.active.update(u for u, w in now if (u, w) not in before)
            for u, w in now:
                self.ways[u].append((cost, w))
        if landmark in graph.users() and landmark not in self.values:
            self.values[landmark] = 0
            self.active.add(landmark)

    def turn(self, user):
        """A turn of a user; of one who isn't active it does nothing."""
        if user in self.active:
            self.active.discard(user)
            for cost, w in self.ways[user]:
                offer = self.values.get(user, inf) + cost
                if offer < self.values.get(w, inf):
                    self.values[w] = offer
                    self.active.add(w)


class Facts:
    """What a user's readers know of it: how many it follows, and its first uses."""

    def __init__(self, graph):
        self.outs, self.uses = out_counts(graph), defaultdict(dict)
        for (u, tag), place in graph.uses.items():
            self.uses[u][tag] = place

    def of(self, user):
        """The facts of a user."""
        return self.outs[user], self.uses.get(user, {})


class Rank:
    """Eight layers of sums of shares of followers."""
    layers, first = LAYERS, 0

    @staticmethod
    def inputs(edge):
        """Who reads whom where there is a follow edge."""
        return edge[1], edge[0]

    @staticmethod
    def share(facts, value):
        """What a follower gives."""
        return (1000000 + value // 2) // facts[0] if facts[0] else 0

    @classmethod
    def made(cls, _own, inputs):
        """The next layer."""
        return min(sum(cls.share(*one) for one in inputs), MOST_RANK)

    @staticmethod
    def own_alike(_was, _now):
        """A user's own facts don't matter."""
        return True

    @classmethod
    def alike(cls, was, now):
        """Whether facts and value give the same."""
        return cls.share(*was) == cls.share(*now)


class Exposure:
    """One layer: of each tag that a user uses, how many of those whom it follows used it before."""
    layers, first = 1, {}

    @staticmethod
    def inputs(edge):
        """Who reads whom where there is a follow edge."""
        return edge

    @staticmethod
    def made(own, inputs):
        """The next layer."""
        return {tag: sum(facts[1].get(tag, place) < place for facts, _ in inputs) for tag, place in own[1].items()}

    @staticmethod
    def own_alike(was, now):
        """Whether the uses are the same."""
        return was[1] == now[1]

    @staticmethod
    def alike(was, now):
        """Whether the uses are the same."""
        return was[0][1] == now[0][1]


class Layers:
    """A rule of layers in an open epoch.

    It begins with the layers of the epoch before. Whoever came to follow somebody, ceased to, or has a new first use has
    yet to tell its facts. Active are these, those with another input, and those whose own facts make other layers. A
    turn computes each layer of an active user again; whoever reads it is active from above the first layer whose change
    shows, to those who know its facts of before or of now.
    """

    def __init__(self, rule, was, graph):
        self.rule, before, now = rule, Facts(was), Facts(graph)
        self.facts, self.inputs, self.readers = now, defaultdict(set), defaultdict(set)
        changed = set(was.present()) ^ set(graph.present())
        for reader, read in map(rule.inputs, graph.present()):
            self.inputs[reader].add(read)
            self.readers[read].add(reader)
        touched = {u for u, _ in changed} | {u for u, _ in set(graph.uses) - set(was.uses)}
        self.told = {u: before.of(u) for u in touched}
        own = {u for u in touched if not rule.own_alike(before.of(u), now.of(u))}
        self.least = {u: 1 for u in own | {rule.inputs(edge)[0] for edge in changed}}
        self.values = plain_layers(rule, was, before)

    @property
    def active(self):
        """Who is active."""
        return self.told.keys() | self.least.keys()

    def value(self, user, layer):
        """The value of a user in a layer."""
        return self.values[user][layer - 1] if layer and user in self.values else self.rule.first

    def turn(self, user):
        """A turn of a user; of one who isn't active it does nothing."""
        if user in self.active:
            layers, facts = range(self.rule.layers), self.facts.of(user)
            old = [self.value(user, layer) for layer in layers]
            read = self.inputs[user]
            self.values[user] = [self.rule.made(facts, [(self.facts.of(y), self.value(y, layer)) for y in read])
                                 for layer in layers]
            ways = [self.told.pop(user, facts), facts]
            self.least.pop(user, None)
            shown = [layer for layer in layers
                     if any(not self.rule.alike((was, old[layer]), (facts, self.value(user, layer))) for was in ways)]
            for reader in self.readers[user] if shown else ():
                self.least[reader] = min(self.least.get(reader, inf), shown[0] + 1)


def plain_layers(rule, graph, facts):
    """The layers of each user of a graph."""
    inputs = defaultdict(set)
    for reader, read in map(rule.inputs, graph.present()):
        inputs[reader].add(read)
    values = {u: [] for u in graph.users()}
    for layer in range(rule.layers):
        below = {u: layers[-1] if layer else rule.first for u, layers in values.items()}
        for u, layers in values.items():
            layers.append(rule.made(facts.of(u), [(facts.of(y), below[y]) for y in inputs[u]]))
    return values


COSTS = [(hops, {'follows': 1}), (closeness, {'follows': FOLLOW_COST, 'mentions': MENTION_COST})]


def active_users(history):
    """Who is active: nobody where no epoch is open."""
    n = len(history.events)
    if not history.is_open(n):
        return set()
    k, begun = history.mined(n), history.last(n, 'begin')
    was, graph = history.snapshot(k), history.snapshot(k + 1)
    turns = [history.events[m].user for m in history.accepted(n, 'turn') if m > begun]
    kept = [Walks(rule, costs, landmark, was, graph) for rule, costs in COSTS for landmark in history.landmarks]
    kept += [Layers(rule, was, graph) for rule in (Rank, Exposure)]
    for one in kept:
        for user in turns:
            one.turn(user)
    return set().union(*(one.active for one in kept))
