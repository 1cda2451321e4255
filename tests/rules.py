"""The eight rules on one graph, from the definitions of docs/MODEL.md. Nothing here knows of the epoch before."""
import heapq
from collections import Counter, defaultdict

RULES = ('in', 'out', 'said', 'tags', 'rank', 'expo', 'hops', 'close')
LAYERS = 8
MOST_RANK = 10 ** 15
FOLLOW_COST, MENTION_COST = 3, 1


def in_counts(graph):
    """How many follow each user now."""
    return Counter(v for _, v in graph.present())


def out_counts(graph):
    """How many each user follows now."""
    return Counter(u for u, _ in graph.present())


def tag_counts(graph):
    """How many users have used each tag."""
    return Counter(tag for _, tag in graph.uses)


def ranks(graph):
    """Each user's rank: eight layers of shares, in whole numbers."""
    edges, outs = graph.present(), out_counts(graph)
    rank = Counter()
    for _ in range(LAYERS):
        share = {u: (1000000 + rank[u] // 2) // outs[u] for u in outs}
        sums = Counter()
        for u, v in edges:
            sums[v] += share[u]
        rank = Counter({v: min(total, MOST_RANK) for v, total in sums.items()})
    return rank


def exposures(graph):
    """For each tag and each k, how many users used the tag after exactly k of those whom they follow now."""
    followed, of_tags = defaultdict(list), defaultdict(Counter)
    for u, w in graph.present():
        followed[u].append(w)
    for (u, tag), place in graph.uses.items():
        k = sum((w, tag) in graph.uses and graph.uses[w, tag] < place for w in followed[u])
        of_tags[tag][k] += 1
    return of_tags


def hops(graph, landmark):
    """The least number of edges of a walk from the landmark to each user that one reaches.

    A walk goes over follow edges, present or not.
    """
    followed = defaultdict(list)
    for u, w in graph.follows:
        followed[u].append(w)
    least, edge = {}, [landmark] if landmark in graph.users() else []
    distance = 0
    while edge:
        least.update((u, distance) for u in edge)
        edge = sorted({w for u in edge for w in followed[u] if w not in least})
        distance += 1
    return least


def closeness(graph, landmark):
    """The least cost of a walk from the landmark to each user that one reaches.

    A walk goes over follow edges, present or not, and over mention edges.
    """
    ways = defaultdict(list)
    for u, w in graph.follows:
        ways[u].append((FOLLOW_COST, w))
    for u, w in graph.mentions:
        ways[u].append((MENTION_COST, w))
    least, offers = {}, [(0, landmark)] if landmark in graph.users() else []
    while offers:
        cost, u = heapq.heappop(offers)
        if u not in least:
            least[u] = cost
            for more, w in ways[u]:
                heapq.heappush(offers, (cost + more, w))
    return least


def top(numbers, length):
    """The first `length` entries with a number above 0, greater numbers first, ties by the lesser name."""
    entries = [(name, n) for name, n in numbers.items() if n > 0]
    return sorted(entries, key=lambda entry: (-entry[1], entry[0]))[:length]
