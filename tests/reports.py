"""Reports: the block of an epoch, the trace of events, and what a whole run prints."""
from rules import closeness, exposures, hops, in_counts, out_counts, ranks, tag_counts, top


def walk_lines(head, entry, values, landmark, length):
    """How many users a walk reaches, and the farthest of them."""
    yield f'{head} {landmark} {len(values)}'
    for u, value in top(values, length):
        yield f'{entry} {landmark} {u} {value}'


def rule_lines(graph, options):
    """The lines of each chosen rule, in the order of a block."""
    tags = top(tag_counts(graph), options.top)
    plain = {'in': in_counts, 'out': out_counts, 'said': lambda graph: graph.said, 'tags': tag_counts, 'rank': ranks}
    for rule, values in plain.items():
        if rule in options.rules:
            word = 'tag' if rule == 'tags' else rule
            yield from (f'{word} {name} {n}' for name, n in top(values(graph), options.top))
    if 'expo' in options.rules:
        exposed = exposures(graph)
        for tag, _ in tags:
            yield ' '.join([f'expo {tag}', *exposed_to(exposed[tag])])
    for rule, entry, values in (('hops', 'hop', hops), ('close', 'cost', closeness)):
        if rule in options.rules:
            for landmark in options.landmarks:
                yield from walk_lines(rule, entry, values(graph, landmark), landmark, options.top)


def head(history, n, k):
    """The first line of a block: the epoch's vector, its new records, and how many of them are bad."""
    new = [record for _, record in history.new_records(k)]
    return ' '.join([f'epoch {k}', *history.entries(n, k), f'records {len(new)} bad {new.count(("bad",))}'])


def block(history, k, options):
    """The block of an epoch, in lines, by what the whole history says."""
    return [head(history, len(history.events), k), *rule_lines(history.snapshot(k), options)]


def run(history, events):
    """Runs a schedule, whose events have the numbers of their lines, and then the drain.

    Gives the schedule's trace.
    """
    trace = [f'# {line} {history.answer(event)}' for line, event in events]
    event = history.next_of_drain()
    while event:
        history.answer(event)
        event = history.next_of_drain()
    return trace


def report(history, events, options):
    """What a whole run prints, in lines."""
    trace = run(history, events)
    for n, event in enumerate(history.events):
        if options.trace and n < len(trace):
            yield trace[n]
        if event.word == 'mine' and history.refusal(n) is None:
            yield from block(history, history.mined(n) + 1, options)


def results(graph, landmarks):
    """Every value on a graph, in lines: of each user, and then of each tag with its exposures."""
    ins, outs, rank, users = in_counts(graph), out_counts(graph), ranks(graph), tag_counts(graph)
    hop = [hops(graph, landmark) for landmark in landmarks]
    cost = [closeness(graph, landmark) for landmark in landmarks]
    for u in graph.users():
        said = graph.said.get(u, 0)
        walks = ['hops', *(str(of.get(u, '-')) for of in hop), 'close', *(str(of.get(u, '-')) for of in cost)]
        yield ' '.join([f'value {u} in {ins[u]} out {outs[u]} said {said} rank {rank[u]}', *walks])
    for tag, exposed in sorted(exposures(graph).items()):
        yield ' '.join([f'use {tag} {users[tag]}', *exposed_to(exposed)])


def exposed_to(exposed):
    """Exposures as text: how many users for each k."""
    return [f'{k}:{n}' for k, n in sorted(exposed.items())]
