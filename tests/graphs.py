"""Records of feeds and the one graph that they make, from the definitions of docs/MODEL.md."""
import csv
import io
import re

DECIMAL = re.compile(r'0|[1-9][0-9]{0,19}', re.ASCII)
TAG = re.compile(r'[a-z0-9_]{1,24}', re.ASCII)
BYTE_ORDER_MARK = '\xef\xbb\xbf'

# A field of any length is read.
csv.field_size_limit(2 ** 31 - 1)


def number(text, values):
    """The number among `values` that is written so: without sign and without leading zero. Else None."""
    return int(text) if DECIMAL.fullmatch(text) and int(text) in values else None


def user(text):
    """The user that is written so, or None."""
    return number(text, range(2 ** 32))


def item(text):
    """What an item of a tweet names: ('@', user), ('#', tag), or None."""
    if text.startswith('@') and user(text[1:]) is not None:
        return '@', user(text[1:])
    return ('#', text[1:]) if text.startswith('#') and TAG.fullmatch(text[1:]) else None


def record(row):
    """('f', u, v), ('x', u, v), ('t', u, items), or ('bad',)."""
    if row[0] in ('f', 'x') and len(row) == 3:
        u, v = user(row[1]), user(row[2])
        if u is not None and v is not None and u != v:
            return row[0], u, v
    if row[0] == 't' and 3 <= len(row) <= 18:
        u, items = user(row[1]), [item(text) for text in row[2:]]
        if u is not None and None not in items:
            return 't', u, items
    return ('bad',)


def records(text):
    """The records of a feed: a row of CSV each, and none for an empty line.

    The text has a character for each byte.
    """
    if text.startswith(BYTE_ORDER_MARK):
        text = text[len(BYTE_ORDER_MARK):]
    # Older readers of CSV take no NUL. No good record has one, nor what stands in its place.
    text = text.replace('\0', '\1')
    return [record(row) for row in csv.reader(io.StringIO(text, newline='')) if row]


class Graph:
    """The follow edges ever added, each with its first place and whether it is present; mentions; first uses."""

    def __init__(self):
        self.follows, self.mentions, self.said, self.uses = {}, set(), {}, {}

    def apply(self, place, what):
        """What a record at this place does."""
        if what[0] == 'f':
            self.follows[what[1:]] = (self.follows.get(what[1:], (place, True))[0], True)
        elif what[0] == 'x' and what[1:] in self.follows:
            self.follows[what[1:]] = (self.follows[what[1:]][0], False)
        elif what[0] == 't':
            for kind, name in what[2]:
                if kind == '@':
                    self.mentions.add((what[1], name))
                    self.said[name] = self.said.get(name, 0) + 1
                else:
                    self.uses.setdefault((what[1], name), place)

    def present(self):
        """The follow edges that are present."""
        return [edge for edge, (_, present) in self.follows.items() if present]

    def users(self):
        """The vertices: who stands in a follow edge ever added, in a mention edge or in a use. They ascend."""
        ends = {end for edge in [*self.follows, *self.mentions] for end in edge}
        return sorted(ends | {u for u, _ in self.uses})

    def text(self):
        """A line for each user, and then for each tag with how many use it.

        Follow halves stand in the order of first adding, all else ascends.
        """
        halves = sorted((place, a, b, present) for (a, b), (place, present) in self.follows.items())
        for u in self.users():
            outs = [half(b, place, present) for place, a, b, present in halves if a == u]
            ins = [half(a, place, present) for place, a, b, present in halves if b == u]
            to = [str(b) for a, b in sorted(self.mentions) if a == u]
            by = [str(a) for a, b in sorted(self.mentions) if b == u]
            uses = [f'{tag}@{written(place)}' for (a, tag), place in sorted(self.uses.items()) if a == u]
            said = str(self.said.get(u, 0))
            yield ' '.join(['user', str(u), 'out', *outs, 'in', *ins, 'mentions', *to, 'mentioned', *by, 'said', said,
                            'uses', *uses])
        for tag in sorted({tag for _, tag in self.uses}):
            yield f'tag {tag} {sum(b == tag for _, b in self.uses)}'


def changes(was, now, parts):
    """What a graph changed of another one that it goes on from: a line for each partition, whose lists ascend.

    A half lives with the user at its own end, and a tag with its partition.
    """
    before, present = set(was.present()), set(now.present())
    edges = {'new': set(now.follows) - set(was.follows), 'now': present - before, 'gone': before - present,
             'mention': now.mentions - was.mentions}
    uses = sorted(set(now.uses) - set(was.uses))
    grown = sorted((u, n - was.said.get(u, 0)) for u, n in now.said.items() if n > was.said.get(u, 0))
    for p in range(parts):
        words = ['part', str(p)]
        for name, pairs in edges.items():
            words += [f'{name}_out', *(f'{a}-{b}' for a, b in sorted(pairs) if a % parts == p)]
            words += [f'{name}_in', *(f'{b}-{a}' for b, a in sorted((b, a) for a, b in pairs) if b % parts == p)]
        words += ['said', *(f'{u}:{n}' for u, n in grown if u % parts == p)]
        words += ['uses', *(f'{u}-{tag}@{written(now.uses[u, tag])}' for u, tag in uses if u % parts == p)]
        by_tag = sorted((tag, u) for u, tag in uses)
        words += ['tag_users', *(f'{tag}-{u}' for tag, u in by_tag if tag_hash(tag) % parts == p)]
        yield ' '.join(words)


def tag_hash(tag):
    """The number that says where a tag lives."""
    h = 0
    for byte in tag.encode():
        h = (h * 31 + byte) % 2 ** 32
    return h


def written(place):
    """A place as text."""
    return '.'.join(str(part) for part in place)


def half(other, place, present):
    """A follow half as text."""
    return f'{other}@{written(place)}{"+" if present else "-"}'
