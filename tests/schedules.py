"""The schedule language: a line for each event."""
from typing import NamedTuple, Optional

from graphs import number

MOST_RECORDS = 2097152
MOST_RESTARTS = 65535
MOST_BATCH = 16


class Event(NamedTuple):
    """What a line of a schedule asks for, by its first word. Each kind has some of the numbers."""
    word: str
    part: Optional[int] = None
    node: Optional[int] = None
    inc: Optional[int] = None
    to: Optional[int] = None
    n: Optional[int] = None
    user: Optional[int] = None


# The forms of a line: its first word and what the numbers after it are. `n` is the size of a stamp or of a cut.
FORMS = [
    ('stamp', 'node', 'n'), ('deliver', 'part', 'node', 'inc', 'to'), ('report', 'part'), ('raise', 'node'),
    ('cut',), ('cut', 'n'), ('commit', 'part'), ('begin',), ('turn', 'user'), ('mine',), ('crash', 'node'),
    ('restart', 'node'),
]


def event_of(line, nodes, parts):
    """The event whose text a line is, or None."""
    words = line.split(' ')
    most = MOST_BATCH if words[0] == 'stamp' else MOST_RECORDS
    ranges = {'node': range(nodes), 'part': range(parts), 'inc': range(MOST_RESTARTS + 1),
              'to': range(MOST_RECORDS + 1), 'n': range(1, most + 1), 'user': range(2 ** 32)}
    for word, *names in FORMS:
        if words[0] == word and len(words) == len(names) + 1:
            values = {name: number(text, ranges[name]) for name, text in zip(names, words[1:])}
            return None if None in values.values() else Event(word, **values)
    return None


class Outside(Exception):
    """The number of the first line of a schedule that is outside the grammar."""


def events_of(lines, nodes, parts):
    """The events of a schedule, each with the number of its line.

    Empty lines and lines that begin with `#` give none.
    """
    for place, line in enumerate(lines, 1):
        if line and not line.startswith('#'):
            event = event_of(line, nodes, parts)
            if event is None:
                raise Outside(place)
            yield place, event
