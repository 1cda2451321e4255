"""The generated job of `demo`, draw by draw: three feeds and a schedule from a number."""
from texts import text_of

NODES, PARTS = 3, 4
WORD = 2 ** 64


def rotated(word, bits):
    """A word of 64 bits rotated to the left."""
    return (word << bits | word >> (64 - bits)) % WORD


def seeded(seed):
    """The four words of state that a seed gives: four steps of SplitMix64."""
    for _ in range(4):
        seed = (seed + 0x9e3779b97f4a7c15) % WORD
        mixed = (seed ^ seed >> 30) * 0xbf58476d1ce4e5b9 % WORD
        mixed = (mixed ^ mixed >> 27) * 0x94d049bb133111eb % WORD
        yield mixed ^ mixed >> 31


def words_of(state):
    """The words that Xoshiro256PlusPlus draws from four words of state."""
    a, b, c, d = state
    while True:
        yield (rotated((a + d) % WORD, 23) + a) % WORD
        shifted = b << 17 & (WORD - 1)
        c, d = c ^ a, d ^ b
        b, a = b ^ c, a ^ d
        c, d = c ^ shifted, rotated(d, 45)


def draws(seed):
    """The words that are drawn from a seed."""
    return words_of(seeded(seed))


def item(draw, users):
    """An item of a tweet: a user is mentioned, or a tag is used."""
    return f'@{draw // 2 % users}' if draw % 2 == 0 else f'#t{draw // 2 % 50}'


def line(word, users):
    """A line of a feed."""
    a, b = next(word), next(word)
    u, v = a // 16 % users, b % (users - 1)
    v = v if v < u else v + 1
    kind = a % 16
    if kind <= 8:
        return f'f,{u},{v}'
    if kind == 9:
        return f'x,{u},{v}'
    if kind == 15:
        return '?'
    return ','.join([f't,{u}', *(item(next(word), users) for _ in range(1 + b % 3))])


def feeds_of(seed, count):
    """The texts of the three feeds: line r goes to feed r modulo 3."""
    word = draws(seed)
    lines = [line(word, count // 4 + 2) for _ in range(count)]
    return [text_of(lines[i::NODES]) for i in range(NODES)]


def agreement():
    """Every partition reports, and every node's position is raised."""
    return [f'report {p}' for p in range(PARTS)] + [f'raise {i}' for i in range(NODES)]


def batch(i, inc, begin, length, word):
    """The lines of one stamp and its deliveries, and where the stamp ends."""
    size = 9 + word % 8
    to = min(begin + size, length)
    order = range(PARTS) if word // 8 % 2 == 0 else reversed(range(PARTS))
    lines = [f'stamp {i} {size}', *(f'deliver {p} {i} {inc} {to}' for p in order)]
    if word // 16 % 8 == 0:
        lines.append(f'deliver {word // 128 % PARTS} {i} {inc} {to}')
    return lines, to


def schedule_of(seed, lengths):
    """The lines of the schedule over feeds of these lengths, which ends with a cut."""
    word, position, inc, turn = draws(seed ^ 1), [0] * NODES, [0] * NODES, 0
    lines = []
    while any(position[i] < lengths[i] for i in range(NODES)):
        turn += 1
        for i in range(NODES):
            if position[i] < lengths[i]:
                sent, position[i] = batch(i, inc[i], position[i], lengths[i], next(word))
                lines += sent
        if turn % 8 == 0:
            lines += agreement()
        if turn % 64 == 0:
            lines.append('cut')
        if turn % 256 == 0:
            i = turn // 256 % NODES
            inc[i] += 1
            lines += [f'crash {i}', f'restart {i}']
    return lines + agreement() + ['cut']
