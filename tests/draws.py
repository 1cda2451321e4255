"""Random records, and random schedules such as a run could see."""
from schedules import event_of

USERS = 6
TAGS = ('go', 'go', 'go', 'up', 'to_be')


def random_record(draw):
    """A record over few users and tags, seldom a bad one."""
    u, v, tag = draw.randrange(USERS), draw.randrange(USERS), draw.choice(TAGS)
    follow, unfollow, use = f'f,{u},{v}', f'x,{u},{v}', f't,{u},#{tag}'
    return draw.choice([follow, follow, follow, unfollow, use, use, f't,{u},@{v},#{tag}', f't,{u},@{v},@{u},@{v}', '?'])


def random_landmarks(draw):
    """None to three landmarks as text, one of them perhaps no vertex."""
    return [str(u) for u in draw.sample(range(USERS + 1), draw.randint(0, 3))]


class Draws:
    """Draws lines for a history: pieces come late, often, in any order or never; nodes go down and come back."""

    def __init__(self, draw, history):
        self.draw, self.history, self.sent, self.missing = draw, history, [], []

    def schedule(self, size):
        """At least so many lines, which the history takes."""
        lines = []
        while len(lines) < size:
            lines += self.noted(self.lines())
        return lines

    def kinds(self):
        """What draws a few lines that belong together, and how often it is taken."""
        return {self.stamp: 16, self.deliver: 50, self.catch_up: 1, self.agree: 9, self.restart: 5, self.end: 9,
                self.mining: 2}

    def lines(self):
        """A few lines that belong together."""
        kinds = self.kinds()
        return self.draw.choices(list(kinds), weights=list(kinds.values()))[0]()

    def noted(self, lines):
        """Takes lines to the history, and remembers the pieces of their stamps, some of which get lost."""
        for line in lines:
            n = len(self.history.events)
            event = event_of(line, len(self.history.nodes), len(self.history.parts))
            if event and self.history.answer(event) and event.word == 'stamp' and not self.history.refusal(n):
                pieces = [(p, self.history.stamp_of(n)) for p in self.history.parts]
                self.sent += pieces
                self.missing += [piece for piece in pieces if self.draw.random() < 0.95]
        return lines

    def node(self):
        """Any node."""
        return self.draw.choice(self.history.nodes)

    def stamp(self):
        """A node stamps."""
        return [f'stamp {self.node()} {self.draw.choice([1, 2, 3, 5, 16])}']

    def deliver(self):
        """A piece that is missing, else any one that was made; seldom one that wasn't."""
        draw = self.draw
        if draw.random() < 0.04:
            part = draw.choice(self.history.parts)
            return [f'deliver {part} {self.node()} {draw.randrange(3)} {draw.randrange(1, 40)}']
        pieces = self.missing if self.missing and draw.random() < 0.8 else self.sent
        if not pieces:
            return self.stamp()
        piece = pieces[0] if draw.random() < 0.5 else draw.choice(pieces)
        if piece in self.missing:
            self.missing.remove(piece)
        return [f'deliver {piece[0]} {piece[1].node} {piece[1].inc} {piece[1].to}']

    def catch_up(self):
        """Every missing piece comes, in any order, and is agreed."""
        pieces, self.missing = self.missing, []
        self.draw.shuffle(pieces)
        return [f'deliver {p} {stamp.node} {stamp.inc} {stamp.to}' for p, stamp in pieces] + self.all_reports()

    def all_reports(self):
        """All partitions report, and the position of each node is raised."""
        return [f'report {p}' for p in self.history.parts] + [f'raise {i}' for i in self.history.nodes]

    def agree(self):
        """All partitions report, or all but one, and the position of each node or of one is raised."""
        reports = [f'report {p}' for p in self.history.parts]
        if self.draw.random() < 0.2:
            reports.pop(self.draw.randrange(len(reports)))
        raises = [f'raise {i}' for i in self.history.nodes]
        return reports + (raises if self.draw.random() < 0.5 else [self.draw.choice(raises)])

    def restart(self):
        """A node goes down and comes back, or one of the two."""
        i = self.node()
        both = [f'crash {i}', f'restart {i}']
        return self.draw.choice([both, both, both[:1], both[1:]])

    def commits(self):
        """Every partition commits."""
        return [f'commit {p}' for p in self.history.parts]

    def end(self):
        """An epoch ends or is committed."""
        cut, fair = 'cut', f'cut {self.draw.randint(1, 9)}'
        one, every = f'commit {self.draw.choice(self.history.parts)}', self.commits()
        return self.draw.choice([[cut], [fair], [self.draw.choice([cut, fair]), *every], every, [one], [one]])

    def mining(self):
        """An epoch is begun or mined, or one is agreed, cut, committed and begun, and perhaps mined."""
        turn = f'turn {self.draw.randrange(USERS + 1)}'
        whole = [*self.all_reports(), 'cut', *self.commits(), 'begin', turn, 'begin']
        return self.draw.choice([['begin'], [turn], ['mine'], whole, [*whole, 'mine']])
