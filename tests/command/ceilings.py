"""Rule files of the size of a real board, made as a generator makes them: every pattern once, clauses in an order of their own."""

import random


class Board:
    """Lines of a rule file, T and P lines each once."""

    def __init__(self, seed):
        self.chance = random.Random(seed)
        self.types, self.patterns, self.isos = [], [], []

    def once(self, lines, line):
        if line not in lines:
            lines.append(line)
        return lines.index(line)

    def t(self, kind, a=0, b=0):
        return self.once(self.types, f"T,{kind},{a},{b}")

    def p(self, kind, a=0, b=0):
        return self.once(self.patterns, f"P,{kind},{a},{b}")

    def choice(self, count):
        """A number of choices: a right-nested sum of units."""
        return self.t(0) if count == 1 else self.t(1, self.t(0), self.choice(count - 1))

    def product(self, first, *rest):
        return self.t(2, first, self.product(*rest)) if rest else first

    def place(self, number, count):
        """The value of a number of choices that has this place."""
        if count == 1:
            return self.p(0)
        return self.p(3, self.place(number - 1, count - 1)) if number else self.p(2, self.p(0))

    def behind(self, number, variable):
        """All values from this place on."""
        return self.p(3, self.behind(number - 1, variable)) if number else self.p(1, variable)

    def tuple(self, first, *rest):
        return self.p(4, first, self.tuple(*rest)) if rest else first

    def iso(self, left, right, clauses):
        """An iso, its clauses `(left, right, lets)` in any order."""
        self.isos.append(f"I,{left},{right}")
        for a, b, lets in clauses:
            self.isos.append(f"C,{a},{b}")
            self.isos += [f"L,{p},{iso},{q}" for p, iso, q in lets]

    def shuffled(self, count):
        order = list(range(count))
        self.chance.shuffle(order)
        return order

    def text(self):
        return "".join(f"{line}\n" for line in self.types + self.patterns + self.isos)


def valves(isos=30):
    """Tables of 128 positions: each clause a setting. With 30 isos as many lines as a file can have, but for some."""
    b = Board(7)
    ty = b.product(b.choice(32), b.choice(4))
    settings = [b.tuple(b.place(i, 32), b.place(j, 4)) for i in range(32) for j in range(4)]
    for _ in range(isos):
        b.iso(ty, ty, [(settings[i], settings[j], []) for i, j in zip(b.shuffled(128), b.shuffled(128))])
    return b.text()


def wide(isos=32):
    """Isos of 256 settings and 96 clauses."""
    b = Board(8)
    ty = b.product(b.choice(32), b.choice(8))
    ends = [b.place(0, 8), b.place(1, 8), b.behind(2, 0)]
    for _ in range(isos):
        pairs = zip(b.shuffled(32), b.shuffled(32))
        b.iso(ty, ty, [(b.tuple(b.place(i, 32), end), b.tuple(b.place(j, 32), end), []) for i, j in pairs for end in ends])
    return b.text()


def board(tables=10):
    """A board: levels told in another order (21 isos of 4 settings), and tables of 512 settings whose 128 clauses lead through them."""
    b = Board(9)
    four, many = b.choice(4), b.choice(32)
    old, new = b.product(many, four, four), b.product(four, four, many)
    for _ in range(21):
        b.iso(four, four, [(b.place(i, 4), b.place(j, 4), []) for i, j in zip(b.shuffled(4), b.shuffled(4))])
    a, q = b.p(1, 0), b.p(1, 16)
    for _ in range(tables):
        lefts = [b.tuple(b.place(i, 32), b.place(j, 4), a) for i in range(32) for j in range(4)]
        rights = [b.tuple(q, b.place(j, 4), b.place(i, 32)) for i in range(32) for j in range(4)]
        pairs = zip(b.shuffled(128), b.shuffled(128))
        b.iso(old, new, [(lefts[i], rights[j], [(q, b.chance.randrange(21), a)]) for i, j in pairs])
    return b.text()


def steps(count):
    """One iso of so many steps, which leaves all as they are."""
    b = Board(10)
    ty, a = b.choice(count), b.p(1, 0)
    b.iso(ty, ty, [(a, a, [])])
    return b.text()
