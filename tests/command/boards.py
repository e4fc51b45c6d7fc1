"""Board conversions of a size as suppliers send them, generated: settings of many steps, tuples of them, clauses with let steps."""

import random


class Rules:
    """A rule file under construction; a type or pattern that is there already is named again."""

    def __init__(self):
        self.types, self.patterns, self.isos = [], [], []

    @staticmethod
    def place(rows, row):
        if row not in rows:
            rows.append(row)
        return rows.index(row)

    def unit(self):
        return self.place(self.types, (0, 0, 0))

    def steps(self, count):
        """A right-nested sum of units."""
        return self.unit() if count == 1 else self.place(self.types, (1, self.unit(), self.steps(count - 1)))

    def product(self, *parts):
        """Right-nested products."""
        return parts[0] if len(parts) == 1 else self.place(self.types, (2, parts[0], self.product(*parts[1:])))

    def variable(self, number):
        return self.place(self.patterns, (1, number, 0))

    def behind(self, count, pattern):
        """So many rights before a pattern."""
        return pattern if count == 0 else self.place(self.patterns, (3, self.behind(count - 1, pattern), 0))

    def step(self, count, place):
        """A place among so many steps."""
        unit = self.place(self.patterns, (0, 0, 0))
        return self.behind(place, unit if place == count - 1 else self.place(self.patterns, (2, unit, 0)))

    def tuple(self, *parts):
        return parts[0] if len(parts) == 1 else self.place(self.patterns, (4, parts[0], self.tuple(*parts[1:])))

    def iso(self, start, end, clauses):
        """An iso; a clause is its left pattern, its right one, and its let steps. Gives its number."""
        self.isos.append((start, end, clauses))
        return len(self.isos) - 1

    def lines(self):
        yield from (f"T,{k},{a},{b}" for k, a, b in self.types)
        yield from (f"P,{k},{a},{b}" for k, a, b in self.patterns)
        for start, end, clauses in self.isos:
            yield f"I,{start},{end}"
            for left, right, lets in clauses:
                yield f"C,{left},{right}"
                yield from (f"L,{p},{iso},{q}" for p, iso, q in lets)

    def file(self):
        return "".join(f"{line}\n" for line in self.lines())


def shuffled(rules, chance, count):
    """Steps to the same steps, in another order: one clause a step."""
    order = chance.sample(range(count), count)
    return rules.iso(rules.steps(count), rules.steps(count), [(rules.step(count, k), rules.step(count, order[k]), []) for k in range(count)])


def exchanged(rules, count):
    """The first two steps exchanged, the rest counted on from 2."""
    step, rest = (lambda k: rules.step(count, k)), rules.behind(2, rules.variable(0))
    return rules.iso(rules.steps(count), rules.steps(count), [(step(0), step(1), []), (step(1), step(0), []), (rest, rest, [])])


def curve(rules, chance, steps, small, lets):
    """(steps, 4, 4) to (steps / 2, 4, 8): of two steps that are merged, one has the lower half of the 8 and one the upper half. The second
    part, and in the upper half the third one, goes through small isos, so many in all."""
    start = rules.product(*map(rules.steps, (steps, 4, 4)))
    end = rules.product(*map(rules.steps, (steps // 2, 4, 8)))
    order, clauses = chance.sample(range(steps), steps), []
    for k in range(steps):
        front, back = rules.step(steps, k), rules.step(steps // 2, order[k] // 2)
        # the numbers 0 and 1 come in, each iso binds another one
        def sent(number, count, number_of):
            chain = [number, *(number_of + i for i in range(count))]
            used = [(rules.variable(p), chance.choice(small), rules.variable(q)) for q, p in zip(chain, chain[1:])]
            return rules.variable(chain[-1]), used

        if order[k] % 2:
            a, used = sent(0, (lets + 1) // 2, 20)
            b, more = sent(1, lets // 2, 26)
            left, right = rules.tuple(front, rules.variable(0), rules.variable(1)), rules.tuple(back, a, rules.behind(4, b))
            clauses.append((left, right, used + more))
        else:
            for third in range(4):
                a, used = sent(0, lets, 20)
                left = rules.tuple(front, rules.variable(0), rules.step(4, third))
                clauses.append((left, rules.tuple(back, a, rules.step(8, third)), used))
    return rules.iso(start, end, clauses)


def either(rules, chance):
    """A part that only some boards have: 3 steps or (4, 2), told the other way round."""
    small, pair = rules.steps(3), rules.product(rules.steps(4), rules.steps(2))
    start, end = rules.place(rules.types, (1, small, pair)), rules.place(rules.types, (1, pair, small))
    left = lambda pattern: rules.place(rules.patterns, (2, pattern, 0))
    clauses = [(left(rules.step(3, k)), rules.behind(1, rules.step(3, k)), []) for k in chance.sample(range(3), 3)]
    a, b = rules.variable(0), rules.variable(1)
    return rules.iso(start, end, [*clauses, (rules.behind(1, rules.tuple(a, b)), left(rules.tuple(a, b)), [])])


def chain(rules, chance, small, lets):
    """4 steps through so many small isos, one after the other."""
    numbers = range(lets + 1)
    used = [(rules.variable(p), chance.choice(small), rules.variable(q)) for q, p in zip(numbers, numbers[1:])]
    return rules.iso(rules.steps(4), rules.steps(4), [(rules.variable(0), rules.variable(lets), used)])


def board(lines, steps, curves, lets):
    """A board conversion of exactly so many lines: small isos, curves of so many steps, and chains of small isos to fill it up."""
    rules, chance = Rules(), random.Random(34)
    small = [shuffled(rules, chance, 4), exchanged(rules, 4), shuffled(rules, chance, 4)]
    either(rules, chance)
    for _ in range(curves):
        curve(rules, chance, steps, small, lets)
    while (left := lines - len(list(rules.lines()))) > 0:
        # the first chain may bring new variables
        chain(rules, chance, small, min(6, left - 2) if left != 9 else 5)
    assert left == 0, (lines, left)
    return rules.file()


def middle():
    """230 lines."""
    return board(230, 8, 2, 1)


def large():
    """2,984 lines."""
    return board(2984, 32, 8, 3)
