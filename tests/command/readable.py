"""The readable form, at the size of a real board: numbers and tuples, and never a letter, a P line or a part that cannot be seen."""

import re

import boards

# a side of a clause: numbers, variables with a number before them, a part's place before a colon, tuples
SIDE = re.compile(r"[0-9a-z+:(), ′]+")


class Term:
    """A pattern or a type of a rule file, written apart from the command."""

    def __init__(self, text):
        rows = [line.split(",") for line in text.splitlines()]
        rows = [(row[0], list(map(int, row[1:]))) for row in rows]
        self.types = [row for letter, row in rows if letter == "T"]
        self.patterns = [row for letter, row in rows if letter == "P"]
        self.rows = rows

    def steps(self, place):
        """How many units a right-nested sum of units has, or 0."""
        kind, a, b = self.types[place]
        if kind == 1 and self.types[a][0] == 0:
            rest = self.steps(b)
            return rest and rest + 1
        return int(kind == 0)

    def parts(self, place):
        """A sum or a product from the left to the right."""
        kind, a, b = self.types[place]
        return [a, *(self.parts(b) if self.types[b][0] == kind and not self.steps(b) else [b])]

    def type(self, place):
        if self.steps(place):
            return str(self.steps(place))
        parts = [self.type(part) for part in self.parts(place)]
        sign = " × " if self.types[place][0] == 2 else " + "
        return sign.join(f"({part})" if " " in part else part for part in parts)

    def pattern(self, place, ty):
        kind, a, b = self.patterns[place]
        variable = lambda number: chr(97 + number) if number < 26 else "a" + chr(71 + number)
        if kind == 1:
            return variable(a)
        if self.types[ty][0] == 2:
            found, rest, parts = [], place, self.parts(ty)
            while len(parts) > 1 and self.patterns[rest][0] == 4:
                _, left, rest = self.patterns[rest]
                found.append(self.pattern(left, parts.pop(0)))
            return f"({', '.join([*found, self.pattern(rest, parts[0])])})"
        count, rest, steps = 0, place, self.steps(ty)
        last = (steps or len(self.parts(ty))) - 1
        while count < last and self.patterns[rest][0] == 3:
            count, rest = count + 1, self.patterns[rest][1]
        kind, a, _ = self.patterns[rest]
        if kind == 1 and (steps or count < last):
            return f"{count}+{variable(a)}"
        if steps:
            return str(count)
        return f"{count}:{self.pattern(a if count < last else rest, self.parts(ty)[count])}"

    def clauses(self):
        """Of each clause the line, both sides, and the let steps."""
        isos, found = [], []
        for line, (letter, row) in enumerate(self.rows, 1):
            if letter == "I":
                isos.append(row)
            elif letter == "C":
                left, right = self.pattern(row[0], isos[-1][0]), self.pattern(row[1], isos[-1][1])
                found.append((line, left, right, []))
            elif letter == "L":
                p, iso, q = row
                p, q = self.pattern(p, isos[iso][1]), self.pattern(q, isos[iso][0])
                found[-1][3].append(f"{p} = iso {iso} {q if q.startswith('(') else f'({q})'}")
        return found


def clauses(out):
    """The clauses that are shown, as `Term.clauses` gives them."""
    found = []
    for line in out.splitlines():
        match = re.fullmatch(r"  line (\d+): (.*?) +↦ (.*?)(?:, where (.*))?", line)
        if match:
            number, left, right, steps = match.groups()
            found.append((int(number), left, right, split(steps or "")))
        elif line.startswith("      where ") or (found and line.startswith(" " * 11)):
            found[-1][3].extend(split(line.removeprefix("      where ").strip().rstrip(",")))
    return found


def split(steps):
    return re.findall(r"\S+ = iso \d+ \(.*?\)(?=, \S+ = |$)", steps)


def run(p):
    for name, text, lines in (("a board of 230 lines", boards.middle(), 230), ("a board of 2,984 lines", boards.large(), 2984)):
        p.same(f"{name}: lines", lines, len(text.splitlines()))
        file = p.file("board.rules", text)
        p.expect(f"{name}: accepted", p.call("check", file)[0] == 0)
        out = p.gives(name, ["show", file], 0)
        expected, shown = Term(text), clauses(out)
        p.same(f"{name}: every clause", expected.clauses(), shown)
        strange = [side for _, *sides, _ in shown for side in sides if not SIDE.fullmatch(side)]
        p.same(f"{name}: no letters and no names of lines", [], strange)
        p.expect(f"{name}: no P line", not re.search(r"\bP\d", out), out[:2000])
        types = [f"T{place} = {expected.type(place)}" for place in range(len(expected.types))]
        p.same(f"{name}: types", types, re.findall(r"^  (T\d+ = .*?)  +\d+ settings?$", out, re.M))
        ends = [f"{expected.type(a)} → {expected.type(b)}" for letter, (a, b, *_) in expected.rows if letter == "I"]
        p.same(f"{name}: from and to", ends, re.findall(r"^iso .*\n  (.*)$", out, re.M))
        wide = [line for line in out.splitlines() if len(line) > 100]
        p.same(f"{name}: no line too wide", [], wide)
        letters = p.gives(f"{name} in letters", ["show", file, "--letters"], 0)
        p.expect(f"{name} in letters: clauses", "RRU" in letters and not re.search(r"\bP\d", letters), letters[:2000])
        page = p.gives(f"{name} as a page", ["show", file, "--html"], 0)
        p.expect(f"{name} as a page: no P line", not re.search(r"\bP\d", page))
        missing = [side for _, *sides, _ in shown for side in sides if side not in page]
        p.same(f"{name} as a page: every side of every clause", [], missing)
    forms(p)


def forms(p):
    """The forms of a sum that is no number of choices, and of what does not fit its type."""
    # T3 is 1 + 2 × 2, T4 is 2 × 2 + 3 + 1, T5 is (1 + 2 × 2) × 2, and T6 is 2 × 2 × (2 + 2)
    types = "T,0,0,0\nT,1,0,0\nT,2,1,1\nT,1,0,2\nT,1,0,1\nT,1,4,0\nT,1,2,5\nT,2,3,1\nT,1,1,1\nT,2,1,8\nT,2,1,9\n"
    patterns = ["0,0,0", "2,0,0", "3,0,0", "1,0,0", "1,1,0", "4,3,4", "3,5,0", "3,3,0", "2,3,0", "4,1,3", "4,1,9", "2,2,0", "4,2,11", "4,1,12", "3,7,0"]
    file = types + "".join(f"P,{row}\n" for row in patterns)
    cases = [
        ((3, 1), "0:0"),
        ((3, 6), "1:(a, b)"),
        ((3, 7), "1:a"),
        ((3, 8), "0:a"),
        ((6, 7), "1+a"),
        ((6, 8), "0:a"),
        ((6, 14), "2:a"),
        ((7, 5), "(a, b)"),
        ((10, 9), "(0, a)"),
        ((10, 10), "(0, 0, a)"),
        ((10, 13), "(0, 1, 0:1)"),
        ((2, 1), "LU"),
        ((1, 5), "(a, b)"),
        ((1, 9), "(LU, a)"),
        ((1, 6), "R (a, b)"),
        ((4, 8), "0:a"),
        ((4, 14), "2+a"),
        ((4, 3), "a"),
        ((0, 0), "0"),
    ]
    for (ty, pattern), expected in cases:
        found = p.call("show", p.file("forms.rules", file + f"I,{ty},{ty}\nC,{pattern},{pattern}\n"))[1]
        p.expect(f"T{ty}, P{pattern}", re.search(rf"^  line 28: {re.escape(expected)}  ↦ {re.escape(expected)}$", found, re.M), found)
