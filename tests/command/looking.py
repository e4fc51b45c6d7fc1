"""What exactly is at fault, in words: `look here` for each refusal, the clauses that meet, and the letter to the supplier."""

import hashlib
import re

from person import TREE

H = "examples/heating-curve.rules"
M = "examples/merged-setting.rules"


def run(p):
    table(p)
    lines(p)
    ceilings(p)
    clauses(p)
    meeting(p)
    asked(p)
    queries(p)
    lists(p)
    no_text(p)
    letters(p)


def said(out):
    """What stands under each label of an answer, in one line each."""
    found = {}
    for part in re.split(r"\n  (?! )", out)[1:]:
        label, _, text = " ".join(part.split()).partition(": ")
        found[label] = text
    return found


def rules(*lines):
    return "".join(f"{line}\n" for line in " ".join(lines).split())


def looks(p, name, content, numbers, words):
    """A file is refused with number and line, and these words say why."""
    out = p.gives(name, ["check", p.file("look.rules", content)], 1)
    p.same(f"{name}: number and line", numbers, out.split("\n")[0])
    p.same(f"{name}: look here", words, said(out).get("look here"))
    return said(out)


def table(p):
    """Each row is complete in itself, for three readers, and says what the command says."""
    rows = re.findall(r"^\| (\d+) \| (.*) \|$", (TREE / "docs/REFUSALS.md").read_text(), re.M)
    cells = [[cell.strip() for cell in row.split(" | ")] for _, row in rows]
    p.same("REFUSALS: rows", list(range(1, 25)), [int(number) for number, _ in rows])
    p.same("REFUSALS: word, three texts and examples", [5] * 24, [len(row) for row in cells])
    texts = [text for row in cells for text in row[1:4]]
    p.expect("REFUSALS: each text is there", all(len(text) > 20 for text in texts), [text for text in texts if len(text) <= 20])
    p.same("REFUSALS: no text stands for another", len(texts), len(set(texts)))
    p.same("REFUSALS: none says that it is like another", [], [text for text in texts if "the same" in text or "see " in text or "above row" in text])
    p.same("REFUSALS: what happened is one thing", [], [row[1] for row in cells if len(row[1]) > 110 or row[1].count(";") > 1])
    suppliers = [int(number) for (number, _), row in zip(rows, cells) if row[2].startswith("ask ")]
    p.same("REFUSALS: what there is to ask", True, {*range(1, 15), 20, 21, 22, 23} <= set(suppliers))
    for name, number in (("07-ceiling", 7), ("10-type", 10), ("12-overlap-right", 12)):
        words = said(p.call("check", f"examples/refusals/{name}.in")[1])
        p.same(f"REFUSALS: {number} in these words", cells[number - 1][1:3], [words["what happened"], words["what to do"]])


def lines(p):
    """Refusals 2 and 4 to 6."""
    good = "T,0,0,0 T,1,0,0 P,0,0,0 P,2,0,0 P,3,0,0 I,1,1 C,1,2 C,2,1"
    looks(p, "too many lines", "T,0,0,0\n" * 4097, "2,0", "it has 4097 lines; a file has at most 4096")
    looks(p, "too many bytes", "T" * 65537, "2,0", "it has over 65536 bytes, which is the most")
    looks(p, "a T line behind a P line", rules("T,0,0,0 P,0,0,0 T,0,0,0"), "4,3", "a T line stands behind other lines: all T lines come first, and line 2 is no T line")
    looks(p, "a T line behind an iso", rules(good, "T,0,0,0"), "4,9", "a T line stands behind other lines: all T lines come first, and line 3 is no T line")
    looks(p, "a P line behind an iso", rules(good, "P,0,0,0"), "4,9", "a P line stands behind an iso, which begins at line 6: all P lines come before the first I line")
    looks(p, "a clause without an iso", rules("T,0,0,0 P,0,0,0 C,0,0"), "4,3", "a C line stands before any I line: a clause belongs to the iso above it")
    looks(p, "a let step without a clause", rules("T,0,0,0 P,0,0,0 I,0,0 L,0,0,0"), "4,4", "an L line has no C line above it: a let step belongs to the clause above it")
    looks(p, "a kind of T", rules("T,4,0,0"), "5,1", "there is no kind 4 of T lines: 0 is the unit, 1 a sum, 2 a product, 3 a list")
    looks(p, "a kind of P", rules("T,0,0,0 P,65535,0,0"), "5,2", "there is no kind 65535 of P lines: 0 is the unit, 1 a variable, 2 left, 3 right, 4 a pair, 5 the empty list, 6 an element before a list")
    looks(p, "a unit's second number", rules("T,0,7,0"), "5,1", "a unit has 0 as its second number, here it is 7")
    looks(p, "a unit's third number", rules("P,0,0,8"), "5,1", "a unit has 0 as its third number, here it is 8")
    looks(p, "a variable's third number", rules("P,1,31,9"), "5,1", "a variable has 0 as its third number, here it is 9")
    looks(p, "a left's third number", rules("P,0,0,0 P,2,0,1"), "5,2", "a left or right has 0 as its third number, here it is 1")
    looks(p, "variable 32", rules("P,1,32,0"), "5,1", "there is no variable 32: they are numbered 0 to 31")
    looks(p, "a T line names itself", rules("T,0,0,0 T,1,0,1"), "6,2", "it names T1; above it there is 1 T line, T0")
    looks(p, "a T line names nothing", rules("T,1,0,0"), "6,1", "it names T0; above it there is no T line")
    looks(p, "a P line names a later one", rules("P,0,0,0 P,0,0,0 P,4,1,5"), "6,3", "it names P5; above it there is 2 P lines, P0 to P1")
    looks(p, "a left names a later one", rules("P,2,4,0"), "6,1", "it names P4; above it there is no P line")
    looks(p, "an iso names no type", rules("T,0,0,0 P,0,0,0 I,0,1"), "6,3", "it names T1; above it there is 1 T line, T0")
    looks(p, "a clause names no pattern", rules("T,0,0,0 P,0,0,0 I,0,0 C,0,9"), "6,4", "it names P9; above it there is 1 P line, P0")
    two = "T,0,0,0 P,0,0,0 I,0,0 C,0,0 I,0,0 C,0,0"
    looks(p, "a let step names no pattern", rules(two, "L,0,0,3"), "6,7", "it names P3; above it there is 1 P line, P0")
    looks(p, "a let step names a later iso", rules(two, "L,0,5,0"), "6,7", "it names iso 5; up to its own there is 2 isos, iso 0 to iso 1")


def ceilings(p):
    """Refusal 7: which ceiling, and the number reached."""
    looks(p, "257 T lines", "T,0,0,0\n" * 257, "7,257", "this is T line number 257; at most 256 are allowed")
    looks(p, "1,025 P lines", "P,0,0,0\n" * 1025, "7,1025", "this is P line number 1025; at most 1024 are allowed")
    looks(p, "33 isos", rules("T,0,0,0 P,0,0,0", "I,0,0 C,0,0 " * 33), "7,67", "this is iso number 33; at most 32 are allowed")
    looks(p, "129 clauses", rules("T,0,0,0 P,0,0,0 I,0,0", "C,0,0 " * 129), "7,132", "this is clause number 129 of iso 0; at most 128 are allowed")
    looks(p, "9 let steps", rules("T,0,0,0 P,0,0,0 I,0,0 C,0,0 I,0,0 C,0,0", "L,0,0,0 " * 9), "7,15", "this is let step number 9 of the clause of line 6; at most 8 are allowed")
    looks(p, "255 nodes of a type", rules("T,0,0,0", *(f"T,2,{n},{n}" for n in range(7))), "7,8", "the type unfolds to 255 nodes; at most 127 are allowed")
    looks(p, "129 nodes of a type", rules("T,0,0,0", *(f"T,2,{n},{n}" for n in range(6)), "T,1,6,0"), "7,8", "the type unfolds to 129 nodes; at most 127 are allowed")
    looks(p, "255 nodes of a pattern", rules("P,0,0,0", *(f"P,4,{n},{n}" for n in range(7))), "7,8", "the pattern unfolds to 255 nodes; at most 127 are allowed")
    looks(p, "41 left and right nodes", rules("P,0,0,0", *(f"P,{2 + n % 2},{n},0" for n in range(41))), "7,42", "the pattern unfolds to 41 left and right nodes; at most 40 are allowed")
    tags = rules("P,0,0,0", *(f"P,2,{n},0" for n in range(21)), "P,4,21,21")
    looks(p, "42 left and right nodes of a pair", tags, "7,23", "the pattern unfolds to 42 left and right nodes; at most 40 are allowed")


def clauses(p):
    """Refusals 8 to 10: the variable, the pattern and the type."""
    # T1 = 1 + 1, T2 = T1 × T1; P0 = a, P1 = b, P2 = (a, b), P3 = (a, a), P4 = (b, a), P5 = U, P6 = LU, P7 = RU
    head = "T,0,0,0 T,1,0,0 T,2,1,1 P,1,0,0 P,1,1,0 P,4,0,1 P,4,0,0 P,4,1,0 P,0,0,0 P,2,5,0 P,3,5,0"
    # each pattern is used once in an iso of its own, so that none is idle
    every = "I,1,1 C,0,0 I,2,2 C,2,4 C,3,3 C,1,1 C,6,7"
    variable = lambda name, clause, words: looks(p, name, rules(head, "I,1,1 C,0,0 I,2,2", clause, every), "8,15", words)
    variable("a variable that is dropped", "C,2,0", "variable b (number 1) is bound in the left pattern and never used: that part of the setting would be dropped")
    variable("a variable from nowhere", "C,0,4", "variable b (number 1) is used in the right pattern, and nothing binds it before")
    variable("a variable used twice", "C,0,3", "variable a (number 0) is used in the right pattern, and the right pattern has used it up")
    variable("a variable bound twice", "C,3,0", "variable a (number 0) is bound in the left pattern while it is live: the left pattern binds it, and nothing has used it yet")
    variable("a variable bound by a let step too", "C,2,2 L,1,0,1 L,0,0,1", "variable a (number 0) is bound in the result of the let step of line 17 while it is live: the left pattern binds it, and nothing has used it yet")
    variable("a variable of a let step from nowhere", "C,0,4 L,0,0,1", "variable b (number 1) is used in the argument of the let step of line 16, and nothing binds it before")
    variable("a let step's result that is dropped", "C,2,0 L,1,0,1", "variable b′ (number 1) is bound in the result of the let step of line 16 and never used: that part of the setting would be dropped")
    variable("a variable after its use in a let step", "C,2,2 L,5,0,1", "variable b (number 1) is used in the right pattern, and the argument of the let step of line 16 has used it up")
    looks(p, "a right in an argument", rules("T,0,0,0 T,1,0,0 P,0,0,0 P,3,0,0 P,2,0,0 P,1,0,0 I,1,1 C,3,3 I,1,1 C,1,1 L,2,0,1 C,2,2"), "9,10", "the argument of the let step of line 11, P1 = RU, takes a setting of T1 = 1 + 1 apart by a right; it may have only units, variables and pairs")
    looks(p, "a left in a result", rules("T,0,0,0 T,1,0,0 P,0,0,0 P,3,0,0 P,2,0,0 P,1,0,0 P,4,0,2 P,4,0,0 I,1,1 C,3,3 I,1,1 C,1,1 L,4,0,5 C,2,2"), "9,12", "the result of the let step of line 13, P4 = (U, LU), takes a setting of T1 = 1 + 1 apart by a left; it may have only units, variables and pairs")
    types = "T,0,0,0 T,1,0,0 T,2,1,1 T,1,0,1 P,0,0,0 P,1,0,0 P,1,1,0 P,4,1,2 P,2,0,0 P,3,0,0 P,4,4,5"
    use = "I,3,3 C,1,1 I,2,2 C,3,3 C,6,6 C,5,5"
    fit = lambda name, iso, words: looks(p, name, rules(types, iso, use), "10,13", words)
    fit("a pair for a sum", "I,1,1 C,3,3", "the left pattern, P3 = (a, b), does not fit T1 = 1 + 1: it is a pair, and the type is a sum")
    fit("a left for a product", "I,2,2 C,4,4", "the left pattern, P4 = LU, does not fit T2 = (1 + 1) × (1 + 1): it is a left, and the type is a product")
    fit("a unit for a sum, further down", "I,3,3 C,5,5", "the left pattern, P5 = RU, does not fit T3 = 1 + (1 + 1): P0 = U is a unit, and T1 = 1 + 1 is a sum")
    fit("a variable of two types", "I,3,1 C,1,1", "the right pattern, P1 = a, does not fit T1 = 1 + 1: variable a was bound with T3 = 1 + (1 + 1), and stands for T1 = 1 + 1 here")
    looks(p, "a let step of another type", rules("T,0,0,0 T,1,0,0 P,1,0,0 P,1,1,0 I,0,0 C,0,0 I,1,1 C,0,1 L,1,0,0"), "10,8", "the argument of the let step of line 9, P0 = a, does not fit T0 = 1: variable a was bound with T1 = 1 + 1, and stands for T0 = 1 here")
    looks(p, "a let step's result of another type", rules("T,0,0,0 T,1,0,0 P,1,0,0 P,1,1,0 P,4,0,1 I,1,1 C,0,0 I,1,1 C,0,2 L,2,0,0"), "10,9", "the result of the let step of line 10, P2 = (a, b), does not fit T1 = 1 + 1: it is a pair, and the type is a sum")


def meeting(p):
    """Refusals 11 to 14: the setting, and of an overlap the two clauses that meet in it."""
    for name, first, second in (("11-overlap-left", (18, "(1, a) ↦ (1, a)"), (19, "(1, a) ↦ (1, a)")), ("12-overlap-right", (11, "1 ↦ 2"), (12, "2 ↦ 2"))):
        words = said(p.call("check", f"examples/refusals/{name}.in")[1])
        p.same(f"{name}: the clauses", [first[1], second[1]], [words.get(f"clause of line {line}") for line, _ in (first, second)])
    for name, setting in (("13-gap-left", "(1, 0), in letters PRULU, which no clause matches"), ("14-gap-right", "1, in letters RU, which no clause gives")):
        words = said(p.call("check", f"examples/refusals/{name}.in")[1])
        p.same(f"{name}: the setting", (setting, []), (words["a setting"], [label for label in words if label.startswith("clause")]))
    # of three clauses the two that meet, and not the first two
    head = "T,0,0,0 T,1,0,0 T,1,0,1 P,0,0,0 P,2,0,0 P,1,0,0 P,3,2,0 P,3,1,0"
    out = p.gives("two of three", ["check", p.file("meet.rules", rules(head, "I,2,2 C,1,1 C,3,3 C,4,4"))], 1)
    words = said(out)
    p.same("two of three: refused", "11,9", out.split("\n")[0])
    p.same("two of three: lines", {"clause of line 11": "1+a ↦ 1+a", "clause of line 12": "1 ↦ 1"}, {label: text for label, text in words.items() if label.startswith("clause")})
    p.same("two of three: the setting", "1, in letters RLU, which two or more clauses match", words["a setting"])
    # on the right, in the second of three isos
    right = "T,0,0,0 T,1,0,0 P,0,0,0 P,2,0,0 P,3,0,0 P,1,0,0 P,1,1,0 P,2,3,0 P,2,4,0 I,0,0 C,3,3 I,1,1 C,1,1 C,2,1 I,1,1 C,5,6 L,4,0,3 C,2,2"
    out = p.gives("two that give one", ["check", p.file("meet.rules", rules(right))], 1)
    p.same("two that give one: refused", "12,12", out.split("\n")[0])
    p.same("two that give one: lines", {"clause of line 13": "0 ↦ 0", "clause of line 14": "1 ↦ 0"}, {label: text for label, text in said(out).items() if label.startswith("clause")})


def asked(p):
    """Refusals 15 to 19: what was named and how many there are, the first letter, how many steps."""
    twenty = "T,0,0,0 T,1,0,0 " + " ".join(f"T,2,1,{n}" for n in range(1, 32)) + " P,1,0,0 I,32,32 C,0,0"
    p.file("many.rules", rules(twenty))
    thirteen = "T,0,0,0 T,1,0,0 " + " ".join(f"T,2,1,{n}" for n in range(1, 13)) + " P,1,0,0 I,13,13 C,0,0"
    p.file("thirteen.rules", rules(thirteen))
    tower = "T,0,0,0 P,0,0,0 I,0,0 C,0,0 " + " ".join("I,0,0 C,0,0 " + f"L,0,{n},0 " * 8 for n in range(31))
    p.file("tower.rules", rules(tower))
    mixed = "T,0,0,0 T,1,0,0 P,1,0,0 P,1,1,0 P,2,0,0 P,3,0,0 P,3,1,0 I,0,0 C,0,0 I,1,1 C,2,2 C,3,4 L,1,0,0"
    p.file("mixed.rules", rules(mixed))
    cases = [
        (["run", H, 2, "U"], "iso 2 was named; the file has 2 isos, iso 0 to iso 1"),
        (["bounds", H, 7], "iso 7 was named; the file has 2 isos, iso 0 to iso 1"),
        (["export", H, 2], "iso 2 was named; the file has 2 isos, iso 0 to iso 1"),
        (["show", H, 2], "iso 2 was named; the file has 2 isos, iso 0 to iso 1"),
        (["bounds", "/dev/null", 0], "iso 0 was named; the file has no iso"),
        (["bounds", "many.rules", 1], "iso 1 was named; the file has 1 iso, iso 0"),
        (["number", H, 7, "U"], "T7 was named; the file has 7 T lines, T0 to T6"),
        (["setting", H, 7, 0], "T7 was named; the file has 7 T lines, T0 to T6"),
        (["import", H, 5, 9, "/dev/null"], "T9 was named; the file has 7 T lines, T0 to T6"),
        (["overlap", H, 1, 99], "P99 was named; the file has 16 P lines, P0 to P15"),
        (["overlap", H, 16, 99], "P16 was named; the file has 16 P lines, P0 to P15"),
        (["run", H, 1, "PRURRRRU"], "letter 7 is R, where U should stand; a setting of T5 is PRURRRU"),
        (["run", H, 1, "PRURRLUU"], "letter 8, U, is one too many; a setting of T5 is PRURRLU"),
        (["run", H, 1, "PRU"], "the letters end behind letter 3, where L or R should follow; a setting of T5 is PRULU"),
        (["run", H, 1, ""], "there are no letters; a setting of T5 is PLULU"),
        (["run", H, 1, "LU"], "letter 1 is L, where P should stand; a setting of T5 is PLULU"),
        (["run", H, 1, "pruu"], "letter 1 is p, where P should stand; a setting of T5 is PLULU"),
        (["run", H, 1, "PRÄ"], "letter 3 is Ä, where U should stand; a setting of T5 is PRULU"),
        (["run", H, 1, "PR\x1b[2J"], "letter 3 is a byte that cannot be seen (hexadecimal 1B), where U should stand; a setting of T5 is PRULU"),
        (["run", H, 1, "PR U"], "letter 3 is a blank, where U should stand; a setting of T5 is PRULU"),
        (["run", H, 1, "PR\udcff"], "letter 3 is a byte that is no text (hexadecimal FF), where U should stand; a setting of T5 is PRULU"),
        (["run", H, 1, "PRURRLU", "--back"], "letter 2 is R, where P should stand; a setting of T6 is PPLULULU"),
        (["number", H, 3, "RRRRU"], "letter 4 is R, where U should stand; a setting of T3 is RRRU"),
        (["run", H, 1, "PRURRLU", "--budget", 1], "it takes 2 steps; the budget is 1"),
        (["run", H, 0, "LU", "--budget", 0], "it takes 1 step; the budget is 0"),
        (["run", "tower.rules", 6, "U", "--budget", 5], "it takes 299593 steps; the budget is 5"),
        (["run", "tower.rules", 8, "U", "--budget", 5], "it takes over 1000000 steps, and 19173961 are enough for any setting; the budget is 5"),
        (["run", "tower.rules", 31, "U", "--budget", 5], "it takes over 1000000 steps, and some setting may take over 4294967295; the budget is 5"),
        (["export", H, 1, "--budget", 1], "setting number 0, (0, 0): it takes 2 steps; the budget is 1"),
        (["export", "mixed.rules", 1, "--budget", 1], "setting number 1, 1: it takes 2 steps; the budget is 1"),
        (["number", "many.rules", 32, "U"], "T32 has 4294967296 settings; at most 4294967295 have numbers"),
        (["setting", "many.rules", 32, 0], "T32 has 4294967296 settings; at most 4294967295 have numbers"),
        (["export", "thirteen.rules", 0], "T13 has 8192 settings; at most 4096 are listed"),
        (["import", "thirteen.rules", 12, 13, "/dev/null"], "T13 has 8192 settings; at most 4096 are listed"),
        (["setting", H, 5, 8], "the number is 8; T5 has 8 settings, and the last number is 7"),
        (["setting", H, 0, 1], "the number is 1; T0 has 1 setting, and the last number is 0"),
    ]
    for words, look in cases:
        p.gives(f"{words[0]} {words[2:]}", words, 1, said=f"\nrulefile: look here: {look}\n")
    # the setting that is named is one
    for words, look in cases:
        found = re.search(r"a setting of T(\d+) is (\w+)$", look)
        if found:
            p.expect(f"a right setting: {found.group(2)}", p.call("number", H, *found.groups())[0] == 0)


def queries(p):
    """The first query of a sheet that each number refuses, and what is at fault."""
    found = p.call("sheet", H, "examples/heating-curve.queries")[2]
    expected = """rulefile: 2 of 8 queries are refused
rulefile: line 8, Q,1,0,9,PRURRRRU: 16, no value: letter 7 is R, where U should stand; a setting of T5 is PRURRRU
rulefile: line 7, Q,1,0,1,PRURRLU: 17, spent: it takes 2 steps; the budget is 1
rulefile: docs/REFUSALS.md says what each number means
"""
    p.same("a sheet: the first of each number", expected, found)
    cases = [
        ("Q,9,0,9,LU\n", "15, no iso: iso 9 was named; the file has 2 isos, iso 0 to iso 1"),
        ("Q,0,1,9,LU\n", "16, no value: letter 1 is L, where P should stand; a setting of T4 is PLULU"),
        ("Q,0,0,9,LU\r\r\n", "16, no value: letter 3, a carriage return, is one too many; a setting of T3 is LU"),
        ("Q,0,0,9\n", "3, bad line: a query has four commas, here there are 3"),
        ("Q\n", "3, bad line: a query has four commas, here there are 0"),
        ("q,0,0,9,LU\n", "3, bad line: a query begins with Q and a comma"),
        ("\n", "3, bad line: a query begins with Q and a comma"),
        ("Q,65536,0,9,LU\n", "3, bad line: the number 65536 is over 65535"),
        ("Q,0,2,9,LU\n", "3, bad line: the direction is 0 for there or 1 for back, not 2"),
        ("Q,0,0,4294967296,LU\n", "3, bad line: the number 4294967296 is over 4294967295"),
        ("Q,0,0,09,LU\n", "3, bad line: the number 09 has a leading zero"),
        ("Q,0,0,,LU\n", "3, bad line: a number is missing between two commas or at the end"),
        ("Q, 0,0,9,LU\n", "3, bad line:  0 is not a number"),
        ("Q,0,0,9,LU", "3, bad line: it does not end with a line feed"),
        ("Q,0,0,9," + "L" * 193 + "\n", "3, bad line: it has 202 bytes; a query has at most 200"),
    ]
    for query, words in cases:
        p.gives(f"a query: {query!r:.30}", ["sheet", H, "-"], 1, said=f": {words}\n", stdin=query.encode())


def lists(p):
    """Refusals 7 and 20 of an import: the line, or the count."""
    cases = [
        ("0,0\n0,1\n", "line 2, 0,1: it begins with 0, where 1 should stand"),
        ("0,0\n1,1\n2,2\n3,3\n4,4\n5,5\n6,6\n7,8\n", "line 8, 7,8: T6 has 8 settings, and the last number is 7"),
        ("0,0\n1,5\n2,2\n3,5\n", "line 4, 3,5: line 2 leads to 5 too"),
        ("0,0\n1,1\n", "the list has 2 lines, and T5 has 8 settings"),
        ("", "the list has 0 lines, and T5 has 8 settings"),
        ("".join(f"{n},{n}\n" for n in range(9)), "line 9, 8,8: T5 has 8 settings, and the last number is 7"),
        ("0,0\n1;1\n", "line 2, 1;1: there is a semicolon at byte 2 of the line; a spreadsheet program may have saved the file; commas part the fields"),
        ("0,0\n1,01\n", "line 2, 1,01: the number 01 has a leading zero"),
        ("0,0\n1\n", "line 2, 1: a pair has 2 numbers, here there are 1"),
        ("0,0\n1,1", "line 2, 1,1: the last line does not end with a line feed: the file may have been cut off"),
    ]
    for content, look in cases:
        p.gives(f"import of {content!r}", ["import", H, 5, 6, "-"], 1, "", said=f"\nrulefile: look here: {look}\n", stdin=content.encode())
    p.gives("import between types of unequal counts", ["import", H, 3, 5, "-"], 1, "", said="look here: T3 has 4 settings and T5 has 8: no list leads from each to one\n", stdin=b"0,0\n")
    many = "".join(f"{n},{n}\n" for n in range(129)).encode()
    p.gives("import of 129 lines", ["import", H, 5, 6, "-"], 1, "", said="look here: the list has 129 lines; at most 128 are allowed\n", stdin=many)
    # a sum of 42 units: its last two values have 41 lefts and rights
    sums = "T,0,0,0 T,1,0,0 " + " ".join(f"T,1,0,{n}" for n in range(1, 41)) + " P,1,0,0 I,41,41 C,0,0"
    p.file("sums.rules", rules(sums))
    most = "".join(f"{n},{n}\n" for n in range(42)).encode()
    p.gives("import of a value of 41 lefts and rights", ["import", "sums.rules", 41, 41, "-"], 1, "", said=f"look here: setting {'R' * 40}LU of T41 has 41 left and right nodes; at most 40 are allowed\n", stdin=most)


def no_text(p):
    """Bytes that are no text are called so."""
    good = (p.folder / H).read_bytes()
    ask = "; ask for the file as plain text"
    cases = [
        ("a picture", b"\x89PNG\r\n\x1a\n\0\0\0\rIHDR\0\0\1\0", "its bytes are no text: it is a picture (PNG)" + ask),
        ("a ZIP archive", b"PK\x03\x04\x14\0\0\0\x08\0" + bytes(range(128, 200)), "its bytes are no text: it is a ZIP archive, or a document of an office program" + ask),
        ("a compressed file", b"\x1f\x8b\x08\0\0\0\0\0\0\x03" + bytes(range(256)), "its bytes are no text: it is a compressed file (gzip)" + ask),
        ("a PDF", b"%PDF-1.7\n%\xe2\xe3\xcf\xd3\n", "its bytes are no text: it is a PDF" + ask),
        ("a program", b"\x7fELF\x02\x01\x01\0\0\0\0\0", "its bytes are no text: it is a program" + ask),
        ("bytes of any kind", bytes(range(256)), "its bytes are no text" + ask),
    ]
    for name, content, words in cases:
        out = p.gives(name, ["check", p.file("bytes.rules", content)], 1)
        p.same(f"{name}: look here", words, said(out).get("look here"))
    out = p.gives("zeros", ["check", p.file("bytes.rules", bytes(70000))], 1)
    p.same("zeros: look here", "it has over 65536 bytes, which is the most, and its bytes are no text", said(out).get("look here"))
    lines = good.splitlines(True)
    out = p.gives("a byte of another alphabet", ["check", p.file("bytes.rules", b"".join(lines[:2] + [b"T,1,\xe4,1\n"] + lines[3:]))], 1)
    p.same("a byte of another alphabet: look here", "there is a byte that is no text (hexadecimal E4) at byte 5 of the line", said(out).get("look here"))
    out = p.gives("a letter of another alphabet", ["check", p.file("bytes.rules", b"".join(lines[:2] + ["T,1,ä,1\n".encode()] + lines[3:]))], 1)
    p.same("a letter of another alphabet: look here", "there is a letter that no line has (ä, hexadecimal C3) at byte 5 of the line", said(out).get("look here"))


def letters(p):
    """A text to send to the supplier."""
    name, sha = "merged-setting.rules", hashlib.sha256((p.folder / M).read_bytes()).hexdigest()
    out = p.gives("letter", ["letter", M], 1)
    text = " ".join(out.split())
    for words in (
        f"Your file {name} (88 bytes, SHA-256 {sha}) is refused with 12, overlap right, at line 9. Nothing of it is used.",
        "What happened: two clauses give one setting: two settings would be merged,",
        "line 9: I,2,2 a setting: 2, in letters RRU, which two or more clauses give clause of line 11: 1 ↦ 2 clause of line 12: 2 ↦ 2 We ask what the second one should become.",
        "Please send the whole file once more, as the generator writes it and not mended by hand.",
    ):
        p.expect(f"letter: {words[:40]}", words in text, out)
    version = (TREE / "VERSION").read_text().strip()
    p.expect("letter: what judged", re.search(rf"Judged on \d{{4}}-\d\d-\d\d by library {version}, archive [0-9a-f]{{64}}, kit .+\.$", text), out)
    p.expect("letter: lines for mail", max(map(len, out.splitlines())) <= 78, out)
    for example in sorted((p.folder / "examples/refusals").glob("*.in")):
        status, out, error = p.call("letter", example)
        p.expect(f"letter of {example.name}", status == 1 and error == "" and "\n\nWe ask " in out, out)
        p.expect(f"letter of {example.name}: what is at fault", any(f"\n  {label}: " in out for label in ("look here", "a setting", "it reads")), out)
    out = p.gives("letter of an accepted file", ["letter", H], 0)
    p.expect("letter of an accepted file: words", "is accepted: every setting of a from-type goes to exactly one setting" in " ".join(out.split()) and "We ask" not in out, out)
    p.gives("letter into a file", ["letter", M, "-o", "letter.txt"], 1, "")
    p.same("letter into a file: content", p.call("letter", M)[1], (p.folder / "letter.txt").read_text())
    p.gives("letter over a file", ["letter", M, "-o", "letter.txt"], 2, "", said="letter.txt is there; it is kept")
    p.gives("letter about standard input", ["letter", "-"], 2, "", said="standard input is not a file that could be named in a letter")
