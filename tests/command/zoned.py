"""Boards with zones: lists as they are shown and read, what exactly is at fault with 23 and 24, and what is promised of an iso that calls itself."""

from looking import looks, rules, said

Z = "examples/zones.rules"

# T1 = 2, T2 = a list of it; P0 = [], P1 to P4 = a to d, P5 = [a, …b], P6 = [a, …d]
LISTS = "T,0,0,0 T,1,0,0 T,3,1,0 P,5,0,0 P,1,0,0 P,1,1,0 P,1,2,0 P,1,3,0 P,6,1,2 P,6,1,4"

# the list as it is, element by element
EACH = "T,0,0,0 T,1,0,0 T,3,1,0 P,5,0,0 P,1,0,0 P,1,1,0 P,1,3,0 P,6,1,2 P,6,1,3 I,2,2 C,0,0 C,4,5 L,3,0,2"


def run(p):
    shown(p)
    meaning(p)
    written(p)
    runs(p)
    lines(p)
    clauses(p)
    recursion(p)
    large(p)
    numbers(p)
    names(p)
    compared(p)
    nested(p)


def shown(p):
    out = p.gives("show of zones", ["show", Z], 0)
    for text in (
        "A list of 4 is any number of them, as [], [3] or [0, 3]; in [a, …b] b is the rest of the list.",
        "iso 1, each zone: T6 → T7, settings without end, calls itself (line 34)",
        "iso 4, whole board: T10 → T11, settings without end (line 48)",
        "line 36: [a, …b]  ↦ [c, …d], where c = one zone (a), d = each zone (b)",
        "(list of newer zone) × newer zone → newer zone × (list of newer zone)",
    ):
        p.expect(f"show of zones: {text}", text in out, out)
    out = p.gives("show of zones in letters", ["show", "--letters", Z, 1], 0)
    p.expect("show of zones in letters: lists", "[] is the empty list, in queries N" in out and "line 36: [a, …b]  ↦ [c, …d]" in out, out)
    plain = p.gives("show without lists", ["show", "examples/heating-curve.rules"], 0)
    p.expect("show without lists: not a word of them", "list" not in plain and "[" not in plain, plain)
    page = p.gives("page of zones", ["show", "--html", Z], 0)
    p.expect("page of zones: a sample", "lists of different lengths, one a clause" in page, "")
    p.expect("page of zones: a conversion", "[(off, level 2)]</td>" in page and "[(level 2, off)]</td>" in page, "")
    refused = p.gives("show of a recursion", ["show", "examples/refusals/23-recursion.in"], 1)
    p.expect("show of a recursion: its lines", "line 13: [a, …b]  ↦ [a, …d], where c = iso 0 (b), d = iso 0 (c)" in refused, refused)


def meaning(p):
    """What is promised of an accepted file, and no more."""
    every = "every setting of a from-type goes to exactly one setting of its to-type"
    calls = said(p.gives("check of zones", ["check", Z], 0))["what it means"]
    p.expect("an iso calls itself: no promise that all is reached", every not in calls and "is reached is not promised" in calls and "17 or 24" in calls, calls)
    lists = p.file("lists.rules", rules("T,0,0,0 T,3,0,0 P,1,0,0 I,1,1 C,0,0"))
    plain = said(p.gives("check of lists", ["check", lists], 0))["what it means"]
    p.expect("lists, and no iso calls itself", plain.startswith(every) and plain.endswith("a setting of over 127 letters is refused with 24"), plain)
    verdict = p.gives("letter on zones", ["letter", Z], 0)
    p.expect("letter on zones: the same promise", "is not promised" in " ".join(verdict.split()), verdict)


def written(p):
    """Settings as people write them."""
    file = p.file("each.rules", rules(EACH))
    for text, letters in (("[]", "N"), ("[ ]", "N"), ("([])", "N"), ("[0]", "KLUN"), ("[1, 0]", "KRUKLUN"), (" [ 1 ,0 ] ", "KRUKLUN"), ("KRUKLUN", "KRUKLUN"), ("N", "N")):
        status, out, error = p.call("run", file, 0, text)
        p.same(f"run of {text!r}", letters, out.split("\n")[0].split(",", 2)[2] if status == 0 else None)
    whole = "(on, [(on, level 2), (off, level 0), (on, level 3)])"
    for text in (whole, whole[1:-1], "PRUKPRURRLUKPLULUKPRURRRUN", "1, [(1, 2), (0, 0), (1, 3)]", "on, [(on, 2), 0, 7]"):
        out = p.gives(f"run of {text}", ["run", Z, "whole board", text], 0)
        p.same(f"run of {text}: what comes out", "0,18,PKPRRRURUKPLULUKPRRLURUNRU", out.split("\n")[0])
        p.expect(f"run of {text}: in words", out.endswith(f"{whole} becomes ([(level 3, on), (level 0, off), (level 2, on)], on), in 18 steps\n"), out)
    for text, words in (
        ("[0", "[0 is no setting of T2; [0] is one"),
        ("0, 1", "0, 1 is no setting of T2; [0] is one"),
        ("1", "T2, list of 2, holds a list, so that its settings have no numbers; [0] is one"),
        ("[2]", "T1 has no setting 2: they are numbered 0 to 1"),
        ("[0,]", " is no setting of T1; 0 is one"),
        ("KRUK", "the letters end behind letter 4, where L or R should follow; a setting of T2 is KRUKLUN"),
        ("KRU", "the letters end behind letter 3, where N or K should follow; a setting of T2 is KRUN"),
        ("KRULU", "letter 4 is L, where N or K should stand; a setting of T2 is KRUN"),
        ("NN", "letter 2, N, is one too many; a setting of T2 is N"),
    ):
        p.gives(f"run of {text!r}", ["run", file, 0, text], 1, "16,0,\n", said=f"look here: {words}")


def runs(p):
    back = p.gives("zones back", ["run", Z, 4, "[(level 3, on), (level 0, off), (level 2, on)], on", "--back"], 0)
    p.same("zones back: as they were", "0,18,PRUKPRURRLUKPLULUKPRURRRUN", back.split("\n")[0])
    p.gives("zones spent", ["run", Z, 4, "on, []", "--budget", 2], 1, "17,0,\n", said="look here: it takes 3 steps; the budget is 2")
    # iso 0 exchanges [] and [0]; iso 1 sends [] to itself and [0, …a] to [0, …b], where b is what iso 0 makes of iso 1 (a): nothing becomes [0]
    endless = "T,0,0,0 T,3,0,0 P,5,0,0 P,0,0,0 P,6,1,0 P,1,0,0 P,6,1,3 P,6,1,4 P,1,1,0 P,6,1,6 P,1,2,0 I,1,1 C,0,2 C,2,0 C,5,5 I,1,1 C,0,0 C,4,7 L,8,1,3 L,6,0,8"
    file = p.file("endless.rules", rules(endless))
    p.same("zones that go on and on: accepted", "0,0", p.call("check", file)[1].split("\n")[0])
    p.same("zones that go on and on: back", "24,0,\n", p.call("run", file, 1, "[0]", "--back")[1])
    p.gives("zones that go on and on: why", ["run", file, 1, "[0]", "--back"], 1, "24,0,\n", said="at most ")
    p.gives("zones that go on and on: spent", ["run", file, 1, "[0]", "--back", "--budget", 9], 1, "17,0,\n", said="look here: with more steps it is refused with 24, too large; the budget is 9")


def lines(p):
    """Refusals 5 to 7 of lines with lists."""
    looks(p, "a list's third number", rules("T,0,0,0 T,3,0,1"), "5,2", "a list has 0 as its third number, here it is 1")
    looks(p, "an empty list's second number", rules("P,5,1,0"), "5,1", "an empty list has 0 as its second number, here it is 1")
    looks(p, "an empty list's third number", rules("P,5,0,1"), "5,1", "an empty list has 0 as its third number, here it is 1")
    looks(p, "a list of nothing", rules("T,3,0,0"), "6,1", "it names T0; above it there is no T line")
    looks(p, "an element before nothing", rules("P,5,0,0 P,6,0,1"), "6,2", "it names P1; above it there is 1 P line, P0")
    many = rules("P,5,0,0", *(f"P,6,0,{n}" for n in range(20)))
    looks(p, "41 nodes of lists", many, "7,21", "the pattern unfolds to 41 left, right, empty and element nodes; at most 40 are allowed")
    deep = rules("T,0,0,0", *(f"T,3,{n},0" for n in range(127)))
    looks(p, "128 nodes of a list", deep, "7,128", "the type unfolds to 128 nodes; at most 127 are allowed")


def clauses(p):
    """Refusals 9 and 10 of patterns with lists."""
    two = "T,0,0,0 T,3,0,0 P,5,0,0 P,0,0,0 P,6,1,0 P,1,0,0 I,1,1 C,3,3 I,1,1"
    looks(p, "an empty list in a let step", rules(two, "C,0,0 L,0,0,0 C,2,2"), "9,10", "the argument of the let step of line 11, P0 = [], takes a setting of T1 = list of 1 apart by an empty list; it may have only units, variables and pairs")
    looks(p, "an element in a let step", rules(two, "C,0,0 C,2,2 L,2,0,2"), "9,11", "the argument of the let step of line 12, P2 = [U], takes a setting of T1 = list of 1 apart by an element; it may have only units, variables and pairs")
    looks(p, "an empty list for a unit", rules("T,0,0,0 T,3,0,0 P,5,0,0 P,1,0,0 I,0,0 C,0,0 I,1,1 C,1,1"), "10,6", "the left pattern, P0 = [], does not fit T0 = 1: it is an empty list, and the type is a unit")
    looks(p, "a unit for a list", rules("T,0,0,0 T,3,0,0 P,0,0,0 I,1,1 C,0,0"), "10,5", "the left pattern, P0 = U, does not fit T1 = list of 1: it is a unit, and the type is a list")
    looks(p, "an element of another type", rules("T,0,0,0 T,3,0,0 P,5,0,0 P,6,0,0 I,1,1 C,1,1"), "10,6", "the left pattern, P1 = [[]], does not fit T1 = list of 1: P0 = [] is an empty list, and T0 = 1 is a unit")
    looks(p, "a list of another type", rules("T,0,0,0 T,3,0,0 T,3,1,0 P,1,0,0 I,1,2 C,0,0"), "10,6", "the right pattern, P0 = a, does not fit T2 = list of list of 1: variable a was bound with T1 = list of 1, and stands for T2 = list of list of 1 here")


def recursion(p):
    """Refusal 23: which part of the rule is broken."""
    turned = "turned, the iso does not meet the rule either"
    iso = "T,0,0,0 T,1,0,0 P,1,0,0 P,1,1,0 I,1,1 C,0,1 L,1,0,0"
    looks(p, "an iso of a sum calls itself", rules(iso), "23,5", f"iso 0 calls itself at line 7, and its from-type, T1 = 1 + 1, is neither a list nor a product whose first part is one; {turned}")
    whole = "T,0,0,0 T,3,0,0 P,1,0,0 P,1,1,0 I,1,1 C,0,1 L,1,0,0"
    looks(p, "a list as a variable", rules(whole), "23,6", f"iso 0 calls itself, so that each of its left patterns has to show an empty list or an element; the left pattern, P0 = a, shows neither; {turned}")
    looks(p, "two calls", rules(LISTS, "I,2,2 C,0,0 C,5,6 L,3,0,2 L,4,0,3"), "23,13", f"lines 14 and 15 both call iso 0 itself; a clause may do so once; {turned}")
    pair = "T,0,0,0 T,3,0,0 T,2,1,1 P,1,0,0 P,1,1,0 P,4,0,1 P,1,2,0 P,1,3,0 P,4,3,4 I,2,2 C,2,5 L,5,0,2"
    looks(p, "a list as the first part of a pair", rules(pair), "23,11", f"iso 0 calls itself, so that each of its left patterns has to show an empty list or an element; the first part of the left pattern, P0 = a, shows neither; {turned}")
    # [a, …b] ↦ [a, …e], where c = iso 0 (b), d = iso 1 (c), e = iso 0 (d)
    used = "T,0,0,0 T,1,0,0 T,3,1,0 P,5,0,0 P,1,0,0 P,1,1,0 P,1,2,0 P,1,3,0 P,1,4,0 P,6,1,2 P,6,1,5 I,2,2 C,1,1 I,2,2 C,0,0 C,6,7 L,3,0,2 L,4,1,3 L,5,0,4"
    looks(p, "the rest is used before the call", rules(used), "23,16", f"line 17 uses variable b, the rest of the list behind the element, before line 18 calls iso 1 itself on it; {turned}")
    # ([a, …b], c) ↦ ([a, …e], d), where (d, e) = iso 0 (c, b)
    other = "T,0,0,0 T,3,0,0 T,2,1,1 P,5,0,0 P,1,0,0 P,1,1,0 P,1,2,0 P,1,3,0 P,1,4,0 P,6,1,2 P,4,0,1 P,4,6,3 P,4,3,2 P,4,4,5 P,6,1,5 P,4,11,4 I,2,2 C,7,7 C,8,12 L,10,0,9"
    looks(p, "a call on another list", rules(other), "23,19", f"line 20 calls iso 0 itself on P9 = (c, b), and not on variable b, the rest of the list behind the element, alone or as the first part of a pair; {turned}")
    # [a, b, …c] ↦ [a, b, …d], where d = iso 0 (c)
    second = "T,0,0,0 T,3,0,0 P,5,0,0 P,1,0,0 P,1,1,0 P,1,2,0 P,1,3,0 P,6,1,0 P,6,2,3 P,6,1,6 P,6,2,4 P,6,1,8 I,1,1 C,0,0 C,5,5 C,7,9 L,4,0,3"
    looks(p, "two elements and a call", rules(second), "23,16", f"line 17 calls iso 0 itself, and the left pattern, P7 = [a, b, …c], has P6 = [b, …c] behind its element, which is no variable; {turned}")
    for name in ("23-recursion", "23-not-a-list"):
        out = p.gives(f"letter on {name}", ["letter", f"examples/refusals/{name}.in"], 1)
        p.expect(f"letter on {name}: what is asked", "We ask for a conversion of a list that has a clause for the empty list" in " ".join(out.split()), out)


def large(p):
    """Refusal 24: what is too large."""
    file = p.file("each.rules", rules(EACH))
    deep, long = ", ".join(["0"] * 40), "KLU" * 43 + "RRR"
    p.gives("a list that goes too deep", ["run", file, 0, f"[{deep}]"], 1, "24,0,\n", said="look here: iso 0 is called 41 deep, the first call being 1; at most 40 are allowed")
    p.gives("a list that is as deep as may be", ["run", file, 0, f"[{deep[3:]}]"], 0)
    many = ", ".join(["1"] * 43)
    p.gives("a list that is too long", ["run", file, 0, f"[{many}]"], 1, "24,0,\n", said="look here: the setting that was given has 130 letters; at most 127 are allowed")
    p.gives("a list in letters that is too long", ["run", file, 0, "KRU" * 43 + "N"], 1, "24,0,\n", said="look here: the setting that was given has 130 letters; at most 127 are allowed")
    p.gives("letters that are too long and no list", ["run", file, 0, long], 1, "16,0,\n", said="a setting of T2 is N")
    p.gives("a list that is too long, and no budget", ["run", file, 0, f"[{many}]", "--budget", 0], 1, "17,0,\n", said="look here: with more steps it is refused with 24, too large; the budget is 0")
    # an element of one letter becomes one of seven
    double = "T,0,0,0 T,2,0,0 T,2,1,1 T,3,0,0 T,3,2,0 P,5,0,0 P,0,0,0 P,1,1,0 P,1,2,0 P,6,1,2 P,4,1,1 P,4,5,5 P,6,6,3 I,3,4 C,0,0 C,4,7 L,3,0,2"
    p.gives("a result that is too long", ["run", p.file("double.rules", rules(double)), 0, "[" + ", ".join(["0"] * 16) + "]"], 1, "24,0,\n", said="has 129 letters; at most 127 are allowed")
    sheet = p.file("large.queries", f"Q,0,0,99,{'KRU' * 43}N\n")
    p.gives("a query that is too large", ["sheet", file, sheet], 1, said="24, too large: the setting that was given has 130 letters; at most 127 are allowed")
    out = p.gives("a fault that cannot be shown", ["check", "examples/refusals/24-no-setting.in"], 1)
    p.same("a fault that cannot be shown: words", "the shortest one, which no clause matches, has over 127 letters, and is not shown", said(out).get("a setting"))


def numbers(p):
    """Refusal 18 where a list is."""
    for words in (["number", Z, "T10", "on, []"], ["setting", Z, 10, 0], ["setting", Z, 10, 4294967295]):
        p.gives(f"{words[0]} of a list", words, 1, said="look here: T10, 2 × (list of (2 × 4)), holds a list: it has settings without end; at most 4294967295 have numbers")
    for command in ("bounds", "export"):
        p.gives(f"{command} of a list", [command, Z, 4], 1, said="look here: iso 4 has to do with T10, 2 × (list of (2 × 4)), which holds a list: it has settings without end")
    p.gives("bounds beside a list", ["bounds", Z, 0], 0, "0,1,1\niso 0: 1 step, there and back\n")
    p.gives("number beside a list", ["number", Z, 4, "on, level 2"], 0)
    p.gives("import of a list", ["import", Z, 10, 10, p.file("zones.list", "0,0\n")], 1, "", said="look here: T10, 2 × (list of (2 × 4)), holds a list: it has settings without end; at most 4096 are listed")
    units = p.file("zones.units", "4,6\n")
    p.gives("a unit with a list", ["play", Z, p.file("list.units", "4,6\n10,0\n"), p.file("one.script", "S,0,0,0\n")], 1, said="unit 1, line 2 of")
    p.gives("a visit with a list", ["play", Z, units, p.file("two.script", "S,0,0,0\nS,0,4,0\n")], 1, "18,0,0,0\n", said="look here: iso 4 has to do with T10")
    p.gives("a visit beside a list", ["play", Z, units, p.file("three.script", "S,0,0,0\n")], 0)


def names(p):
    """Names beside a file with lists."""
    file = p.file("named.rules", rules(EACH))
    p.file("named.names", "T1 1 = on\nT2 [] = nothing\nT2 [1, 1] = both on\nT2 KLUN = one off\n")
    out = p.gives("names of lists", ["run", file, 0, "both on"], 0)
    p.same("names of lists: as they read", "both on becomes both on, in 3 steps", out.split("\n")[1])
    p.same("names of elements", "[on, 0, on] becomes [on, 0, on], in 4 steps", p.gives("names of elements", ["run", file, 0, "[on, 0, on]"], 0).split("\n")[1])
    for name, words in (("KN", "KN would be taken for the letters of a setting"), ("[x]", "[x] has a square bracket; these hold the elements of a list")):
        p.file("named.names", f"T1 1 = {name}\n")
        p.gives(f"a name {name} beside a list", ["show", file], 0, said=words)
    plain = p.file("listless.rules", rules("T,0,0,0 T,1,0,0 P,1,0,0 I,1,1 C,0,0"))
    p.file("listless.names", "T1 1 = KN\nT1 0 = at 20 [mm]\n")
    p.same("such names without a list", "KN becomes KN, in 1 step", p.gives("such names without a list", ["run", plain, 0, "KN"], 0).split("\n")[1])


def compared(p):
    each, whole = p.file("each.rules", rules(EACH)), p.file("whole.rules", rules("T,0,0,0 T,1,0,0 T,3,1,0 P,1,0,0 I,2,2 C,0,0"))
    out = p.gives("compare of lists", ["compare", each, whole], 1)
    p.expect("compare of lists: the shortest first", "[0]: [0] in 2 steps then, [0] in 1 step now" in out, out)
    other = p.file("other.rules", rules(EACH.replace("P,1,0,0", "P,1,4,0")))
    out = p.call("compare", each, other)[1]
    p.expect("compare of lists that convert alike", "of settings without end, and none differs; the others were not compared" in " ".join(out.split()), out)


def nested(p):
    """Types of many lists: nothing goes on and on."""
    step = {"of lists": "T,3,{0},0", "of two": "T,2,{0},{0} T,3,{1},0", "of either": "T,1,{0},{0} T,3,{1},0"}
    for name, lines in step.items():
        types, last = ["T,0,0,0", "T,3,0,0"], 1
        while len(types) < (126 if name == "of lists" else 11):
            new = lines.format(last, last + 1).split()
            types, last = types + new, last + len(new)
        file = p.file("nested.rules", rules(" ".join(types), f"P,1,0,0 I,{last},{last} C,0,0"))
        p.gives(f"lists {name}: show", ["show", file], 0)
        page = p.gives(f"lists {name}: page", ["show", "--html", file], 0)
        p.expect(f"lists {name}: page is of some length", len(page) < 200_000, len(page))
        p.gives(f"lists {name}: run", ["run", file, 0, "[]"], 0, "0,1,N\n[] becomes [], in 1 step\n")
        p.gives(f"lists {name}: a number", ["run", file, 0, "4294967295"], 1, "16,0,\n", said="so that its settings have no numbers")
