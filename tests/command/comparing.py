"""`compare`: what is the same for certain, what differs, and what was only tried."""

H = "examples/heating-curve.rules"
M = "examples/merged-setting.rules"
SPRING = "examples/releases/spring.rules"
AUTUMN = "examples/releases/autumn.rules"


def run(p):
    lines_alone(p)
    certain(p)
    differing(p)
    steps(p)
    tried(p)
    refused(p)


def file(p, name, *lines):
    return p.file(name, "".join(f"{line}\n" for line in " ".join(lines).split())).name


def one_line(text):
    return " ".join(text.split())


def lines_alone(p):
    """The same bytes, other endings, another order of clauses: certain by looking, and proved to be harmless."""
    p.gives("the same bytes", ["compare", H, H], 0, f"same\n{H} and {H} have the same bytes.\n")
    spring, autumn = (p.folder / SPRING).read_bytes(), (p.folder / AUTUMN).read_bytes()
    p.expect("the releases differ", spring != autumn)
    p.file("returns.rules", spring.replace(b"\n", b"\r\n"))
    p.file("some.rules", spring.replace(b"\n", b"\r\n", 5))
    p.file("both.rules", autumn.replace(b"\n", b"\r\n", 5))
    p.file("autumn-returns.rules", autumn.replace(b"\n", b"\r\n"))
    endings, order = "request 06, files from the other editor: a line ends with a line feed, or with a carriage return and a line feed;", "request 08, clauses in any order: two files that differ only in the order of clauses within isos, let steps moving with their clause,"
    cases = [
        ("endings", SPRING, "returns.rules", "the endings of their lines alone", [endings]),
        ("some endings", "some.rules", "returns.rules", "the endings of their lines alone", [endings]),
        ("order", SPRING, AUTUMN, "the order of clauses alone", [order]),
        ("order, with carriage returns", "returns.rules", "autumn-returns.rules", "the order of clauses alone", [order]),
        ("order and endings", SPRING, "both.rules", "the order of clauses and in the endings of their lines alone", [order, endings]),
    ]
    for name, old, new, words, laws in cases:
        for first, second in ((old, new), (new, old)):
            out = p.gives(f"compare, {name}", ["compare", first, second], 0)
            p.expect(f"compare, {name}: words", out.startswith(f"same\n{first} and {second} differ in {words}.\n"), out)
            found = [part.strip() for part in one_line(out).split("why that is harmless:")[1:]]
            p.expect(f"compare, {name}: laws", len(found) == len(laws) and all(a.startswith(b) for a, b in zip(found, laws)), out)
    for law in ("are both accepted or both refused, and if accepted answer every query alike", "crates/law_reordering"):
        p.expect(f"compare: {law}", law in one_line(p.call("compare", SPRING, AUTUMN)[1]))
    # a let step that goes to another clause, or a clause to another iso, is more than order
    unit = "T,0,0,0 T,1,0,0 P,1,0,0 P,1,1,0 P,2,0,0 P,2,1,0 P,3,0,0 P,3,1,0 P,1,2,0 I,0,0 C,0,0 I,1,1"
    file(p, "first.rules", unit, "C,2,3 L,1,0,0 C,4,4 I,1,1 C,6,6")
    file(p, "second.rules", unit, "C,2,2 C,4,5 L,1,0,0 I,1,1 C,6,6")
    # P lines that are idle in one of them would be refused: both use the same ones
    status, out, _ = p.call("compare", "first.rules", "second.rules")
    p.expect("a let step that moves: not the order alone", status == 1 and "order of clauses alone" not in out, out)


# the heating curve, its P lines in another order
OTHER = "T,0,0,0 T,1,0,0 T,1,0,1 T,1,0,2 T,2,1,1 T,2,1,3 T,2,4,1 P,1,0,0 P,1,1,0 P,1,2,0 P,4,0,1 P,4,2,0 P,0,0,0 P,2,5,0 P,3,5,0 P,3,6,0 P,3,8,0 P,3,7,0 P,3,10,0 P,4,6,6 P,4,6,7 P,4,7,6 P,4,7,7 I,3,4"
CLAUSES = "C,6,12 C,8,13 C,9,14 C,11,15 I,5,6 C,3,4 L,2,0,1"


def certain(p):
    """Other lines, and every setting of every conversion the same."""
    file(p, "other.rules", OTHER, CLAUSES)
    p.expect("other P lines: accepted", p.call("check", "other.rules")[0] == 0)
    expected = "same\n{} and {} convert alike: 2 conversions, every setting of each.\n  iso 0: the same, every one of 4 settings\n  iso 1: the same, every one of 8 settings\n"
    p.gives("other P lines", ["compare", H, "other.rules"], 0, expected.format(H, "other.rules"))
    p.gives("other P lines, the other way", ["compare", "other.rules", H], 0, expected.format("other.rules", H))
    # types as trees: T1 and T2 are one type under two numbers
    twice = "T,0,0,0 T,1,0,0 T,1,0,0 P,1,0,0"
    file(p, "one.rules", twice, "I,1,2 C,0,0")
    file(p, "two.rules", twice, "I,2,1 C,0,0")
    p.gives("types as trees", ["compare", "one.rules", "two.rules"], 0, "same\none.rules and two.rules convert alike: 1 conversion, every setting of each.\n  iso 0: the same, every one of 2 settings\n")
    most = "T,0,0,0 T,1,0,0 " + " ".join(f"T,2,1,{n}" for n in range(1, 12))
    file(p, "one.rules", most, "P,1,0,0 I,12,12 C,0,0")
    file(p, "two.rules", most, "P,1,1,0 I,12,12 C,0,0")
    p.gives("4,096 settings", ["compare", "one.rules", "two.rules"], 0, "same\none.rules and two.rules convert alike: 1 conversion, every setting of each.\n  iso 0: the same, every one of 4096 settings\n")


def differing(p):
    text = (p.folder / H).read_text()
    p.file("swapped.rules", text.replace("C,1,7\nC,3,8\n", "C,1,8\nC,3,7\n"))
    expected = f"""differ
{H} and swapped.rules do not convert alike: of 2 conversions, 2 differ.
  iso 0: differs
    2 of 4 settings become something else
    number 0, slope 0: bits 00 then, bits 01 now
    number 1, slope 1: bits 01 then, bits 00 now
  iso 1: differs
    4 of 8 settings become something else
    number 0, (circuit off, slope 0): (bits 00, circuit off) then, (bits 01, circuit off) now
    number 1, (circuit off, slope 1): (bits 01, circuit off) then, (bits 00, circuit off) now
    number 4, (circuit on, slope 0): (bits 00, circuit on) then, (bits 01, circuit on) now
    and 1 more
"""
    p.gives("settings that differ", ["compare", H, "swapped.rules"], 1, expected)
    file(p, "one.rules", "T,0,0,0 T,1,0,0 P,1,0,0 I,1,1 C,0,0")
    file(p, "two.rules", "T,0,0,0 T,1,0,0 P,1,0,0 I,1,1 C,0,0 I,0,0 C,0,0")
    out = p.gives("an iso more", ["compare", "one.rules", "two.rules"], 1)
    p.same("an iso more: words", "differ\none.rules and two.rules do not convert alike: of 2 conversions, 1 differs.\n  iso 0: the same, every one of 2 settings\n  iso 1: differs\n    only the second file has it\n", out)
    out = p.gives("an iso less", ["compare", "two.rules", "one.rules"], 1)
    p.expect("an iso less: words", out.endswith("  iso 1: differs\n    only the first file has it\n"), out)
    file(p, "three.rules", "T,0,0,0 T,1,0,0 T,2,1,1 P,1,0,0 I,2,2 C,0,0")
    out = p.gives("other types", ["compare", "one.rules", "three.rules"], 1)
    p.expect("other types: from", "    it leads from another type: T1 = 2 then, T2 = 2 × 2 now\n" in out, out)
    p.expect("other types: to", "    it leads to another type: T1 = 2 then, T2 = 2 × 2 now\n" in out, out)
    # the same conversions under other T numbers: what names T lines by number would break
    file(p, "one.rules", "T,0,0,0 T,1,0,0 T,2,1,1 P,1,0,0 I,1,1 C,0,0 I,2,2 C,0,0")
    file(p, "two.rules", "T,0,0,0 T,1,0,0 T,1,0,0 T,2,1,2 P,1,0,0 I,1,1 C,0,0 I,3,3 C,0,0")
    out = p.gives("T lines under other numbers", ["compare", "one.rules", "two.rules"], 1)
    p.expect("T lines under other numbers: words", out.startswith("differ\none.rules and two.rules convert alike: 2 conversions, every setting of each; but T lines are numbered otherwise.\n"), out)
    p.expect("T lines under other numbers: which", "T lines: T2 = 2 × 2 then, T2 = 2 now; lists of units" in one_line(out), out)


def steps(p):
    """The same settings in another number of steps: a budget may be spent where it was not."""
    head = "T,0,0,0 T,1,0,0 P,1,0,0 P,1,1,0 P,2,0,0 P,2,1,0 P,3,0,0 P,3,1,0 I,0,0 C,0,0"
    file(p, "one.rules", head, "I,1,1 C,2,3 L,1,0,0 C,4,4 I,1,1 C,2,2 C,4,5 L,1,0,0")
    file(p, "two.rules", head, "I,1,1 C,2,2 C,4,5 L,1,0,0 I,1,1 C,2,3 L,1,0,0 C,4,4")
    p.same("steps: the same lists", p.call("export", "one.rules", 1)[1], p.call("export", "two.rules", 1)[1])
    p.same("steps: the same bounds", p.call("bounds", "one.rules", 1)[1], p.call("bounds", "two.rules", 1)[1])
    out = p.gives("steps of each setting", ["compare", "one.rules", "two.rules"], 1)
    part = "  iso 1: differs\n    2 of 2 settings that were tried are answered otherwise\n    0: 0 in 2 steps then, 0 in 1 step now\n    1: 1 in 1 step then, 1 in 2 steps now\n"
    p.expect("steps of each setting: words", out.startswith("differ\n") and part in out and "iso 0: the same, every one of 1 setting\n" in out, out)
    unit = "T,0,0,0 P,1,0,0 P,1,1,0 I,0,0 C,0,0 I,0,0"
    file(p, "one.rules", unit, "C,1,1")
    file(p, "two.rules", unit, "C,0,1 L,1,0,0")
    out = p.gives("other bounds", ["compare", "one.rules", "two.rules"], 1)
    p.expect("other bounds: words", "  iso 1: differs\n    it takes 1 step then, 2 steps now\n" in out, out)
    tower = lambda letter: f"T,0,0,0 P,1,{letter},0 I,0,0 C,0,0 " + " ".join("I,0,0 C,0,0 " + f"L,0,{i},0 " * 8 for i in range(6))
    file(p, "one.rules", tower(0))
    file(p, "two.rules", tower(1))
    out = p.gives("too many steps", ["compare", "one.rules", "two.rules"], 1)
    p.expect("too many steps: words", out.startswith("tried\n") and "  iso 4: the same, every one of 1 setting\n  iso 5: not compared: a setting takes over 10000 steps\n" in out, out)


def bits(count, letter, *clauses):
    """A file whose iso 0 keeps so many bits, by one clause a prefix of the bits R, L, R, L and so on; the last two clauses as given."""
    types = "T,0,0,0 T,1,0,0 " + " ".join(f"T,2,1,{n}" for n in range(1, count))
    lines = ["P,0,0,0", "P,2,0,0", "P,3,0,0", f"P,1,{letter},0"]
    ends = []
    for depth in range(count):
        # the bits before this one as on the path, this one against it, and the rest a variable; the last bit closed
        path = [1 + (place + 1) % 2 for place in range(depth)]
        for bit in ([1 + depth % 2] if depth < count - 1 else [1, 2]):
            here = bit if depth == count - 1 else len(lines)
            if depth < count - 1:
                lines.append(f"P,4,{bit},3")
            for part in reversed(path):
                lines.append(f"P,4,{part},{here}")
                here = len(lines) - 1
            ends.append(here)
    last = {"kept": [(ends[-2], ends[-2]), (ends[-1], ends[-1])], "swapped": [(ends[-2], ends[-1]), (ends[-1], ends[-2])]}[clauses[0]]
    pairs = [(end, end) for end in ends[:-2]] + last
    return types, " ".join(lines), f"I,{count},{count}", " ".join(f"C,{a},{b}" for a, b in pairs)


def tried(p):
    """Over 4,096 settings: tried, and never called the same."""
    p.expect("13 bits: accepted", p.call("check", file(p, "one.rules", *bits(13, 0, "kept")))[0] == 0)
    file(p, "two.rules", *bits(13, 1, "kept"))
    out = p.gives("8,192 settings", ["compare", "one.rules", "two.rules"], 1)
    p.same("8,192 settings: words", "tried\none.rules and two.rules may convert alike: of 1 conversion, 1 could not be compared whole.\n  iso 0: tried with 600 of 8192 settings, and none differs; the others were not compared\n", out)
    # two settings in the middle are exchanged: their clauses are tried
    file(p, "two.rules", *bits(13, 0, "swapped"))
    p.expect("two of 8,192: accepted", p.call("check", "two.rules")[0] == 0)
    out = p.gives("two of 8,192", ["compare", "one.rules", "two.rules"], 1)
    p.expect("two of 8,192: found", out.startswith("differ\n") and "    2 of 600 settings that were tried are answered otherwise\n" in out, out)
    path = "(" + "".join(("1, ", "0, ")[place % 2] for place in range(12))
    p.expect("two of 8,192: shown", f" {path}0): {path}0) in 1 step then, {path}1) in 1 step now" in one_line(out), out)
    # tried, and T lines under other numbers, which is certain
    many = lambda dup: "T,0,0,0 T,1,0,0 " + ("T,1,0,0 " if dup else "") + " ".join(f"T,2,1,{n + dup}" for n in range(1, 13)) + f" P,1,0,0 I,{13 + dup},{13 + dup} C,0,0"
    file(p, "one.rules", many(0))
    file(p, "two.rules", many(1))
    out = p.gives("tried, and other T numbers", ["compare", "one.rules", "two.rules"], 1)
    p.expect("tried, and other T numbers: words", out.startswith("differ\none.rules and two.rules may convert alike: of 1 conversion, 1 could not be compared whole; but T lines are numbered otherwise.\n"), out)
    # more than numbers of 32 bits
    head = "T,0,0,0 T,1,0,0 T,1,0,1 " + "T,2,2,2 " + " ".join(f"T,2,2,{n}" for n in range(3, 22))
    file(p, "one.rules", head, "P,1,0,0 I,22,22 C,0,0")
    file(p, "two.rules", head, "P,1,7,0 I,22,22 C,0,0")
    p.expect("over 32 bits: accepted", p.call("check", "one.rules")[1].startswith("0,0"), p.call("check", "one.rules")[1])
    out = p.gives("over 32 bits", ["compare", "one.rules", "two.rules"], 1)
    p.expect("over 32 bits: tried", f"  iso 0: tried with 600 of {3**21} settings, and none differs" in out, out)


def refused(p):
    answer = p.call("check", M)[1]
    for first, second in ((H, M), (M, H)):
        p.gives("compare with a refused file", ["compare", first, second], 1, f"{answer}\n{first} and {second} are not compared: nothing of a refused file may be used.\n")
    p.gives("compare of a refused file with itself", ["compare", M, M], 1, f"{answer}\n{answer}\n{M} and {M} have the same bytes.\n")
    p.gives("compare, both standard input", ["compare", "-", "-"], 2, "", said="OLD and NEW cannot both be standard input")
    p.gives("compare with standard input", ["compare", H, "-"], 0, f"same\n{H} and standard input have the same bytes.\n", stdin=(p.folder / H).read_bytes())
    p.gives("compare with a file that is missing", ["compare", H, "missing"], 2, "", said="there is no file missing")
    p.gives("compare with a folder", ["compare", "examples", H], 2, "", said="examples is a folder")
