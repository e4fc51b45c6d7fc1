"""Names that people write beside a rule file: how settings, types and isos are told by them, and what is wrong with them."""

import random
import re

H = "examples/heating-curve.rules"
N = "examples/heating-curve.names"

SHOWN = f"""0,0
{H} is accepted.
  lines: 7 T, 16 P, 2 I, 5 C, 1 L
  names: {N}, by those who use the file; no part of the verdict
  4 is one of four, 0 to 3; 2 × 4 is both, as (1, 3); 2 + (2 × 4) is either, as 0:1 or 1:(1, 3).
  Small letters are carried over; 2+a is a, counted on from 2; the last may be all that is left.

iso 0, slope as bits: T3 → T4, 4 settings, 1 step (line 24)
  slope (4) → bits (2 × 2)
  line 25: slope 0  ↦ bits 00
  line 26: slope 1  ↦ bits 01
  line 27: slope 2  ↦ bits 10
  line 28: slope 3  ↦ bits 11

iso 1, whole setting: T5 → T6, 8 settings, 2 steps (line 29)
  older board (2 × slope) → newer board (bits × 2)
  line 30: (a, b)  ↦ (c, a), where c = slope as bits (b)

types
  T0 = 1                        1 setting
  T1 = 2                        2 settings
  T2 = 3                        3 settings
  T3 = slope (4)                4 settings
  T4 = bits (2 × 2)             4 settings
  T5 = older board (2 × slope)  8 settings
  T6 = newer board (bits × 2)   8 settings
"""

# T5 is 3 + 2 × 2 + 1 and T6 is T5 × 4
TYPES = ["0,0,0", "1,0,0", "1,0,1", "1,0,2", "2,1,1", "1,4,0", "1,2,5", "2,6,3", "2,3,7"]
SUMS = "".join(f"T,{row}\n" for row in TYPES) + "P,1,0,0\nI,8,8\nC,0,0\n"


def run(p):
    shown(p)
    runs(p)
    others(p)
    refused(p)
    forms(p)
    faults(p)
    unread(p)
    again(p)
    noise(p)


def shown(p):
    p.gives("names: show", ["show", H], 0, SHOWN)
    only = p.gives("names: one iso", ["show", H, 1], 0)
    for words in ("iso 1, whole setting: T5", "  T3 = slope (4)", "  T5 = older board (2 × slope)"):
        p.expect(f"names: one iso: {words}", words in only, only)
    letters = p.gives("names: in letters", ["show", H, "--letters"], 0)
    p.expect("names: in letters: none", "slope" not in letters and "names: " not in letters, letters)
    page = p.gives("names: page", ["show", H, "--html"], 0)
    for words in ("Names: heating-curve.names, by those who use the file; no part of the verdict.", "slope 2", "(circuit on, slope 2)", "(bits 10, circuit on)", "whole setting"):
        p.expect(f"names: page: {words}", words in page)


def runs(p):
    there = "0,2,PPRULURU\n(circuit on, slope 2) becomes (bits 10, circuit on), in 2 steps\n"
    ways = ["PRURRLU", "6", "(1, 2)", "1, 2", "1,2", "circuit on, slope 2", "(circuit on, slope 2)", " ( circuit  on ,slope 2 ) ", "circuit on, 2"]
    ways += ["((1), (2))", "1, slope 2", "older board 6", "older board (1, 2)"]
    for way in ways:
        p.gives(f"run of {way}", ["run", H, 1, way], 0, there)
        p.gives(f"run of {way} by the iso's name", ["run", H, "whole setting", way], 0, there)
    back = "0,2,PRURRLU\n(bits 10, circuit on) becomes (circuit on, slope 2), in 2 steps\n"
    for way in ("PPRULURU", "5", "((1, 0), 1)", "(1, 0), 1", "bits 10, circuit on", "2, circuit on", "bits 2, 1"):
        p.gives(f"run back of {way}", ["run", H, "whole setting", way, "--back"], 0, back)
    wrong = [
        ("8", "T5 has no setting 8: they are numbered 0 to 7"),
        ("circuit on, slope 4", "T3 has no setting 4: they are numbered 0 to 3"),
        ("circuit on, slope", "slope is no setting of T3; slope 0 is one"),
        ("circuit on", "circuit on is no setting of T5; (circuit off, slope 0) is one"),
        ("Circuit on, slope 2", "Circuit on is no setting of T1; circuit off is one"),
        ("circuit on, slope 2, 1", "T5, 2 × slope, has 2 parts, here there are 3"),
        ("(circuit on, slope 2", "(circuit on, slope 2 is no setting of T5; (circuit off, slope 0) is one"),
        ("circuit on, slope 02", "02 is no setting of T3"),
        ("circuit on, slope -1", "-1 is no setting of T3"),
        ("Kühlkreis an", "Kühlkreis an is no setting of T5"),
        ("x" * 61, "x" * 60 + " … is no setting of T5"),
        ("PRURRRRU", "16, no value"),
        ("P" * 300, "16, no value"),
        ("(" * 300, "16, no value"),
        ("(" * 60000 + "1, 2" + ")" * 60000, "16, no value"),
        ("(1, 2), (1, 2)", "look here: 1, 2 is no setting of T1"),
        ("(1), (2)) , ((3)", "T5, 2 × slope, has 2 parts, here there are 3"),
        (",", " is no setting of T1"),
        ("\x1b[2J", "16, no value"),
        ("", "16, no value"),
    ]
    for way, words in wrong:
        p.gives(f"run of {way[:20]!r}", ["run", H, 1, way], 1, "16,0,\n", said=words)
        p.expect(f"run of {way[:20]!r}: nothing unseen", "\x1b" not in p.call("run", H, 1, way)[2])
    p.gives("run of another name of an iso", ["run", H, "whole", "6"], 2, "", said="ISO is a number from 0 to 4294967295, not 'whole'")
    p.gives("run of bytes of no text", ["run", H, 1, b"\xff\xfe".decode("latin-1")], 1, "16,0,\n", said="16, no value")


def others(p):
    words, verdict = "setting 6 of T5, older board, of 0 to 7: (circuit on, slope 2), in letters PRURRLU", "; this is no verdict on the file\n"
    p.gives("number by names", ["number", H, "T5", "circuit on, slope 2"], 0, f"0,6\n{words}{verdict}")
    p.gives("number of a number", ["number", H, "T5", "6"], 0, f"0,6\n{words}{verdict}")
    p.gives("number of no setting", ["number", H, "T5", "slope 2"], 1, "16,0\n", said="look here: slope 2 is no setting of T5")
    p.gives("setting by names", ["setting", H, "T5", 6], 0, f"0,PRURRLU\n{words}\n")
    p.gives("number 0", ["number", H, "T5", "0"], 0, f"0,0\nsetting 0 of T5, older board, of 0 to 7: (circuit off, slope 0), in letters PLULU{verdict}")
    # never part of the verdict
    p.gives("verdict beside names", ["verdict", H], 0)
    filed = (p.folder / f"{H}.verdict").read_text()
    p.expect("verdict beside names: none in it", not re.search("slope|circuit|board", filed), filed)


def refused(p):
    """A setting that shows a fault is told by names, and so is a clause; the verdict that is filed has none."""
    merged = p.file("merged.rules", (p.folder / "examples/merged-setting.rules").read_bytes())
    without = p.call("check", merged)[1]
    p.expect("check without names", "  a setting: 2, in letters RRU, which two or more clauses give\n" in without, without)
    p.file("merged.names", "T2 = position\nT2 2 = fully open\n")
    told = without.replace("a setting: 2,", "a setting: fully open,")
    told = told.replace("line 11: 1 ↦ 2\n", "line 11: position 1 ↦ fully open\n").replace("line 12: 2 ↦ 2\n", "line 12: fully open ↦ fully open\n")
    p.gives("check by names", ["check", merged], 1, told)
    p.gives("witness by names", ["witness", merged], 1, told.replace("12,9\n", "12,9,RRU\n", 1))
    out = p.gives("show of a refused file by names", ["show", merged], 1)
    p.expect("show of a refused file by names: the setting and clauses", "a setting: fully open," in out and "line 11: position 1  ↦ fully open\n" in out, out)
    out = p.gives("show of a refused file in letters", ["show", merged, "--letters"], 1)
    p.expect("show of a refused file in letters: the setting", "  a setting: RRU, which two or more clauses give\n" in out, out)
    page = p.gives("page of a refused file by names", ["show", merged, "--html"], 1)
    p.expect("page of a refused file by names: the setting", "a setting: fully open," in page)
    p.gives("verdict of a refused file beside names", ["verdict", merged], 1)
    filed = (p.folder / "merged.rules.verdict").read_text()
    p.expect("verdict of a refused file beside names: none in it", "a setting: 2, in letters RRU, which" in filed and "open" not in filed and "position" not in filed, filed)
    letter = p.gives("letter beside names", ["letter", merged], 1)
    p.expect("letter beside names: none in it", "a setting: 2, in letters RRU, which" in letter and "open" not in letter and "position" not in letter, letter)
    p.file("merged.names", "T9 = position\n")
    status, out, said = p.call("check", merged)
    p.same("check beside faulty names", (1, without), (status, out))
    p.expect("check beside faulty names: said", "merged.names, line 1: there is no T line 9" in said, said)
    clause = p.file("clause.rules", (p.folder / "examples/refusals/08-variable.in").read_bytes())
    p.file("clause.names", "T1 0 = shut\n")
    out = p.gives("check of a clause by names", ["check", clause], 1)
    p.expect("check of a clause by names: as it reads", "it reads: (shut, a) ↦ (shut, b)\n" in out, out)
    bad = p.file("bad-line.rules", "T,0,0,0\nx\n")
    p.file("bad-line.names", "T9 = x\n")
    p.gives("check of a bad line beside names", ["check", bad], 1)


def forms(p):
    """What a file of names may look like, and what becomes of every kind of type."""
    file = p.file("sums.rules", SUMS)
    text = "\ufeff# a comment = none\r\n\r\n  \t# another\n T2=stage \r\nT2   1 =  stage   one\nT6 = mode\nT6 0:2 = off\nT8 (3, 1:(1, 0), 2) = as delivered\nI0 = all = of it"
    place = p.file("sums.names", text)
    words = {
        (2, 0): "stage 0",
        (2, 1): "stage one",
        (6, 2): "off",
        (6, 1): "mode 0:stage one",
        (6, 3): "mode 1:(0, 0)",
        (6, 7): "mode 2:0",
        (7, 2 * 4 + 3): "(off, 3)",
        (8, 0): "(0, mode 0:stage 0, 0)",
        (8, 3 * 32 + 5 * 4 + 2): "as delivered",
    }
    for (ty, number), expected in words.items():
        out = p.gives(f"names: setting {number} of T{ty}", ["setting", file, ty, number], 0)
        p.expect(f"names: setting {number} of T{ty}: {expected}", f": {expected}, in letters " in out, out)
        p.expect(f"names: {expected}: back", p.call("number", file, ty, expected)[1].startswith(f"0,{number}\n"), expected)
    out = p.gives("names: types", ["show", file], 0)
    shown = ["T2 = stage (3)", "T5 = (2 × 2) + 1", "T6 = mode (stage + (2 × 2) + 1)", "T7 = mode × 4", "T8 = 4 × mode × 4", "iso 0, all = of it: T8 → T8"]
    for line in shown:
        p.expect(f"names: {line}", line in out, out)
    # in a clause: names for what is closed, the T line's name before a place
    clauses = "P,0,0,0\nP,2,0,0\nP,3,0,0\nP,3,1,0\nP,3,3,0\nP,1,0,0\nP,4,1,5\nP,3,5,0\nP,4,2,5\n"
    rules = "T,0,0,0\nT,1,0,0\nT,1,0,1\nT,2,1,2\n" + clauses
    p.file("clauses.names", "T1 0 = off\nT2 = stage\nT3 = unit")
    file = p.file("clauses.rules", rules + "I,2,2\nC,1,3\nC,7,7\nI,3,3\nC,6,8\nC,8,6\n")
    out = p.call("show", file)[1]
    for line in (": stage 0    ↦ stage 1\n", ": stage 1+a  ↦ stage 1+a\n", ": (off, a)  ↦ (1, a)\n", ": (1, a)    ↦ (off, a)\n"):
        p.expect(f"names in a clause: {line.strip()}", line in out, out)
    place.write_text("T6 = <b>&\"'\n")
    page = p.gives("names on the page: escaped", ["show", p.folder / "sums.rules", "--html"], 0)
    p.expect("names on the page: escaped, all", "&lt;b&gt;&amp;&quot;&#39;" in page and "<b>&\"" not in page)


BAD = [
    ("T5", "there is no `=`; a line is `T5 = name`, `T5 2 = name` or `iso 1 = name`"),
    ("slope", "there is no `=`"),
    ("slope = 3", "3 would be taken for a number"),
    ("slope = x", "'slope' is neither a T line nor an iso"),
    ("T = x", "'' is no number"),
    ("T05 = x", "'05' is no number"),
    ("T-1 = x", "'-1' is no number"),
    ("T7 = x", "there is no T line 7: they are numbered 0 to 6"),
    ("T99999999999999999999 = x", "'99999999999999999999' is no number"),
    ("iso 2 = x", "there is no iso 2: they are numbered 0 to 1"),
    ("iso = x", "'' is no number"),
    ("I2 = x", "there is no iso 2"),
    ("P1 = x", "'P1' is neither a T line nor an iso"),
    ("T3 4 = x", "T3 has no setting 4: they are numbered 0 to 3"),
    ("T3 RRRRU = x", "RRRRU is no setting of T3; 0 is one"),
    ("T5 (1, 2, 3) = x", "T5, 2 × 4, has 2 parts, here there are 3"),
    ("T5 (1, 4) = x", "T3 has no setting 4"),
    ("T3 =", "there is no name behind the `=`"),
    ("T3 = 2", "2 would be taken for a number"),
    ("T3 = LUP", "LUP would be taken for the letters of a setting"),
    ("T3 = a, b", "has a comma or a bracket"),
    ("T3 = (a)", "has a comma or a bracket"),
    ("T3 = " + "x" * 61, "the name has over 60 characters"),
    ("T3 = a\x1b[2J", "a character that cannot be seen"),
    ("T3 = a\u202eb", "a character that cannot be seen"),
    ("T3 = a\u200bb", "a character that cannot be seen"),
    ("T3 = a\rb", "a character that cannot be seen"),
    (b"T3 = \xff", "this is not UTF-8"),
    ("T3\x1b = x", "'3?' is no number"),
    ("\x1b = x", "'?' is neither a T line nor an iso"),
    ("T3 = x\nT3 = y", "what it names has the name x already"),
    ("T3 1 = x\nT3 RLU = y", "what it names has the name x already"),
    ("T3 1 = x\nT3 2 = x", "the setting RLU of T3 has the name x already"),
    ("iso 0 = x\niso 1 = x", "iso 0 has the name x already"),
    ("iso 1 = x\nI1 = y", "what it names has the name x already"),
]


def faults(p):
    """Each fault is said with its line and in words; no name is used; the answer and its status are those without names."""
    file = p.file("faulty.rules", (p.folder / H).read_bytes())
    place = p.folder / "faulty.names"
    without = {words[0]: p.call(*words) for words in (("show", file), ("check", file), ("run", file, 1, "6"), ("sheet", file, "examples/heating-curve.queries"))}
    for text, words in BAD:
        text = text if isinstance(text, bytes) else text.encode()
        place.write_bytes(b"# names\nT1 1 = on\n" + text + b"\n")
        line = 3 + text.count(b"\n")
        status, out, said = p.call("run", file, 1, "6")
        p.same(f"names, {text!r}: answered all the same", without["run"][:2], (status, out))
        p.expect(f"names, {text!r}: its line", said.startswith(f"rulefile: {p.folder}/faulty.names, line {line}: "), said)
        p.expect(f"names, {text!r}: its words", words in said and said.endswith("rulefile: the names are not used\n"), said)
        p.expect(f"names, {text!r}: nothing unseen", "\x1b" not in said and "\u202e" not in said, said)
    place.write_text("T3 = slope\nT3 1 = slope 2\n")
    said = p.call("run", file, 1, "6")[2]
    p.expect("names: one of another's number", "the setting RLU of T3 has the name slope 2, but that is what another setting is called by its number" in said, said)
    place.write_text("T3 = slope\nT3 2 = slope 2\nT3 1 = slope 4\n")
    p.gives("names: one of its own number", ["run", file, 0, "slope 4"], 0, "0,1,PLURU\nslope 4 becomes (0, 1), in 1 step\n")
    place.write_text("x\n" * 9)
    for command, words in (("show", [file]), ("check", [file]), ("sheet", [file, "examples/heating-curve.queries"])):
        status, out, said = p.call(command, *words)
        p.same(f"names of faults, {command}: answered all the same", without[command][:2], (status, out))
    said = p.call("show", file)[2]
    p.same("names of nine faults: some are said", 5, said.count("there is no `=`"))
    p.expect("names of nine faults: and how many more", said.endswith("rulefile: 4 more lines are wrong; the names are not used\n"), said)
    p.gives("a page without its names", ["show", file, "--html"], 0, said="faulty.names, line 1: ")


def unread(p):
    """Files of names that cannot be read, and rule files that have none."""
    content = (p.folder / H).read_bytes()
    file, place = p.file("apart.rules", content), p.folder / "apart.names"
    plain = "0,2,PPRULURU\n(1, 2) becomes ((1, 0), 1), in 2 steps\n"
    p.gives("no names", ["run", file, 1, "6"], 0, plain)
    place.mkdir()
    p.gives("names in a folder", ["run", file, 1, "6"], 0, plain, said="apart.names is not a file")
    place.rmdir()
    place.symlink_to("/dev/zero")
    p.gives("names without end", ["run", file, 1, "6"], 0, plain, said="apart.names is not a file")
    place.unlink()
    place.write_bytes(b"#" * (1 << 20))
    p.gives("names of 1,048,576 bytes", ["run", file, 1, "6"], 0, plain)
    place.write_bytes(b"#" * ((1 << 20) + 1))
    p.gives("names of a byte more", ["run", file, 1, "6"], 0, plain, said="apart.names has over 1048576 bytes")
    place.write_text("".join(f"T5 {n % 8} = n{n}\n" for n in range(60000)))
    p.gives("names of 59,992 faults", ["run", file, 1, "6"], 0, plain, said="59987 more lines are wrong; the names are not used")
    place.write_bytes("T3 = slope\n".encode("utf-16"))
    p.gives("names in UTF-16", ["run", file, 1, "6"], 0, plain, said="apart.names: it is in UTF-16")
    place.write_text("T1 1 = on\n")
    named = "0,2,PPRULURU\n(on, 2) becomes ((on, 0), on), in 2 steps\n"
    p.gives("names beside a file", ["run", file, 1, "6"], 0, named)
    p.gives("no names beside standard input", ["run", "-", 1, "6"], 0, plain, stdin=content)
    other = p.file("supplier.txt", content)
    p.gives("no names beside another name", ["run", other, 1, "6"], 0, plain)
    p.file("supplier.txt.names", "T1 1 = on\n")
    p.gives("names beside another name", ["run", other, 1, "6"], 0, named)


def again(p):
    """What is said of a setting can be given again, and is that setting: with names and without."""
    chance = random.Random(2)
    names = "".join(f"T{ty} {n} = {name} {n}\n" for ty, name, n in [(1, "bit", 1), (2, "three", 0), (4, "pair", 2), (6, "six", 6), (7, "seven", 9)]) + "T3 = step\nT6 = mode\n"
    for text in ("", names):
        file = p.file("again.rules", SUMS)
        p.file("again.names", text)
        for ty, count in ((6, 8), (7, 32), (8, 128)):
            for number in sorted({0, count - 1, 9 % count, 6, *chance.sample(range(count), 5)}):
                words = re.search(r": (.*), in letters", p.call("setting", file, ty, number)[1]).group(1)
                p.expect(f"{words} of T{ty}, {number}", p.call("number", file, ty, words)[1].startswith(f"0,{number}\n"), words)


def noise(p):
    """Whatever a file of names holds: every command ends with the status that it has without names, and nothing unseen is said."""
    chance = random.Random(34)
    files = [p.folder / H, p.folder / "examples/merged-setting.rules", p.file("noise-sums.rules", SUMS)]
    pieces = "T1 T2 T3 T9 iso I0 I1 0 1 2 LU RLU (0, 1) 1:( ) = == # slope on é ′ , : + \t \r \n \x00 \ufeff \u202e".split(" ") + [" ", "\n", "\n", "="]
    used = 0
    for place in range(120):
        text = "".join(chance.choice(pieces) for _ in range(chance.randrange(40))).encode()
        if place % 4 == 0:
            text = bytes(chance.randrange(256) for _ in range(60))
        elif place % 4 == 1:
            text = b"".join(b"T%d = n%d\n" % (ty, ty) for ty in chance.sample(range(3), 2)) + b"T1 %d = one\niso 0 = i\n" % chance.randrange(2)
        file = chance.choice(files)
        (p.folder / "with.rules").write_bytes(file.read_bytes())
        (p.folder / "with.names").unlink(missing_ok=True)
        calls = [("check", "with.rules"), ("show", "with.rules"), ("show", "--html", "with.rules"), ("run", "with.rules", 0, "0"), ("witness", "with.rules")]
        without = [p.call(*call) for call in calls]
        (p.folder / "with.names").write_bytes(text)
        named = [p.call(*call) for call in calls]
        used += any(a[1] != b[1] for a, b in zip(without, named))
        p.same(f"names of noise {place}: statuses", [call[0] for call in without], [call[0] for call in named])
        p.same(f"names of noise {place}: verdicts", [call[1].split("\n")[0] for call in without], [call[1].split("\n")[0] for call in named])
        unseen = [c for call in named for c in call[1] + call[2] if c not in "\n\t" and not c.isprintable()]
        p.same(f"names of noise {place}: nothing unseen", [], unseen)
    p.expect("names of noise: some were used", 20 < used < 120, used)
