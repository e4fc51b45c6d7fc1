"""Every command as it is meant, and every refusal of it."""

import csv
import hashlib
import re

H = "examples/heating-curve.rules"
M = "examples/merged-setting.rules"
# the commands that take as many files as there are
MANY = ("check", "verdict", "verify")


def rules_of(p, example):
    """The rule file of a stored input, without the queries behind it."""
    lines = example.read_bytes().splitlines(True)
    queries = next((place for place, line in enumerate(lines) if line[:1] == b"Q"), len(lines))
    return p.file("stored.rules", b"".join(lines[:queries]))


def run(p):
    checks(p)
    verdicts(p)
    turns(p)
    runs(p)
    sheets(p)
    numbers(p)
    witnesses(p)
    lists(p)
    plays(p)
    played(p)
    refused_plays(p)
    no_plays(p)
    refused_everywhere(p)
    sheets_in_files(p)
    outputs_kept(p)
    usage(p)


def checks(p):
    out = p.gives("check", ["check", H], 0)
    p.expect("check: accepted", out.startswith(f"0,0\n{H} is accepted.\n"), out)
    p.expect("check: lines", "lines: 7 T, 16 P, 2 I, 5 C, 1 L\n" in out, out)
    out = p.gives("check refused", ["check", M], 1)
    p.expect("check refused: numbers", out.startswith("12,9\n"), out)
    for words in ("12, overlap right, at line 9", "line 9: I,2,2", "two settings would be merged", "what to do: ask what"):
        p.expect(f"check refused: {words}", words in out, out)
    # each file that gets a refusal: its number and line as `rules` gives them, and words
    for example in sorted((p.folder / "examples/refusals").glob("*.in")):
        expected = example.with_suffix(".out").read_text().splitlines()[0]
        status = 0 if expected == "0,0" else 1
        out = p.gives(example.name, ["check", rules_of(p, example)], status)
        p.same(f"{example.name}: number and line", expected, out.splitlines()[0])
        p.expect(f"{example.name}: words", status == 0 or "what happened: " in out, out)
    p.gives("check of an empty file", ["check", p.file("empty.rules", "")], 0, said="the file is empty")
    out = p.gives("check without an iso", ["check", p.file("types.rules", "T,0,0,0\n")], 1)
    p.expect("check without an iso: 21", out.startswith("21,1\n") and "it reads: T0 = 1\n" in out, out)
    idle = "T,0,0,0\nP,0,0,0\nP,1,3,0\nP,4,0,1\nI,0,0\nC,0,0\n"
    out = p.gives("check of an idle pattern", ["check", p.file("idle.rules", idle)], 1)
    p.expect("check of an idle pattern: 21", out.startswith("21,3\n") and "it reads: P1 = d\n" in out, out)
    for words in ("21, idle line, at line 3", "line 3: P,1,3,0", "is used by no iso, clause or let step", "ask whether a clause was left out"):
        p.expect(f"check of an idle pattern: {words}", words in out, out)
    out = p.gives("check of 65,537 bytes", ["check", p.file("long.rules", b"T" * 65537)], 1)
    p.expect("check of 65,537 bytes: 2", out.startswith("2,0\n"), out)
    out = p.gives("a stray query", ["check", p.file("q.rules", (p.folder / H).read_bytes() + b"Q,0,0,9,LU\n")], 1)
    p.expect("a stray query: 3 and words", out.startswith("3,32\n") and "a query stands in the rule file" in out, out)


def verdicts(p):
    file = p.file("supplier.rules", (p.folder / H).read_bytes())
    place = p.folder / "supplier.rules.verdict"
    out = p.gives("verdict", ["verdict", file], 0)
    p.same("verdict: output", f"0,0\naccepted: the verdict is filed in {file}.verdict\n", out)
    text = place.read_text()
    fields = dict(line.split(": ", 1) for line in text.splitlines())
    p.same("verdict: SHA-256", hashlib.sha256(file.read_bytes()).hexdigest(), fields["SHA-256"])
    p.same("verdict: bytes", str(len(file.read_bytes())), fields["bytes"])
    expected = ("supplier.rules", "0,0", "0", "0", "accepted")
    p.same("verdict: fields", expected, tuple(fields[name] for name in ("file", "verdict", "number", "line", "word")))
    p.expect("verdict: kit", fields["kit"] not in ("", "unknown"), fields["kit"])
    p.expect("verdict: date", re.fullmatch(r"\d{4}-\d\d-\d\d", fields["date"]), fields["date"])
    # the same verdict of another day is kept as it is
    place.write_text(re.sub("date: .*", "date: 2001-02-03", text))
    p.gives("verdict again", ["verdict", file], 0, f"0,0\naccepted: the verdict is filed already in {file}.verdict\n")
    p.expect("verdict again: kept", "2001-02-03" in place.read_text())
    # one that differs is put behind it, and what was there stays
    file.write_bytes(file.read_bytes()[:-10])
    before = place.read_text()
    out = p.gives("verdict that differs", ["verdict", file], 1)
    p.expect("verdict that differs: refused", out.startswith(f"8,30\nvariable: the verdict is filed in {file}.verdict, behind 1 earlier verdict\n"), out)
    p.expect("verdict that differs: the first is kept", place.read_text().startswith(before + "\n"), place.read_text())
    for field in ("line 30: C,14,15", "word: variable", "what to do: "):
        p.expect(f"verdict that differs: {field}", field in place.read_text()[len(before) :], place.read_text())
    empty = p.file("empty2.rules", "")
    p.gives("verdict of an empty file", ["verdict", empty], 0, said="the file is empty")
    p.expect("verdict of an empty file: warning", "warning: " in (p.folder / "empty2.rules.verdict").read_text())
    long = p.file("long2.rules", b"x" * 100000)
    p.gives("verdict of a long file", ["verdict", long], 1)
    text = (p.folder / "long2.rules.verdict").read_text()
    p.expect("verdict of a long file: all bytes", f"bytes: 100000\nSHA-256: {hashlib.sha256(b'x' * 100000).hexdigest()}" in text, text)
    p.gives("verdict of standard input", ["verdict", "-"], 2, "", said="standard input is not a file beside which")
    p.gives("verdict of a device", ["verdict", "/dev/null"], 2, "", said="is not a file beside which")


def turns(p):
    s = "".join(f"{line}\n" for line in "T,0,0,0 T,1,0,0 T,2,1,1 P,0,0,0 P,2,0,0 P,3,0,0 P,1,0,0 P,1,1,0 P,4,1,3 P,4,1,4 P,4,2,3 I,1,1 C,1,2 C,2,1 I,2,2 C,5,6 L,4,0,3 C,7,7".split())
    turned = s.replace("C,1,2\nC,2,1\n", "C,2,1\nC,1,2\n").replace("C,5,6\nL,4,0,3\n", "C,6,5\nL,3,0,4\n")
    file = p.file("s.rules", s)
    p.gives("turn", ["turn", file], 0, turned)
    out = p.folder / "turned.rules"
    p.gives("turn into a file", ["turn", file, "-o", out], 0, "")
    p.same("turn into a file: content", turned, out.read_text())
    p.gives("turn twice", ["turn", out], 0, s)
    p.gives("turn over a file", ["turn", out, "-o", "over.rules"], 0, "")
    p.gives("turn over it again", ["turn", file, "-o", "over.rules"], 2, "", said="over.rules is there; it is kept. --force writes over it")
    p.same("turn over it again: kept", s, (p.folder / "over.rules").read_text())
    p.gives("turn over it by force", ["turn", file, "-o", "over.rules", "--force"], 0, "")
    p.same("turn over a file: content", turned, (p.folder / "over.rules").read_text())
    p.gives("turn of a refused file", ["turn", M, "-o", out, "--force"], 1, p.call("check", M)[1])
    p.same("turn of a refused file: kept", turned, out.read_text())
    p.gives("turn of a refused file to standard output", ["turn", M], 1, p.call("check", M)[1])
    p.gives("turn into itself", ["turn", file, "-o", file], 2, "", said="-o names a file that is read")
    p.same("turn into itself: kept", s, file.read_text())
    p.same("nothing else is left", [], [n.name for n in p.folder.iterdir() if n.name.endswith(".new")])


def runs(p):
    p.gives("run in letters", ["run", H, 1, "PRURRLU", "--letters"], 0, "0,2,PPRULURU\nPRURRLU becomes PPRULURU, in 2 steps\n")
    p.gives("run back in letters", ["run", H, 1, "PPRULURU", "--back", "--letters"], 0, "0,2,PRURRLU\nPPRULURU becomes PRURRLU, in 2 steps\n")
    plain = p.file("plain.rules", (p.folder / H).read_bytes())
    p.gives("run", ["run", plain, 1, "PRURRLU"], 0, "0,2,PPRULURU\n(1, 2) becomes ((1, 0), 1), in 2 steps\n")
    p.gives("run back", ["run", plain, 1, "PPRULURU", "--back"], 0, "0,2,PRURRLU\n((1, 0), 1) becomes (1, 2), in 2 steps\n")
    p.gives("run of one step", ["run", plain, 0, "LU"], 0, "0,1,PLULU\n0 becomes (0, 0), in 1 step\n")
    p.gives("run, spent", ["run", H, 1, "PRURRLU", "--budget", 1], 1, "17,0,\n", said="17, spent")
    p.gives("run, no value", ["run", H, 1, "PRURRRRU"], 1, "16,0,\n", said="16, no value")
    p.gives("run, no iso", ["run", H, 2, "U"], 1, "15,0,\n", said="15, no iso")
    p.gives("run of a refused file", ["run", M, 0, "LU"], 1, p.call("check", M)[1])
    p.gives("run, no number", ["run", H, "x", "LU"], 2, "", said="ISO is a number")
    p.gives("run, a sign", ["run", H, "+1", "LU"], 2, "", said="ISO is a number")
    p.gives("run, 33 bits", ["run", H, 1, "LU", "--budget", 2**32], 2, "", said="the budget is a number")
    p.gives("bounds", ["bounds", H, 1], 0, "0,2,2\niso 1: 2 steps, there and back\n")
    p.gives("bounds, no iso", ["bounds", H, 2], 1, "15,0,0\n", said="15, no iso")
    tower = "T,0,0,0\nP,0,0,0\nI,0,0\nC,0,0\n" + "".join(f"I,0,0\nC,0,0\n" + f"L,0,{i},0\n" * 8 for i in range(31))
    file = p.file("tower.rules", tower)
    p.gives("bounds over 32 bits", ["bounds", file, 31], 0, "0,4294967295,4294967295\niso 31: over 4294967295 steps, there and back\n")
    unasked(p, file)
    p.gives("overlap", ["overlap", H, "P1", 3], 0, "0,1,1\nP1 and P3 clash: no setting is matched by both; 1 node pair compared\n")
    out = p.gives("overlap, none", ["overlap", H, 11, 12], 0)
    p.expect("overlap, none: words", out.startswith("0,0,1\nP11 and P12 do not clash"), out)
    p.gives("overlap, no line", ["overlap", H, 1, 99], 1, "15,0,0\n", said="15, no iso")


def unasked(p, tower):
    """Without a budget nothing is begun that takes hours: the bound is said, and how to go on."""
    bound = "rulefile: a run of iso 31 takes over 4294967295 steps; without --budget no more than 100000000 are made\n"
    go_on = "rulefile: to go on, say how many may be made: --budget N, at most 4294967295\n"
    p.gives("run, steps without end", ["run", tower, 31, "U"], 1, "17,0,\n", said=bound + go_on + "rulefile: refused with 17, spent\n")
    p.gives("run back, steps without end", ["run", tower, 31, "U", "--back"], 1, "17,0,\n", said=bound + go_on)
    p.gives("run, steps without end, no value", ["run", tower, 31, "L"], 1, "16,0,\n", said="rulefile: refused with 16, no value\n")
    p.expect("run, no value: no bound", bound not in p.call("run", tower, 31, "L")[2])
    p.gives("export, steps without end", ["export", tower, 31], 1, "", said=bound + go_on + "rulefile: refused with 17, spent\n")
    p.expect("run, a budget of 9: no bound", bound not in p.call("run", tower, 31, "U", "--budget", 9)[2])
    p.gives("run, as many steps as are needed", ["run", tower, 6, "U"], 0, "0,299593,U\n0 becomes 0, in 299593 steps\n")
    p.gives("export, as many steps as are needed", ["export", tower, 6], 0, "0,0\n")
    # 16 runs of 19,173,961 steps at the most
    bits = "T,0,0,0\nT,1,0,0\nT,2,1,1\nT,2,2,2\nP,1,0,0\nI,3,3\nC,0,0\n" + "".join("I,3,3\nC,0,0\n" + f"L,0,{i},0\n" * 8 for i in range(8))
    bits = p.file("bits.rules", bits)
    p.gives("export, steps for all settings", ["export", bits, 8], 1, "", said="a run of iso 8 takes 19173961 steps; without --budget no more than 6250000 are made\n")


def sheets(p):
    queries = "examples/heating-curve.queries"
    head = "line,query,number,word,count,letters,setting,becomes\n"
    out = p.gives("sheet", ["sheet", H, queries], 1, said="2 of 8 queries are refused")
    rows = out.splitlines()
    p.same("sheet: head", head.strip(), rows[0])
    p.same("sheet: a row", '5,"Q,1,0,9,PRURRLU",0,answered,2,PPRULURU,"(circuit on, slope 2)","(bits 10, circuit on)"', rows[5])
    p.same("sheet: a row back", '6,"Q,1,1,9,PPRULURU",0,answered,2,PRURRLU,"(bits 10, circuit on)","(circuit on, slope 2)"', rows[6])
    p.same("sheet: a refused row", '7,"Q,1,0,1,PRURRLU",17,spent,0,,"(circuit on, slope 2)",', rows[7])
    p.same("sheet: a row of no setting", '8,"Q,1,0,9,PRURRRRU",16,no value,0,,,', rows[8])
    answers = (p.folder / "examples/heating-curve.out").read_text().splitlines()[1:]
    found = [",".join((row["number"], row["count"], row["letters"])) for row in csv.DictReader(rows)]
    p.same("sheet: as `rules`", answers, found)
    plain = p.file("plain.rules", (p.folder / H).read_bytes())
    out = p.gives("sheet without names", ["sheet", plain, queries], 1, said="2 of 8 queries are refused")
    p.same("sheet without names: a row", '5,"Q,1,0,9,PRURRLU",0,answered,2,PPRULURU,"(1, 2)","((1, 0), 1)"', out.splitlines()[5])
    many = b"Q,0,0,9,RLU\n" * 1501
    out = p.gives("sheet of 1,501 queries", ["sheet", H, "-"], 0, stdin=many)
    p.same("sheet of 1,501 queries: rows", 1502, len(out.splitlines()))
    p.expect("sheet of 1,501 queries: the last", out.endswith('1501,"Q,0,0,9,RLU",0,answered,1,PLURU,"slope 1","bits 01"\n'), out[-100:])
    p.gives("sheet of no query", ["sheet", H, "/dev/null"], 0, head)
    p.gives("sheet, quotes", ["sheet", H, "-"], 1, head + '1,"a""b\\x00",3,bad line,0,,,\n', said="1 of 1", stdin=b'a"b\0\r\n')
    p.gives("sheet, a formula", ["sheet", H, "-"], 1, head + '1,"\'=1+1",3,bad line,0,,,\n', said="1 of 1", stdin=b"=1+1\n")
    p.gives("sheet of a refused file", ["sheet", M, queries], 1, p.call("check", M)[1])
    p.gives("sheet, both standard input", ["sheet", "-", "-"], 2, "", said="cannot both be standard input")
    p.gives("sheet without its list", ["sheet", H, "missing"], 2, "", said="there is no file missing")


def numbers(p):
    words = "setting 6 of T5, of 0 to 7: (1, 2), in letters PRURRLU"
    plain = p.file("plain.rules", (p.folder / H).read_bytes())
    for name, ty, setting in (("number", 5, "PRURRLU"), ("number by name", "T5", "PRURRLU"), ("number of a tuple", "T5", "(1, 2)")):
        p.gives(name, ["number", plain, ty, setting], 0, f"0,6\n{words}; this is no verdict on the file\n")
    p.gives("number 0", ["number", plain, 5, "PLULU"], 0, "0,0\nsetting 0 of T5, of 0 to 7: (0, 0), in letters PLULU; this is no verdict on the file\n")
    p.gives("number, no value", ["number", H, 5, "PRURRRRU"], 1, "16,0\n", said="16, no value")
    p.gives("number, no type", ["number", H, 7, "U"], 1, "15,0\n", said="15, no iso")
    p.gives("setting", ["setting", plain, 5, 6], 0, f"0,PRURRLU\n{words}\n")
    p.gives("setting too high", ["setting", H, 5, 8], 1, "19,\n", said="19, number too high")
    many = "T,0,0,0\nT,1,0,0\n" + "".join(f"T,2,1,{i}\n" for i in range(1, 32))
    file = p.file("many.rules", many + "P,1,0,0\nI,32,32\nC,0,0\n")
    p.gives("setting of too many", ["setting", file, 32, 0], 1, "18,\n", said="18, too many values")


def in_numbers(p, file, shown):
    """How the setting of a witness reads: in a file of the same T lines that is accepted, as `rulefile setting` has it."""
    number, line, letters = shown.split(",")
    lines = file.read_text().splitlines()
    side = lines[int(line) - 1].split(",")[1 if number in ("11", "13") else 2]
    types = [text for text in lines if text.startswith("T")]
    accepted = p.file("types.rules", "\n".join([*types, "P,1,0,0", *(f"I,{place},{place}\nC,0,0" for place in range(len(types)))]) + "\n")
    return re.search(r": (.*), in letters", p.call("number", accepted, side, letters)[1]).group(1)


def witnesses(p):
    p.gives("witness of an accepted file", ["witness", H], 0, f"0,0,\n{H} is accepted: there is no fault to show.\n")
    words = {11: "which two or more clauses match", 12: "which two or more clauses give", 13: "which no clause matches", 14: "which no clause gives"}
    shown = sorted((p.folder / "examples").glob("**/*.shown"))
    p.expect("witness: stored settings", len(shown) >= 7, shown)
    for stored in shown:
        expected = stored.read_text().strip()
        number, _, letters = expected.split(",")
        example = next(path for path in (stored.with_suffix(".rules"), stored.with_suffix(".in")) if path.exists())
        file = rules_of(p, example)
        out = p.gives(f"witness of {example.name}", ["witness", file], 1)
        p.same(f"witness of {example.name}: setting", expected, out.splitlines()[0])
        if number == "24":
            line = "  a setting: the shortest one, which no clause matches, has over 127 letters, and is not shown\n"
        else:
            line = f"  a setting: {in_numbers(p, file, expected)}, in letters {letters}, {words[int(number)]}\n"
        p.expect(f"witness of {example.name}: words", line in out, out)
        p.expect(f"check of {example.name}: the same setting", line in p.call("check", file)[1])
    out = p.gives("witness of a bad line", ["witness", p.file("w.rules", "x\n")], 1)
    p.expect("witness of a bad line: no setting", out.startswith("3,1,\nw.rules") or out.startswith(f"3,1,\n{p.folder}"), out)
    out = p.gives("a clause that is refused", ["check", "examples/refusals/08-variable.in"], 1)
    p.expect("a clause that is refused: as it reads", "it reads: (0, a) ↦ (0, b)\n" in out, out)


def lists(p):
    pairs = "0,0\n1,2\n2,4\n3,6\n4,1\n5,3\n6,5\n7,7\n"
    p.gives("export", ["export", H, 1], 0, pairs)
    p.gives("export into a file", ["export", H, 1, "-o", "pairs.list"], 0, "")
    p.same("export into a file: content", pairs, (p.folder / "pairs.list").read_text())
    p.gives("export, spent", ["export", H, 1, "--budget", 1], 1, "", said="17, spent")
    p.gives("export, no iso", ["export", H, 2], 1, "", said="15, no iso")
    p.gives("export of a refused file", ["export", M, 0], 1, p.call("check", M)[1])
    p.gives("import", ["import", H, "T5", 6, "pairs.list", "-o", "imported.rules"], 0, "")
    p.gives("import: exported again", ["export", "imported.rules", 0, "--budget", 1], 0, pairs)
    p.gives("import from standard input", ["import", H, 5, 6, "-"], 0, (p.folder / "imported.rules").read_text(), stdin=pairs.encode())
    p.gives("import of a bad list", ["import", H, 5, 6, "-"], 1, "", said="20, bad list", stdin=b"0,0\n0,1\n")
    p.gives("import, no type", ["import", H, 5, 7, "pairs.list"], 1, "", said="15, no iso")
    many = b"".join(b"%d,%d\n" % (n, n) for n in range(129))
    p.gives("import of over 128 lines", ["import", H, 5, 6, "-"], 1, "", said="7, ceiling", stdin=many)
    p.gives("import without end", ["import", H, 5, 6, "/dev/zero"], 2, "", said="is no pair list: it has over 65536 bytes")
    p.gives("import over its list", ["import", H, 5, 6, "pairs.list", "-o", "pairs.list"], 2, "", said="-o names a file that is read")
    p.gives("import, both standard input", ["import", "-", 5, 6, "-"], 2, "", said="cannot both be standard input")
    p.gives("import of a refused file", ["import", M, 0, 0, "pairs.list"], 1, p.call("check", M)[1])
    p.same("import of a list that is missing", 2, p.call("import", H, 5, 6, "missing")[0])


B = "examples/rollout/boards.rules"
FLEET = "examples/rollout/fleet.units"
PLAN = "examples/rollout/plan.script"
HEAD = "unit,type before,setting before,type after,setting after,done,skipped,spent\n"


def plays(p):
    """Plays as they are meant, on the heating curve: T5 the older board, T6 the newer one; iso 1 leads from one to the other in two steps."""
    units, script = p.file("few.units", "5,6\r\n6,5\n3,0\n"), p.file("few.script", "S,0,1,0\nS,1,1,0\r\nS,2,0,0\n")
    table = "  unit  before  after  done  skipped  spent\n     0    T5 6   T6 5     1        0      0\n     1    T6 5   T6 5     0        1      0\n     2    T3 0   T4 0     1        0      0\n"
    words = "3 visits to 3 units: 2 done, 1 skipped, 0 spent\n  skipped: the unit holds another type than the conversion begins at; it stays as it was\n"
    p.gives("play", ["play", H, "few.units", "few.script"], 0, f"0,2,1,0\n{words}\n{table}")
    rows = "0,5,6,6,5,1,0,0\n1,6,5,6,5,0,1,0\n2,3,0,4,0,1,0,0\n"
    p.gives("play as CSV", ["play", H, units, script, "--csv"], 0, HEAD + rows, said="2 done, 1 skipped, 0 spent")
    p.gives("play into a file", ["play", H, units, script, "--csv", "-o", "after.units"], 0, HEAD + rows, said="1 skipped")
    p.same("play into a file: content", "6,5\n6,5\n4,0\n", (p.folder / "after.units").read_text())
    out = p.gives("play, spent", ["play", H, units, script, "--budget", 1], 0)
    p.expect("play, spent: counts", out.startswith("0,1,1,1\n3 visits to 3 units: 1 done, 1 skipped, 1 spent\n"), out)
    p.expect("play, spent: words", "  spent: the conversion takes more than 1 step; the unit stays as it was\n" in out, out)
    back = p.file("back.script", "S,2,0,1\nS,0,1,1\n")
    p.gives("play back", ["play", H, "after.units", back, "-o", "again.units", "--csv"], 0)
    p.same("play back: restored", "5,6\n6,5\n3,0\n", (p.folder / "again.units").read_text())
    for place, (name, text) in enumerate((("file", (p.folder / H).read_bytes()), ("units", units.read_bytes()), ("script", script.read_bytes()))):
        inputs = ["-" if place == other else path for other, path in enumerate((H, units, script))]
        p.gives(f"play, the {name} from standard input", ["play", *inputs], 0, f"0,2,1,0\n{words}\n{table}", stdin=text)
    p.gives("play without a script", ["play", H, units, "/dev/null", "--csv"], 0, HEAD + "0,5,6,5,6,0,0,0\n1,6,5,6,5,0,0,0\n2,3,0,3,0,0,0,0\n", said="the script is empty")
    empty = "0,0,0,0\n0 visits to 0 units: 0 done, 0 skipped, 0 spent\n\n  unit  before  after  done  skipped  spent\n"
    p.gives("play without units", ["play", H, "/dev/null", "/dev/null"], 0, empty, said="the script is empty")
    p.gives("play of an empty file", ["play", "/dev/null", "/dev/null", "/dev/null"], 0, empty, said="the script is empty")


def played(p):
    """Each unit's row is what `setting`, `run` and `number` give, visit by visit, and the counts of the rows add up."""
    start = [tuple(map(int, line.split(","))) for line in (p.folder / FLEET).read_text().splitlines()][:12]
    ends = {0: (3, 4), 1: (5, 6), 2: (4, 4), 3: (6, 7)}
    visits = [(unit, iso, back) for iso in (3, 1, 1, 3, 2) for back in (0, 1) for unit in range(12)]
    p.file("some.units", "".join(f"{ty},{number}\n" for ty, number in start))
    p.file("some.script", "".join(f"S,{unit},{iso},{back}\n" for unit, iso, back in visits))
    known, rows = {}, [[*unit, *unit, 0, 0, 0] for unit in start]
    for unit, iso, back in visits:
        row, begin, end = rows[unit], ends[iso][back], ends[iso][1 - back]
        if row[2] != begin:
            row[5] += 1
            continue
        key = (iso, back, row[3])
        if key not in known:
            letters = p.call("setting", B, begin, row[3])[1].splitlines()[0].split(",")[1]
            status, out, _ = p.call("run", B, iso, letters, "--budget", 1, *["--back"] * back)
            result = out.splitlines()[0].split(",")[2]
            known[key] = None if status else int(p.call("number", B, end, result)[1].splitlines()[0].split(",")[1])
        row[2:] = [*row[2:6], row[6] + 1] if known[key] is None else [end, known[key], row[4] + 1, *row[5:]]
    text = HEAD + "".join(",".join(map(str, (place, *row))) + "\n" for place, row in enumerate(rows))
    out = p.gives("play by the services", ["play", B, "some.units", "some.script", "--budget", 1, "--csv"], 0, text, said="spent")
    totals = [sum(int(row.split(",")[place]) for row in out.splitlines()[1:]) for place in (5, 6, 7)]
    p.expect("play by the services: some of each", min(totals) > 0 and sum(totals) == len(visits), totals)
    first = p.gives("play by the services: totals", ["play", B, "some.units", "some.script", "--budget", 1], 0).splitlines()[0]
    p.same("play by the services: the first line", ",".join(map(str, [0, *totals])), first)


def refused_plays(p):
    few, many = "5,6\n6,5\n", "5,6\n" * 1001
    cases = [
        ("no such unit", few, "S,0,1,0\nS,2,1,0\n", 22, "line 2 of script: S,2,1,0", "there is no unit 2: there are 2, numbered from 0"),
        ("no such iso", few, "S,1,2,0\n", 22, "line 1 of script: S,1,2,0", "the file has no iso 2"),
        ("a third direction", few, "S,0,1,0\n" * 9 + "S,0,1,2\n", 22, "line 10 of script", "the direction is 0 for there or 1 for back, not 2"),
        ("a small letter", few, "s,0,1,0\n", 22, "line 1 of script: s,0,1,0", "begins with a small s; its letter is S"),
        ("another letter", few, "S,0,1,0\nX,0,1,0\n", 22, "line 2 of script", "does not begin with the letter S"),
        ("a query", few, "Q,0,0,9,LU\n", 22, "line 1 of script", "a query stands in the script"),
        ("a number too few", few, "S,0,1\n", 22, "line 1 of script", "3 numbers follow the letter S, here there are 2"),
        ("a leading zero", few, "S,0,01,0\n", 22, "line 1 of script", "the number 01 has a leading zero"),
        ("a blank", few, "S, 0,1,0\n", 22, "line 1 of script", "there is a blank at byte 3"),
        ("an empty line", few, "S,0,1,0\n\nS,0,1,1\n", 22, "line 2 of script", "the line is empty"),
        ("no last line feed", few, "S,0,1,0\nS,0,1,1", 22, "line 2 of script", "does not end with a line feed"),
        ("units, none of them there", "", "S,0,1,0\n", 22, "line 1 of script", "there is no unit 0: there are 0"),
        ("a unit of no type", "5,6\n7,0\n", "x", 15, "unit 1, line 2 of units: setting 0 of T7", "look here: T7 was named; the file has 7 T lines, T0 to T6"),
        ("a unit too high", "5,6\n5,7\n5,8\n4294967295,0\n", "x", 19, "unit 2, line 3 of units: setting 8 of T5", "look here: the number is 8; T5 has 8 settings, and the last number is 7"),
        ("over 1,000 units", many, "S,0,1,0\n", 2, "refused with 2, too long", "look here: units has 1001 units; a play has at most 1000"),
        ("over 4,096 lines", few, "S,0,1,0\n" * 4097, 2, "refused with 2, too long", "look here: script has 4097 visits; a play has at most 4096"),
    ]
    for name, units, script, number, place, words in cases:
        inputs = [H, p.file("units", units).name, p.file("script", script).name]
        kept = p.file("kept", "kept\n")
        p.gives(f"play, {name}", ["play", *inputs, "-o", kept, "--force"], 1, f"{number},0,0,0\n", said=f"refused with {number}, ")
        p.same(f"play, {name}: nothing written", "kept\n", kept.read_text())
        p.gives(f"play, {name}, as CSV", ["play", *inputs, "--csv"], 1, "", said=place)
        p.gives(f"play, {name}: words", ["play", *inputs], 1, said=words)
    bits = "T,0,0,0\nT,1,0,0\n" + "".join(f"T,2,1,{i}\n" for i in range(1, 32)) + "P,1,0,0\nI,32,32\nC,0,0\n"
    inputs = [p.file("bits.rules", bits), p.file("units", "31,2147483647\n32,0\n").name, "/dev/null"]
    p.gives("play, a unit of too many settings", ["play", *inputs], 1, "18,0,0,0\n", said="unit 1, line 2 of units: setting 0 of T32")
    most = [p.file("most.units", "5,6\n" * 1000), p.file("most.script", "S,999,1,0\nS,999,1,1\n" * 2048)]
    out = p.gives("play of 1,000 units and 4,096 visits", ["play", H, *most], 0)
    p.expect("play of 1,000 units and 4,096 visits: all done", out.startswith("0,4096,0,0\n4096 visits to 1000 units: 4096 done,"), out[:80])
    p.expect("play of 1,000 units and 4,096 visits: the last", out.endswith("   999    T5 6   T5 6  4096        0      0\n"), out[-80:])
    p.gives("play with a refused file", ["play", M, FLEET, PLAN], 1, p.call("check", M)[1])
    idle = p.gives("play with an idle file", ["play", "examples/refusals/21-idle-line.in", FLEET, PLAN], 1, p.call("check", "examples/refusals/21-idle-line.in")[1])
    p.expect("play with an idle file: as it reads", "  it reads: T2 = 2 × 2\n" in idle, idle)


def no_plays(p):
    """What is no list of units or no script, what is missing, and wrong usage."""
    bad = [
        ("a unit of one number", "5,6\n5\n", 2, "a unit has 2 numbers, here there are 1"),
        ("a unit of three numbers", "5,6,7\n", 1, "a unit has 2 numbers, here there are 3"),
        ("a unit by name", "T5,6\n", 1, "T5 is not a number"),
        ("a unit without a number", "5,\n", 1, "a number is missing"),
        ("a unit with a leading zero", "5,06\n", 1, "the number 06 has a leading zero"),
        ("a unit of 33 bits", "5,4294967296\n", 1, "the number 4294967296 is over 4294967295"),
        ("a unit with a sign", "5,+6\n", 1, "a sign or a point at byte 3"),
        ("a unit with a semicolon", "5,6\n5;6\n", 2, "semicolon"),
        ("a unit without its line feed", "5,6\n5,6", 2, "does not end with a line feed"),
        ("an empty line among units", "5,6\n\n", 2, "the line is empty"),
        ("units with a byte order mark", b"\xef\xbb\xbf5,6\n", 1, "byte order mark"),
        ("units with carriage returns alone", "5,6\r5,6\r", 1, "carriage returns alone"),
    ]
    for name, content, line, words in bad:
        p.file("bad.units", content)
        p.gives(name, ["play", H, "bad.units", PLAN], 2, "", said=f"line {line} of bad.units is no unit `tline,number`: ")
        p.gives(f"{name}: {words}", ["play", H, "bad.units", PLAN], 2, "", said=words)
    p.gives("play without its units", ["play", B, "missing", PLAN], 2, "", said="there is no file missing")
    p.gives("play without its script", ["play", B, FLEET, "missing"], 2, "", said="there is no file missing")
    p.gives("play of a folder of units", ["play", B, "examples", PLAN], 2, "", said="examples is a folder")
    p.gives("play of units without end", ["play", B, "/dev/zero", PLAN], 2, "", said="is no list of units: it has over 65536 bytes")
    p.gives("play of a script without end", ["play", B, FLEET, "/dev/zero"], 2, "", said="is no script: it has over 65536 bytes")
    p.gives("play, two from standard input", ["play", B, "-", "-"], 2, "", said="only one of FILE, UNITS and SCRIPT can be standard input")
    for name in (B, FLEET, PLAN):
        before = (p.folder / name).read_bytes()
        p.gives(f"play over {name}", ["play", B, FLEET, PLAN, "-o", name], 2, "", said="-o names a file that is read")
        p.same(f"play over {name}: kept", before, (p.folder / name).read_bytes())
    p.gives("play into a folder", ["play", B, FLEET, PLAN, "-o", "examples"], 2, "", said="examples is a folder")
    p.gives("play, no number", ["play", B, FLEET, PLAN, "--budget", "x"], 2, "", said="the budget is a number")


def refused_everywhere(p):
    """A refused file is answered on standard output in every command, as `check` answers it."""
    calls = {"turn": [], "run": [0, "LU"], "sheet": ["examples/heating-curve.queries"], "number": [0, "U"], "setting": [0, 0], "bounds": [0], "overlap": [0, 0]}
    calls |= {"export": [0], "import": [0, 0, "examples/valve-lists.list"], "play": [FLEET, PLAN]}
    for file in (M, "examples/refusals/10-type.in", "examples/refusals/03-bad-line.in"):
        answer = p.call("check", file)[1]
        for command, rest in calls.items():
            p.gives(f"{command} of {file}", [command, file, *rest], 1, answer)
        for command in ("show", "witness"):
            out = p.gives(f"{command} of {file}", [command, file], 1)
            p.expect(f"{command} of {file}: number and line first", out.startswith(answer.split("\n")[0]), out)
            p.expect(f"{command} of {file}: words", out.split("\n", 1)[1].startswith(answer.split("\n", 1)[1]), out)


def sheets_in_files(p):
    """-o and --semicolon of `sheet`."""
    queries = "examples/heating-curve.queries"
    out = p.call("sheet", H, queries)[1]
    p.gives("sheet into a file", ["sheet", H, queries, "-o", "answers.csv"], 1, "", said="2 of 8 queries are refused")
    p.same("sheet into a file: content", out, (p.folder / "answers.csv").read_text())
    p.gives("sheet over a file", ["sheet", H, queries, "-o", "answers.csv"], 2, "", said="answers.csv is there; it is kept. --force writes over it")
    semicolons = p.gives("sheet with semicolons", ["sheet", "--semicolon", H, queries], 1, said="2 of 8")
    p.same("sheet with semicolons: a row", '5;"Q,1,0,9,PRURRLU";0;answered;2;PPRULURU;"(circuit on, slope 2)";"(bits 10, circuit on)"', semicolons.splitlines()[5])
    p.same("sheet with semicolons: a refused row", '7;"Q,1,0,1,PRURRLU";17;spent;0;;"(circuit on, slope 2)";', semicolons.splitlines()[7])
    p.same("sheet with semicolons: columns", [7] * 9, [re.sub('"[^"]*"', "", row).count(";") for row in semicolons.splitlines()])
    p.gives("sheet by force", ["sheet", "--semicolon", H, queries, "-o", "answers.csv", "--force"], 1, "", said="2 of 8")
    p.same("sheet by force: content", semicolons, (p.folder / "answers.csv").read_text())
    p.gives("sheet over its queries", ["sheet", H, queries, "-o", queries, "--force"], 2, "", said="-o names a file that is read")
    p.gives("sheet over its file", ["sheet", H, queries, "-o", H, "--force"], 2, "", said="-o names a file that is read")
    # nothing is left of a sheet that is not answered to its end
    p.gives("sheet, cut off", ["sheet", H, "/dev/zero", "-o", "cut.csv"], 2, "", said="its line 1 has over 65,536 bytes")
    p.same("sheet, cut off: nothing left", [], [n.name for n in p.folder.iterdir() if "cut.csv" in n.name])


def outputs_kept(p):
    """What -o names is kept in every command, unless --force says otherwise; then it is written over."""
    pairs = p.file("pairs.txt", p.call("export", H, 1)[1]).name
    calls = [["show", H], ["show", "--html", H], ["turn", H], ["export", H, 1], ["import", H, 5, 6, pairs], ["play", B, FLEET, PLAN], ["letter", H]]
    for words in calls:
        kept = p.file("kept.out", "kept\n")
        p.gives(f"{words[0]} over a file", [*words, "-o", "kept.out"], 2, "", said="kept.out is there; it is kept. --force writes over it")
        p.same(f"{words[0]} over a file: kept", "kept\n", kept.read_text())
        p.same(f"{words[0]} by force", (0, ""), p.call(*words, "-o", "kept.out", "--force")[::2])
        p.expect(f"{words[0]} by force: written", kept.read_text() not in ("", "kept\n"))
        p.same(f"{words[0]} into a device", (0, ""), p.call(*words, "-o", "/dev/null")[::2])
    link = p.folder / "dangling"
    link.symlink_to("nowhere")
    p.gives("over a link that leads nowhere", ["turn", H, "-o", "dangling"], 2, "", said="dangling is there; it is kept")


def usage(p):
    out = p.gives("help", ["--help"], 0)
    commands = re.findall(r"^  (\w+) ", out, re.M)
    p.expect("help: commands", {"check", "verdict", "verify", "show", "turn", "run", "sheet"} <= set(commands), commands)
    version = (p.folder / "bin/rulefile").resolve().parents[1].joinpath("VERSION").read_text().strip()
    p.gives("version", ["--version"], 0, f"rulefile {version}\n")
    for command in commands:
        out = p.gives(f"{command} --help", [command, "--help"], 0)
        p.expect(f"{command} --help: usage", out.startswith(f"usage: rulefile {command} "), out)
        p.gives(f"{command} --version", [command, "--version"], 0, f"rulefile {version}\n")
        p.gives(f"{command} without a word", [command], 2, "", said=f"usage: rulefile {command} ")
        p.gives(f"{command}, no such option", [command, "--no", H], 2, "", said="there is no option --no")
        if command in MANY:
            out = p.gives(f"{command} of many files that are missing", [command, *"abcdefgh"], 2, said="there is no file h")
            p.expect(f"{command} of many files that are missing: table", out.startswith("8 files: 0 ") and out.endswith("  h\n"), out)
        else:
            p.gives(f"{command}, too many words", [command, *"abcdefgh"], 2, "", said="a word too many")
    p.gives("no command", [], 2, "", said="usage: rulefile COMMAND")
    p.gives("another command", ["delete", H], 2, "", said="there is no command delete")
    p.gives("an option twice", ["run", H, 0, "LU", "--back", "--back"], 2, "", said="--back is given twice")
    p.gives("a word behind an option", ["run", H, 0, "LU", "--budget"], 2, "", said="a word is missing behind --budget")
    dashed = p.file("-dash.rules", (p.folder / H).read_bytes())
    p.expect("a name that begins with a dash", p.call("check", "--", dashed.name)[0] == 0)
