"""`show`, as text and as a page."""

import csv
import datetime
import hashlib
import html.parser
import re
import time

import boards
import ceilings
from person import TREE

H = "examples/heating-curve.rules"
M = "examples/merged-setting.rules"

LEGEND = """  4 is one of four, 0 to 3; 2 × 4 is both, as (1, 3); 2 + (2 × 4) is either, as 0:1 or 1:(1, 3).
  Small letters are carried over; 2+a is a, counted on from 2; the last may be all that is left.
"""

PLAIN = "plain.rules"

SHOWN = f"""0,0
{PLAIN} is accepted.
  lines: 7 T, 16 P, 2 I, 5 C, 1 L
{LEGEND}
iso 0: T3 → T4, 4 settings, 1 step (line 24)
  4 → 2 × 2
  line 25: 0  ↦ (0, 0)
  line 26: 1  ↦ (0, 1)
  line 27: 2  ↦ (1, 0)
  line 28: 3  ↦ (1, 1)

iso 1: T5 → T6, 8 settings, 2 steps (line 29)
  2 × 4 → (2 × 2) × 2
  line 30: (a, b)  ↦ (c, a), where c = iso 0 (b)

types
  T0 = 1            1 setting
  T1 = 2            2 settings
  T2 = 3            3 settings
  T3 = 4            4 settings
  T4 = 2 × 2        4 settings
  T5 = 2 × 4        8 settings
  T6 = (2 × 2) × 2  8 settings
"""

LETTERS = f"""0,0
{H} is accepted.
  lines: 7 T, 16 P, 2 I, 5 C, 1 L
  1 is nothing to tell apart, U; + is the left part, L, or the right one, R; × is both, in queries P.
  Small letters are parts carried over.

iso 0: T3 → T4, 4 settings, 1 step (line 24)
  1 + (1 + (1 + 1)) → (1 + 1) × (1 + 1)
  line 25: LU    ↦ (LU, LU)
  line 26: RLU   ↦ (LU, RU)
  line 27: RRLU  ↦ (RU, LU)
  line 28: RRRU  ↦ (RU, RU)

iso 1: T5 → T6, 8 settings, 2 steps (line 29)
  (1 + 1) × (1 + (1 + (1 + 1))) → ((1 + 1) × (1 + 1)) × (1 + 1)
  line 30: (a, b)  ↦ (c, a), where c = iso 0 (b)

types
  T0 = 1                              1 setting
  T1 = 1 + 1                          2 settings
  T2 = 1 + (1 + 1)                    3 settings
  T3 = 1 + (1 + (1 + 1))              4 settings
  T4 = (1 + 1) × (1 + 1)              4 settings
  T5 = (1 + 1) × (1 + (1 + (1 + 1)))  8 settings
  T6 = ((1 + 1) × (1 + 1)) × (1 + 1)  8 settings
"""


class Page(html.parser.HTMLParser):
    """Every tag is closed in order, nothing is fetched or run, and every link leads to a place of the page."""

    EMPTY = {"meta", "line", "rect", "path"}

    def __init__(self):
        super().__init__()
        self.open, self.faults, self.cells, self.drawings, self.text = [], [], [], [], ""
        self.links, self.places = [], []

    def handle_starttag(self, tag, attrs):
        if tag == "svg":
            self.drawings.append(tuple(int(dict(attrs)[side]) for side in ("width", "height")))
        if tag in ("script", "link", "img", "iframe") or any(n == "src" or n.startswith("on") or (n == "href" and v[:1] != "#") for n, v in attrs):
            self.faults.append(tag)
        self.links += [v[1:] for n, v in attrs if n == "href"]
        self.places += [v for n, v in attrs if n == "id"]
        if tag not in self.EMPTY:
            self.open.append(tag)

    def handle_endtag(self, tag):
        if tag not in self.EMPTY and (not self.open or self.open.pop() != tag):
            self.faults.append(f"/{tag}")

    def handle_data(self, data):
        # what stands in drawings stands in the text too
        self.text += "" if "svg" in self.open else data
        if self.open and self.open[-1] == "td":
            self.cells.append(data)


def page(p, name, words, status):
    text = p.gives(name, ["show", "--html", *words], status)
    found = Page()
    found.feed(text)
    p.same(f"{name}: tags", ([], []), (found.faults, found.open))
    p.expect(f"{name}: nothing outside", "http" not in text and "url(" not in text and "@import" not in text)
    p.same(f"{name}: links", (set(), len(found.places)), (set(found.links) - set(found.places), len(set(found.places))))
    return text, found


def run(p):
    p.file(PLAIN, (p.folder / H).read_bytes())
    p.gives("show", ["show", PLAIN], 0, SHOWN)
    p.gives("show in letters", ["show", H, "--letters"], 0, LETTERS)
    only = p.gives("show one iso", ["show", PLAIN, 0], 0)
    p.expect("show one iso: only it", "iso 0: T3 → T4" in only and "iso 1" not in only and "T5" not in only, only)
    p.gives("show no iso", ["show", H, 2], 1, "", said="15, no iso")
    again = p.gives("a number used again", ["show", "examples/number-again.rules"], 0)
    p.expect("a number used again: told apart", "(a, b)  ↦ (b′, a), where b′ = iso 0 (b)" in again, again)
    refused = p.gives("show of a refused file", ["show", M], 1)
    p.expect("show of a refused file: lines", refused.startswith("12,9\n") and "line 11: 1  ↦ 2\n" in refused, refused)
    idle = p.gives("show of an idle line", ["show", "examples/refusals/21-idle-line.in"], 1)
    p.expect("show of an idle line: lines", idle.startswith("21,3\n") and "T2 = 2 × 2  4 settings\n" in idle and "iso 0: T1 → T1" in idle, idle)
    bad = p.gives("show of a bad line", ["show", p.file("bad.rules", "T,0,0,0\nx\n")], 1)
    p.expect("show of a bad line: no lines", bad.startswith("3,2\n") and "types" not in bad, bad)
    p.gives("show of an empty file", ["show", "/dev/null"], 0, said="warning: the file is empty")
    large(p)
    pages(p)
    samples(p)
    quick(p)
    order(p)
    paper(p)
    widths(p)


def large(p):
    """A type of 127 nodes, shared: by name, not written out 2 to the 6 times. A pattern of 127 nodes is written out."""
    types = "T,0,0,0\n" + "".join(f"T,2,{i},{i}\n" for i in range(6))
    patterns = "P,0,0,0\n" + "".join(f"P,4,{i},{i}\n" for i in range(6))
    file = p.file("large.rules", types + patterns + "I,6,6\nC,6,6\n")
    out = p.gives("show of a large type", ["show", file], 0)
    four, two = "((1 × 1) × 1 × 1)", "(1 × 1)"
    p.expect("show of a large type: by name", f"  T6 = T5 × T4 × T3 × {four} × {two} × 1 × 1  1 setting\n" in out, out)
    tuples = ["0, 0"]
    for _ in range(5):
        tuples.append(f"({tuples[-1]}), {tuples[-1]}")
    p.expect("show of a large type: patterns whole", f"  line 16: ({tuples[5]})  ↦ ({tuples[5]})\n" in out, out)
    p.expect("show of a large type: short", len(out) < 2000, len(out))
    # as much as a file can hold, within some seconds
    head = "T,0,0,0\nT,2,0,0\nP,1,0,0\nP,1,1,0\n" + "".join(f"P,4,{i},{i + 1}\n" for i in (0,))
    isos = "".join(f"I,1,1\nC,2,2\n" for _ in range(32))
    file = p.file("wide.rules", head + isos)
    start = time.monotonic()
    page(p, "a page of 32 isos", [file], 0)
    p.expect("a page of 32 isos: in time", time.monotonic() - start < 10)


def pages(p):
    text, found = page(p, "page", [H], 0)
    p.expect("page: verdict", "0,0 – accepted" in text)
    p.same("page: drawings, three types of parts and the clause that carries parts over", 3 + 1, len(found.drawings))
    p.same("page: cells, 5 a setting, there and back", 5 * 2 * (4 + 8), len(found.cells))
    text, found = page(p, "page without names", [PLAIN], 0)
    cells = lambda number, letters, reading: f'<td class="r">{number}</td><td class="f" title="{letters}">{reading}</td>'
    there, back = cells(6, "PRURRLU", "(1, 2)"), cells(5, "PPRULURU", "((1, 0), 1)")
    row = f'<tr>{there}{back}<td class="r">2</td></tr>'
    back = f'<tr>{back}{there}<td class="r">2</td></tr>'
    p.expect("page: a conversion there", row in text)
    p.expect("page: and back", back in text)
    p.expect("page: light and dark", "prefers-color-scheme: dark" in text and "@media print" in text)
    text, _ = page(p, "page of a refused file", [M], 1)
    p.expect("page of a refused file: verdict", "12,9 – refused: overlap right" in text and "becomes" not in text)
    text, _ = page(p, "page of an idle line", ["examples/refusals/21-idle-line.in"], 1)
    p.expect("page of an idle line: marked", "21,3 – refused: idle line" in text and text.count("fault\"") == 1 and '<div class="line fault" id="T2"><b>T2</b>' in text)
    name = "a&b <i>\"'.rules"
    p.file(name, (p.folder / H).read_bytes())
    text, _ = page(p, "a page with a strange name", [name], 0)
    p.expect("a page with a strange name: escaped", "<h1>a&amp;b &lt;i&gt;&quot;&#39;.rules</h1>" in text)
    p.gives("a page in a file", ["show", H, "--html", "-o", "page.html"], 0, "")
    p.expect("a page in a file: whole", (p.folder / "page.html").read_text().endswith("</html>\n"))
    bits = lambda n: "T,0,0,0\nT,1,0,0\n" + "".join(f"T,2,1,{i}\n" for i in range(1, n)) + f"P,1,0,0\nI,{n},{n}\nC,0,0\n"
    text, found = page(p, "256 settings", [p.file("bits.rules", bits(8))], 0)
    p.same("256 settings: listed", 256 * 2 * 5, len(found.cells))
    text, found = page(p, "512 settings", [p.file("bits.rules", bits(9))], 0)
    p.same("512 settings: a sample", 2, text.count("a sample of 9: the first, the last, one a clause, some between"))
    p.same("512 settings: a sample, listed", 2 * 9 * 5, len(found.cells))
    tower = "T,0,0,0\nP,0,0,0\nI,0,0\nC,0,0\n" + "".join(f"I,0,0\nC,0,0\n" + f"L,0,{i},0\n" * 8 for i in range(31))
    text, _ = page(p, "runs without end", [p.file("tower.rules", tower)], 0)
    p.expect("runs without end: not made", "too many steps for a list" in text)
    p.same("settings of T lines as the library counts them", [], counts_differ(p))


def counts_differ(p):
    """The types of the example whose last setting is not one below the count that is shown."""
    shown = re.findall(r"T(\d+) = .*?  (\d+) settings?\n", SHOWN)
    last = [(t, p.call("setting", H, t, int(n) - 1)[0], p.call("setting", H, t, n)[0]) for t, n in shown]
    return [one for one in last if one[1:] != (0, 1)]

def rows(text, way):
    """The conversions listed one way: number, letters, number, letters and steps of each."""
    part = re.search(rf"<(h3|summary)>{way}.*?(?=<h3>|<summary>|</section>)", text, re.S)[0]
    cell = r'<td class="r">(\d+|–)</td><td class="f" title="(\w+)">[^<]*</td>'
    return re.findall(cell + cell + r'<td class="r">(\d+)</td>', part)


def matches(patterns, place, letters):
    """What is left of the letters behind a value that the pattern matches; none where it matches none."""
    kind, a, b = patterns[place]
    if kind == 1:
        rest = 1
        while rest:
            rest += {"U": -1, "P": 1}.get(letters[0], 0)
            letters = letters[1:]
        return letters
    if letters[0] != "UULRP"[kind]:
        return None
    letters = letters[1:]
    for part in [[], [], [a], [a], [a, b]][kind]:
        letters = letters if letters is None else matches(patterns, part, letters)
    return letters


def samples(p):
    """An iso of over 256 settings: the first and the last, one a clause, some between, both ways, each as a run and its number say."""
    file = p.file("board.rules", ceilings.board(1))
    lines = [line.split(",") for line in file.read_text().splitlines()]
    patterns = [tuple(map(int, f)) for k, *f in lines if k == "P"]
    clauses = [tuple(map(int, f)) for k, *f in lines[[l[0] for l in lines].index("I") :] if k == "C"][-128:]
    iso, (old, new) = 21, [tuple(map(int, f)) for k, *f in lines if k == "I"][-1]
    text, _ = page(p, "a sample", [file, iso], 0)
    p.same("a sample: said", 2, text.count("a sample of 1"))
    for way, side, back, types in (("There", 0, 0, (old, new)), ("Back", 1, 1, (new, old))):
        name, found = f"a sample, {way}", rows(text, way)
        p.expect(f"{name}: in the order of numbers", found == sorted(found, key=lambda row: int(row[0])) and len(found) == len(set(found)))
        p.same(f"{name}: first and last", (0, 511), (int(found[0][0]), int(found[-1][0])))
        unmatched = [c for c in clauses if not any(matches(patterns, c[side], row[1]) == "" for row in found)]
        p.same(f"{name}: one a clause", [], unmatched)
        p.expect(f"{name}: some between", {512 * k // 7 for k in range(1, 7)} <= {int(row[0]) for row in found} and len(found) <= 128 + 8, len(found))
        queries = p.file("sample.queries", "".join(f"Q,{iso},{back},10000,{row[1]}\n" for row in found))
        answers = list(csv.DictReader(p.call("sheet", file, queries)[1].splitlines()))
        p.same(f"{name}: as runs give it", [(a["count"], a["letters"]) for a in answers], [(row[4], row[3]) for row in found])
        for row in found[:: len(found) // 9]:
            for ty, number, letters in ((types[0], *row[:2]), (types[1], *row[2:4])):
                p.expect(f"{name}: number {number}", p.call("number", file, ty, letters)[1].startswith(f"0,{number}\n"))
    # 3 to the 21: there are no numbers of 32 bits
    huge = "T,0,0,0\nT,1,0,0\nT,1,0,1\n" + "".join(f"T,2,2,{i}\n" for i in range(2, 22)) + "P,1,0,0\nI,22,22\nC,0,0\n"
    text, _ = page(p, "a sample of very many", [p.file("huge.rules", huge)], 0)
    found = rows(text, "There")
    ends = "P" .join([""] + ["LU"] * 20) + "LU", "P".join([""] + ["RRU"] * 20) + "RRU"
    p.same("a sample of very many: ends, without numbers", [("–", e, "–", e, "1") for e in ends], [found[0], found[-1]])
    p.expect("a sample of very many: some between", len(found) > 4, len(found))


def quick(p):
    """The numbers of a type are asked for once: 32 isos of 256 settings among 3,299 lines took over a minute."""
    start = time.monotonic()
    status, out, said = p.call("show", "--html", p.file("wide.rules", ceilings.wide()))
    took = time.monotonic() - start
    told = re.fullmatch(r"(rulefile: show, \d+ s: \d+ of 32 conversions\n)*", said)
    p.expect("32 isos of 256 settings: a page", status == 0 and out.endswith("</html>\n") and told, said)
    p.expect("32 isos of 256 settings: in time", took < 20, f"{took:.0f} s")
    p.same("32 isos of 256 settings: all", 32 * 2 * 256, len(re.findall(r'<tr><td class="r">\d', out)))


def order(p):
    """Conversions first, helper types last, contents with links, names that lead to where they stand; the file's name as heading."""
    text, found = page(p, "order", [PLAIN], 0)
    places = ["iso-0", "iso-1", "types", *(f"T{t}" for t in range(7))]
    p.same("order: conversions, then types", places, found.places)
    p.same("order: contents", ["iso-0", "iso-1", "types"], re.findall(r'href="#([\w-]+)"', re.search(r"<nav.*?</nav>", text, re.S)[0]))
    p.expect("order: contents first", text.index("<nav") < text.index('id="iso-0"'))
    p.expect("order: contents say more", "iso 1: T5 → T6, 8 settings, 2 steps · 2 × 4 → (2 × 2) × 2\n" in found.text)
    p.expect("order: types in a heading", '<h2>iso 1: <a href="#T5">T5</a> → <a href="#T6">T6</a>, 8 settings' in text)
    p.expect("order: an iso in a clause", '(a, b) ↦ (c, a), where c = <a href="#iso-0">iso 0</a> (b)' in text)
    p.expect("order: where an iso is used", '4 → 2 × 2 · used in <a href="#iso-1">iso 1</a>' in text)
    text, found = page(p, "order, names", [H], 0)
    p.expect("order, names: a heading", '<h2>iso 1, whole setting: <a href="#T5">T5</a> → <a href="#T6">T6</a>, 8 settings' in text)
    p.expect("order, names: an iso in a clause", '(a, b) ↦ (c, a), where c = <a href="#iso-0">slope as bits</a> (b)' in text)
    ends = '<a href="#T5">older board</a> (2 × <a href="#T3">slope</a>) → <a href="#T6">newer board</a> (<a href="#T4">bits</a> × 2)'
    p.expect("order, names: types", ends in text and '<b>T5</b> = older board (2 × <a href="#T3">slope</a>) ' in text)
    p.expect("order, names: where an iso is used", ' · used in <a href="#iso-1">whole setting</a>' in text)
    p.expect("order, names: whose", "Names: heating-curve.names, by those who use the file; no part of the verdict.\n" in found.text)
    p.expect("order, names: settings", '<td class="f" title="PRURRLU">(circuit on, slope 2)</td>' in text)
    p.expect("order: the file's name alone", "<h1>heating-curve.rules</h1>" in text and "<title>heating-curve.rules</title>" in text and "examples" not in text)
    text, _ = page(p, "order, refused", [M], 1)
    p.expect("order, refused: the file's name alone", "merged-setting.rules is refused: 12" in text and "examples" not in text)
    text, found = page(p, "order, one iso", [PLAIN, 1], 0)
    p.expect("order, one iso: no link to another", "#iso-0" not in text and "where c = iso 0 (b)" in text)
    large = "T,0,0,0\n" + "".join(f"T,2,{i},{i}\n" for i in range(6)) + "P,1,0,0\nI,6,6\nC,0,0\n"
    text, _ = page(p, "order, a type by name", [p.file("large.rules", large)], 0)
    p.expect("order, a type by name: a link", '<b>T6</b> = <a href="#T5">T5</a> × <a href="#T4">T4</a> × ' in text)


def paper(p):
    """Printed: page numbers and what was judged in the foot, nothing torn, the way back only where it is opened."""
    text, found = page(p, "paper", [H], 0)
    style = text[: text.index("</style>")]
    foot = re.search(r"@bottom-left \{ content: (.*?); \} \}\n", style)[1]
    hashed = hashlib.sha256((p.folder / H).read_bytes()).hexdigest()
    today = datetime.datetime.now(datetime.timezone.utc).date()
    days = [str(today - datetime.timedelta(days=back)) for back in (0, 1)]
    p.expect("paper: file and day", any(foot.startswith(f'"heating-curve.rules · {day}" "\\a" ') for day in days), foot)
    version = (TREE / "VERSION").read_text().strip()
    p.expect("paper: SHA-256", f'"SHA-256 {hashed}" "\\a" ' in foot, foot)
    p.expect("paper: what judged", f'"judged by library {version}, ' in foot and "kit " in foot, foot)
    p.expect("paper: the same on the screen", f"SHA-256 {hashed} · " in found.text and f"judged by library {version}, " in found.text)
    p.expect("paper: page numbers", 'content: "page " counter(page) " of " counter(pages);' in style)
    p.expect("paper: of any size", "@page { margin: " in style and "size: A4" not in style and "size: letter" not in style)
    p.expect("paper: light, where the screen is dark", "@media screen and (prefers-color-scheme: dark)" in style)
    p.expect("paper: nothing torn", "h1, h2, h3, summary, .about { break-after: avoid; }" in style and "h2::after, h3::after, summary::after { content: \"\"; display: block; height: 24mm; margin-bottom: -24mm; }" in style and re.search(r"\ntable \{[^}]*break-inside: avoid;", style) and re.search(r"\n\.line \{[^}]*break-inside: avoid;", style))
    p.same("paper: the way back on request", (2, 0), (text.count("<details><summary>Back</summary>"), text.count("<h3>Back")))
    p.expect("paper: what is not opened is not printed", "details:not([open]) { display: none; }" in style)
    text, _ = page(p, "paper, back", [H, "--back"], 0)
    p.same("paper, back: open", 2, text.count("<details open><summary>Back</summary>"))
    name = "a;b}<style>\"\\ü.rules"
    p.file(name, (p.folder / H).read_bytes())
    text, _ = page(p, "paper, a strange name", [name], 0)
    p.expect("paper, a strange name: escaped", '"a;b\\7d \\3c style\\3e \\22 \\5c ü.rules · ' in text and text.count("<style>") == 1)
    file = p.file("valves.rules", ceilings.valves(1))
    text, _ = page(p, "paper, 128 settings", [file], 0)
    tables = re.findall(r"<table>(.*?)</table>", text, re.S)
    p.same("paper, 128 settings: tables of 16 rows, each with its heading", [(1, 17)] * 16, [(t.count("<thead>"), t.count("<tr>")) for t in tables])
    sizes = {}
    for count in (1, 7, 9, 15, 16, 24, 40, 50):
        text, _ = page(p, f"paper, {count} settings", [p.file("steps.rules", ceilings.steps(count))], 0)
        sizes[count] = [t.count('<tr><td class="r">') for t in re.findall(r"<table>(.*?)</table>", text.split("<details>")[0], re.S)]
    expected = {1: [1], 7: [7], 9: [9], 15: [15], 16: [8, 8], 24: [8, 8, 8], 40: [14, 14, 12], 50: [13, 13, 13, 11]}
    p.same("paper: tables of like length", expected, sizes)
    text, _ = page(p, "paper, 128 settings", [file], 0)
    p.same("paper, 128 settings: in columns", 2, len(re.findall(r'<div class="rows f" style="columns:(\d+)ch;--wide:\1ch">', text)))


def widths(p):
    """Clauses have the width that they need, drawings only a size at which they help, and nothing is cut off at 30 isos of 128 clauses."""
    status, text, _ = p.call("show", "--html", p.file("valves.rules", ceilings.valves()))
    found = Page()
    found.feed(text)
    shown = p.call("show", "valves.rules")[1]
    clauses = re.findall(r"^  (line \d+: .*?) +↦ (.*)$", shown, re.M)
    p.same("widths: 30 isos of 128 clauses", (0, 30 * 128), (status, len(clauses)))
    lines = set(found.text.splitlines())
    p.same("widths: every clause whole", [], [c for c in clauses if f"{c[0]} ↦ {c[1]}" not in lines][:3])
    p.same("widths: no drawings of that many", [], found.drawings)
    wide = max(len(f"{left} ↦ {right}") for left, right in clauses)
    columns = [int(width) for width in re.findall(r'<div class="lines f" style="columns:(\d+)ch">\n<div class="line"><span', text)]
    p.expect("widths: as the longest clause needs", len(columns) == 30 and all(len("line 226: (0, 0) ↦ (0, 0)") < width <= wide + 6 for width in columns), (wide, columns))
    style = text[: text.index("</style>")]
    p.expect("widths: nothing is cut off", "overflow: hidden" not in style and "overflow-x" not in style and "text-overflow" not in style and re.search(r"\n\.line \{[^}]*overflow-wrap: anywhere;", style))
    text, found = page(p, "widths, a board of 2,984 lines", [p.file("large.rules", boards.large())], 0)
    shown = p.call("show", "large.rules")[1]
    # what goes on in further lines stands in one
    shown = re.sub(r"\n {6,}", " ", shown)
    shown = shown.replace(", where", " where")
    clauses = [re.sub(" +", " ", line) for line in re.findall(r"^  (line \d+: .*)$", shown, re.M)]
    lines = {re.sub(" +", " ", line) for line in found.text.replace(", where", " where").splitlines()}
    p.same("widths, a board of 2,984 lines: every clause whole", (658, []), (len(clauses), [c for c in clauses if c not in lines][:3]))
    p.expect("widths, a board of 2,984 lines: small drawings", found.drawings and all(width <= 420 and height <= 240 for width, height in found.drawings), found.drawings)
