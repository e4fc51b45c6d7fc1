"""The manual pages: every command with all that its --help says, every function of the header, and nothing that man warns of."""

import re
import shutil

from counter import BARE, TREE, VERSION

PAGES = {"man1/rulefile.1": "rulefile", "man1/rules.1": "rules", "man3/rulefile.3": "rulefile"}


def words(page):
    """The words of a page, without what roff takes for itself."""
    text = re.sub(r"^\.(TP|IP.*|PP|EX|EE|nh|ad l|br|SH.*)\n", "", page, flags=re.M)
    text = re.sub(r"^\.(BR?|I) ", "", text, flags=re.M)
    for mark, plain in (("\\fB", ""), ("\\fR", ""), ("\\&", ""), ("\\-", "-"), ("\\(aq", "'"), ("\\(ha", "^"), ("\\(ti", "~"), ("\\e", "\\")):
        text = text.replace(mark, plain)
    return " ".join(text.split())


def run(p, places):
    top = places[0]
    found = {name: (top / "share/man" / name).read_text() for name in PAGES}
    commands(p, top, found["man1/rulefile.1"])
    usage = p.call(top / "bin/rules", "--help", env=BARE)[2].split("\n", 1)[1]
    p.expect("rules.1 says what rules says", " ".join(usage.split()) in words(found["man1/rules.1"]), usage)
    functions(p, found["man3/rulefile.3"])
    for name, title in PAGES.items():
        head = found[name].split("\n", 1)[0]
        p.expect(f"{name}: head", re.fullmatch(rf'\.TH {title} {name[-1]} ".*" "rulefile {re.escape(VERSION)}" "Rule files"', head), head)
        p.expect(f"{name}: no part is left out", "@" not in found[name], found[name])
        rendered(p, top / "share/man" / name)


def commands(p, top, page):
    """What a command says of itself stands on the page, word for word."""
    overview = p.call(top / "bin/rulefile", "--help", env=BARE)[1]
    names = re.findall(r"^  ([a-z]+) ", overview, re.M)
    p.expect("there are commands", len(names) >= 14, names)
    known = words(page)
    for name in names:
        said = p.call(top / "bin/rulefile", name, "--help", env=BARE)[1].replace("`", "")
        usage, _, rest = said.partition("\n\n")
        about = " ".join(rest.split("\n\n")[0].split()).removeprefix(f"rulefile {name}: ")
        item = f"{usage.removeprefix('usage: ')} {about[0].upper()}{about[1:]}"
        p.expect(f"rulefile.1 has {name}", item in known, item)
    notes = " ".join(overview.split("\n\n")[-1].replace("`", "").split())
    for note in re.split(r"says more of each\. |Exit status: ", notes)[1:]:
        p.expect("rulefile.1 has the notes", note.strip() in known, note)


def functions(p, page):
    """The header stands on the page: every function with a heading, every line of code, every sentence."""
    header = (TREE / "include/rulefile.h").read_text()
    declared = sorted(set(re.findall(r"^\S.*?\b(rulefile_[a-z_]+)\(", header, re.M)))
    headings = sorted(name for line in re.findall(r"^\.SS (.*)$", page, re.M) for name in line.split(", "))
    p.expect("the header has functions", len(declared) >= 13, declared)
    p.same("rulefile.3 has a heading for each function", declared, headings)
    known = words(page)
    for line in re.findall(r"^(?:    |struct |enum |#define RULEFILE_[A-Z_]+ ).*$", header, re.M):
        p.expect("rulefile.3 has a line of the header", " ".join(line.split()) in known, line)
    comments = [body for body in re.findall(r"^/\*(.*?)\*/", header, re.M | re.S)]
    for comment in comments:
        text = re.sub(r"^ \* ?", "", comment, flags=re.M).replace("`", "")
        for sentence in re.split(r"(?<=\.)\s|\n\s*- |\n\s*\n", text):
            p.expect("rulefile.3 has a sentence of the header", " ".join(sentence.split()) in known, sentence)


def rendered(p, page):
    """Read by man, or by what it uses, where that is there."""
    if shutil.which("groff"):
        p.gives(f"{page.name}: groff warns", ["groff", "-k", "-man", "-ww", "-z", "-Tutf8", page], 0, "", "", env=BARE)
    if shutil.which("mandoc"):
        p.gives(f"{page.name}: mandoc warns", ["mandoc", "-T", "lint", "-W", "error", page], 0, env=BARE)
    if shutil.which("man"):
        out = p.gives(f"{page.name}: man", ["man", "-l", page], 0, said="", env={**BARE, "MANWIDTH": "100", "MANPAGER": "cat"})
        for heading in ("NAME", "SYNOPSIS", "DESCRIPTION", "SEE ALSO"):
            p.expect(f"{page.name}: {heading}", re.search(rf"^{heading}$", out, re.M), out[:500])
