"""Every command that a document shows, with what it prints: in blocks marked `console`, a line that begins with `$ ` is a command, and what
follows up to the next one is what it prints and says."""

import re

from person import TREE

# what differs from day to day and from kit to kit
VARIES = [(re.compile(r"^date: \d{4}-\d\d-\d\d$", re.M), "date: DAY"), (re.compile(r"^kit: .+$", re.M), "kit: KIT"), (re.compile(r"^archive: [0-9a-f]{64}$", re.M), "archive: ARCHIVE")]


def plain(text):
    for varies, constant in VARIES:
        text = varies.sub(constant, text)
    return text


def commands(document):
    """The commands of a document, each with what it prints."""
    for block in re.findall(r"^```console\n(.*?)^```$", document.read_text(), re.M | re.S):
        for call in re.split(r"^\$ ", block, flags=re.M)[1:]:
            line, _, printed = call.partition("\n")
            yield line, printed


def held(folder):
    """Every file of a folder with its bytes; folders and links by their names."""
    return {str(path.relative_to(folder)): path.read_bytes() if path.is_file() and not path.is_symlink() else None for path in folder.rglob("*")}


def run(p):
    shown = []
    for document in [TREE / "README.md", *sorted((TREE / "examples").glob("*.md"))]:
        p.renew()
        before = held(p.folder)
        for line, printed in commands(document):
            shown.append(line)
            found = p.shell(line)[1]
            p.same(f"{document.relative_to(TREE)}: {line}", plain(printed), plain(found))
        # no file is left behind, and none that is stored is changed
        after = held(p.folder)
        p.same(f"{document.relative_to(TREE)}: what is left or changed", [], sorted(name for name in before.keys() | after.keys() if before.get(name, 0) != after.get(name, 0)))
    for command in ("check", "verdict", "verify", "letter", "compare", "show", "turn", "run", "sheet", "number", "setting", "export", "import", "play"):
        known = any(f"bin/rulefile {command} " in line for line in shown)
        p.expect(f"{command} is shown in a document", known, "no document shows it")
