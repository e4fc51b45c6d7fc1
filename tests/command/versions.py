"""One version number, and one source of the words."""

import re

from person import TREE


def run(p):
    version = (TREE / "VERSION").read_text()
    p.expect("VERSION", re.fullmatch(r"\d+\.\d+\.\d+\n", version), version)
    version = version.strip()
    header = (TREE / "include/rulefile.h").read_text()
    p.same("the header's version", [version], re.findall(r'#define RULEFILE_VERSION "(.*)"', header))
    for manifest in sorted(TREE.glob("*/Cargo.toml")) + [TREE / "bindings/rust/Cargo.toml"]:
        found = re.search(r'^version = "(.*)"', manifest.read_text(), re.M).group(1)
        p.same(f"the version of {manifest.relative_to(TREE)}", version, found)
    changes = re.findall(r"^## (\S+)", (TREE / "CHANGELOG.md").read_text(), re.M)
    p.same("the first version of CHANGELOG", version, changes[0] if changes else None)
    words(p, header)


def words(p, header):
    """docs/REFUSALS.md against the header and the Rust crate."""
    rows = re.findall(r"^\| (\d+) \| ([^|]+) \| ([^|]+) \| ([^|]+) \|", (TREE / "docs/REFUSALS.md").read_text(), re.M)
    table = {int(number): word.strip() for number, word, *_ in rows}
    p.same("REFUSALS: the numbers in order", list(range(1, len(rows) + 1)), list(table))
    p.expect("REFUSALS: no row without words", all(happened.strip() and ask.strip() for *_, happened, ask in rows))
    numbers = {int(number) for number in re.findall(r"^    RULEFILE_\w+ = (\d+)", header, re.M)}
    p.same("REFUSALS: the numbers of the header", numbers - {0}, set(table))
    crate = (TREE / "bindings/rust/src/refusal.rs").read_text()
    p.same("REFUSALS: the words of the Rust crate", list(table.values()), re.findall(r'^    \(\w+, "(.*)"\),', crate, re.M))
