"""The receipt: what it says of a state that the gate has seen, of one that it has not, and without a record; what bin/test leaves for it."""

import datetime
import hashlib
import os
import re
import shutil

from counter import BARE, TREE, VERSION

# stands for the kit's rt in a small tree
RT = """#!/bin/sh
case $1 in
version) echo 'a kit' ;;
ci)
    rm -rf crates/*/out
    edits="3 refused$(cat bad 2>/dev/null)"
    printf 'rt: one proved\\nrt: must-fail one/x.edit: refused, as it must be: a fact\\n'
    echo "rt: ok; handles allowed: none; must-fail edits: $edits; every proof and must-fail edit was done in this run"
    echo '5 passed, 0 failed'
    ;;
lib) mkdir -p out && echo archive >out/librulefile.a ;;
esac
"""
NONE = "no whole run of it is on record here: nothing is said of proofs, edits and tests"
HASH = hashlib.sha256(b"archive\n").hexdigest()


def run(p):
    made(p)
    tree, env = small_tree(p)
    gate(p, tree, env)


def made(p):
    """The receipt in the packages names the state of this tree."""
    top = p.folder / f"place/tar/rulefile-{VERSION}"
    receipt = (top / "RECEIPT").read_text()
    p.same("RECEIPT in both", receipt, (p.folder / "place/deb/usr/share/doc/rulefile/RECEIPT").read_text())
    archive = hashlib.sha256((TREE / "crates/rulefile/out/librulefile.a").read_bytes()).hexdigest()
    commit = p.call("git", "rev-parse", "HEAD", where=TREE)[1].strip()
    p.expect("RECEIPT: the version", receipt.startswith(f"rulefile: {VERSION}, for x86-64 Linux\n"), receipt)
    p.expect("RECEIPT: the commit", re.search(rf"^commit: {commit}(, and .* from it)?$", receipt, re.M), receipt)
    p.expect("RECEIPT: the kit", re.search(rf"^kit: {re.escape(p.call('rt', 'version')[1].strip())}$", receipt, re.M), receipt)
    p.expect("RECEIPT: the archive", f"\narchive: SHA-256 {archive}, " in receipt, receipt)
    p.expect("RECEIPT: the gate", re.search(r"^gate: \S", receipt, re.M), receipt)
    for name in ("bin/rulefile", "libexec/rulefile/rules", "lib/librulefile.a", f"lib/librulefile.so.{VERSION}"):
        hashed = hashlib.sha256((top / name).read_bytes()).hexdigest()
        p.expect(f"RECEIPT: {name}", f"\n{name}: SHA-256 {hashed}\n" in receipt, receipt)
    judged(p, top, receipt)


def judged(p, top, receipt):
    """A verdict names the archive and the kit that the receipt names."""
    shutil.copy(top / "examples/heating-curve.rules", p.folder / "judged.rules")
    p.gives("verdict", [top / "bin/rulefile", "verdict", "judged.rules"], 0, env=BARE)
    fields = dict(line.split(": ", 1) for line in (p.folder / "judged.rules.verdict").read_text().splitlines())
    p.expect("RECEIPT: the archive of a verdict", f"\narchive: SHA-256 {fields['archive']}, " in receipt, fields)
    p.expect("RECEIPT: the kit of a verdict", f"\nkit: {fields['kit']}\n" in receipt, fields)


def small_tree(p):
    """A tree of bin/test and what the receipt is made by, with an rt of its own on the path."""
    tree, kit = p.folder / "tree", p.folder / "kit"
    for folder in ("bin", "lib", "tests/one", "crates/rulefile"):
        (tree / folder).mkdir(parents=True)
    for name in ("bin/test", "lib/state", "lib/receipt", "VERSION", ".gitignore"):
        shutil.copy(TREE / name, tree / name)
    test(tree, "echo '7 passed, 0 failed'")
    kit.mkdir()
    (kit / "rt").write_text(RT)
    (kit / "rt").chmod(0o755)
    env = {**os.environ, "PATH": f"{kit}:{os.environ['PATH']}"}
    for who in ("AUTHOR", "COMMITTER"):
        env |= {f"GIT_{who}_NAME": "somebody", f"GIT_{who}_EMAIL": "somebody@example.org"}
    commit(p, tree, env)
    return tree, env


def test(tree, line):
    (tree / "tests/one/run").write_text(f"#!/bin/sh\n{line}\n")
    (tree / "tests/one/run").chmod(0o755)


def commit(p, tree, env):
    p.gives("a commit", ["sh", "-c", "git init -q . && git add . && git commit -q -m state"], 0, env=env, where=tree)
    return p.call("git", "rev-parse", "HEAD", where=tree)[1].strip()


def says(p, name, tree, env, commit, gate, archive=HASH):
    text = f"rulefile: {VERSION}, for x86-64 Linux\ncommit: {commit}\nkit: a kit\n"
    text += f"archive: SHA-256 {archive}, of what that kit has proved and compiled; verdicts name it\ngate: {gate}\n"
    p.gives(name, ["lib/receipt", "target/gate.record"], 0, text, "", env=env, where=tree)


def gate(p, tree, env):
    record = tree / "target/gate.record"
    head = p.call("git", "rev-parse", "HEAD", where=tree)[1].strip()
    says(p, "before any run", tree, env, head, NONE, archive="none")
    out = p.gives("bin/test", ["bin/test"], 0, env=env, where=tree)
    day = datetime.datetime.now(datetime.timezone.utc).date().isoformat()
    p.expect("bin/test: its last line", out.endswith("\n12 passed, 0 failed\n"), out)
    numbers = f"crates proved: 2\nedits refused: 3\ntests passed: 7\npassed: 12\ndate: {day}\n"
    p.same("what bin/test leaves", f"commit: {head}\nchanges: 0\nkit: a kit\narchive: {HASH}\n{numbers}", record.read_text())
    found = f"2 crates proved, 3 edits refused, 7 tests passed; '12 passed, 0 failed' on {day}"
    says(p, "after a run", tree, env, head, found)
    # the same commit with a file changed, and another commit, are other states
    other = f"the last whole run on record is of another state, commit {head}, archive {HASH}: nothing is said of this one"
    test(tree, "echo '6 passed, 1 failed'")
    says(p, "after a change", tree, env, f"{head}, and a file that differs from it", other)
    then = commit(p, tree, env)
    says(p, "another commit", tree, env, then, other)
    (tree / "crates/rulefile/out/librulefile.a").write_text("another\n")
    p.call("git", "checkout", "-q", head, where=tree)
    says(p, "another archive", tree, env, head, other, archive=hashlib.sha256(b"another\n").hexdigest())
    # a run that fails leaves none, nor does one during which the tree changes
    p.call("git", "checkout", "-q", then, where=tree)
    p.gives("bin/test fails", ["bin/test"], 1, env=env, where=tree)
    says(p, "after a run that failed", tree, env, then, NONE)
    # nor does one over edits of which rt ci calls some bad, though it passes
    (tree / "bad").write_text(", 1 of them only by a limit, 2 bad")
    test(tree, "echo '7 passed, 0 failed'")
    then = commit(p, tree, env)
    out = p.gives("bin/test over bad edits", ["bin/test"], 1, env=env, where=tree)
    p.expect("bin/test over bad edits: its last line", out.endswith("\n12 passed, 2 failed\n"), out)
    says(p, "after a run over bad edits", tree, env, then, NONE)
    (tree / "bad").unlink()
    test(tree, "echo more >>VERSION.note; echo '7 passed, 0 failed'")
    then = commit(p, tree, env)
    out = p.gives("bin/test over a tree that changes", ["bin/test"], 0, env=env, where=tree)
    p.expect("bin/test over a tree that changes: words", "\nthe tree has changed since this run began: target/gate.record is not written\n" in out, out)
    says(p, "after a run over a tree that changed", tree, env, f"{then}, and a file that differs from it", NONE)
