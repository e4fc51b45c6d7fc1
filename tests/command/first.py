"""The first run of bin/rulefile: a small tree, with an rt and a cargo of its own on the path. It says how far it is; interrupted, it leaves nothing
behind and nothing running."""

import os
import shutil
import signal
import subprocess
import time

from person import TREE

RT = """#!/bin/sh
# stands for the kit's rt: notes its call with the folder, and proves a crate, of which there are two, and the library; of the other it says nothing, as
# of one that it has built before
echo "rt $* in ${PWD##*/}" >>"$NOTES"
mkdir -p out
echo 'note: something else' >&2
echo 'rt: chose --jobs 2 for two' >&2
echo 'logic=proved functions=3' >&2
[ ! -e "$NOTES.touch" ] || touch ../two/source
echo half >out/librulefile.a
wait_here
[ ! -e "$NOTES.fails" ] || { echo 'logic=not-proved'; exit 1; }
echo 'logic=proved functions=1'
echo whole >out/librulefile.a
"""
CARGO = """#!/bin/sh
# stands for cargo: makes a program, where there is none, that says its words
echo "cargo" >>"$NOTES"
mkdir -p "$TREE/command/target/release"
wait_here
program=$TREE/command/target/release/rulefile
[ -e "$program" ] || printf '#!/bin/sh\\necho "program $*"\\n' >"$program"
chmod +x "$program"
"""
# where it is asked to, it waits for a child of its own, until somebody ends both
HANG = 'if [ -e "$NOTES.hangs-%s" ]; then sleep 300 & echo $! >>"$NOTES.running"; wait; fi'


class Tree:
    """The tree, and what was called in it."""

    def __init__(self, p):
        self.p = p
        self.place, self.kit = p.folder / "tree", p.folder / "kit"
        for folder in ("bin", "crates/one", "crates/two", "crates/rulefile", "command/src", "bindings/rust", "docs"):
            (self.place / folder).mkdir(parents=True)
        shutil.copy(TREE / "bin/rulefile", self.place / "bin/rulefile")
        (self.place / "crates.txt").write_text("# what is proved\nrules: one\nrulefile staticlib: one two std\n")
        for name in ("VERSION", "docs/REFUSALS.md", "crates/two/source", "command/src/main.rs", "bindings/rust/lib.rs"):
            (self.place / name).write_text("")
        self.kit.mkdir()
        for name, text in (("rt", RT), ("cargo", CARGO)):
            (self.kit / name).write_text(text.replace("wait_here", HANG % name))
            (self.kit / name).chmod(0o755)
        self.notes = p.folder / "notes"
        self.env = {**os.environ, "PATH": f"{self.kit}:{os.environ['PATH']}", "NOTES": str(self.notes), "TREE": str(self.place)}
        self.forget()

    def forget(self):
        """As it was before the first run."""
        for made in ("target", "crates/rulefile/out", "command/target"):
            shutil.rmtree(self.place / made, ignore_errors=True)
        self.notes.write_text("")
        for mark in ("touch", "fails", "hangs-rt", "hangs-cargo", "running"):
            self.mark(mark).unlink(missing_ok=True)

    def mark(self, name):
        return self.notes.with_name(f"notes.{name}")

    def start(self, ignored=()):
        """A call that ignores these signals from its start, and no other, whatever the tests were started with."""
        words = [str(self.place / "bin/rulefile"), "check", "a file"]
        streams = {"stdin": subprocess.DEVNULL, "stdout": subprocess.PIPE, "stderr": subprocess.PIPE}
        return subprocess.Popen(words, env=self.env, **streams, start_new_session=True, preexec_fn=lambda: handles(ignored))

    def call(self):
        process = self.start()
        out, said = process.communicate(timeout=60)
        return process.returncode, out.decode(), said.decode()

    def calls(self, name):
        return self.notes.read_text().split("\n").count(name)

    def left(self):
        """What is in target/ and in the library's folder."""
        found = [path for made in ("target", "crates/rulefile/out") for path in (self.place / made).rglob("*")]
        return sorted(str(path.relative_to(self.place)) for path in found if not path.is_dir() or path.name.startswith("rulefile"))


def handles(ignored):
    """Sets what this process does at a signal."""
    signal.pthread_sigmask(signal.SIG_SETMASK, ())
    for name in SIGNALS:
        signal.signal(numbered(name), signal.SIG_IGN if name in ignored else signal.SIG_DFL)


def numbered(name):
    return getattr(signal, f"SIG{name}")


SIGNALS = ("INT", "TERM", "HUP")
ANSWER = (0, "program check a file\n")
SAID = "rulefile: building the library, which takes some minutes the first time\nrulefile: 1 of at most 3 crates proved\nrulefile: 2 of at most 3 crates proved\n"
LIBRARY = "crates/rulefile/out/librulefile.a"
RT_CALL = "rt lib in rulefile"


def run(p):
    p.renew()
    tree = Tree(p)
    builds(p, tree)
    fails(p, tree)
    for stage in ("rt", "cargo"):
        for name in SIGNALS:
            for group in (False, True):
                interrupts(p, tree, stage, name, group)
    for name in ("INT", "HUP"):
        goes_on(p, tree, name)
    p.renew()


def builds(p, tree):
    p.same("the first run", (*ANSWER, SAID), tree.call())
    p.same("the first run: what it leaves", [LIBRARY], tree.left())
    p.same("the second run", (*ANSWER, ""), tree.call())
    p.same("both: calls", (1, 1), (tree.calls(RT_CALL), tree.calls("cargo")))
    # a source that changes before, and one that changes while it is proved
    later(tree.place / "crates/two/source")
    tree.mark("touch").write_text("")
    p.same("a source changed", (*ANSWER, SAID), tree.call())
    tree.mark("touch").unlink()
    p.same("a source changed meanwhile", (*ANSWER, SAID), tree.call())
    p.same("a source changed: calls", (3, 3), (tree.calls(RT_CALL), tree.calls("cargo")))
    later(tree.place / "command/src/main.rs")
    p.same("a source of the command changed", (*ANSWER, ""), tree.call())
    p.same("nothing changed", (*ANSWER, ""), tree.call())
    p.same("a source of the command changed: calls", (3, 4), (tree.calls(RT_CALL), tree.calls("cargo")))
    tree.forget()
    both = [tree.start(), tree.start()]
    for process in both:
        out = process.communicate(timeout=60)[0].decode()
        p.same("two first runs at once", ANSWER, (process.returncode, out))
    p.same("two first runs at once: calls", (1, 1), (tree.calls(RT_CALL), tree.calls("cargo")))


def later(path):
    """Changed now, which is after all that was made before."""
    time.sleep(0.02)
    path.touch()


def fails(p, tree):
    tree.forget()
    tree.mark("fails").write_text("")
    status, out, said = tree.call()
    p.same("what is not proved", (2, ""), (status, out))
    for words in ("rulefile: 1 of at most 3 crates proved\n", "note: something else\n", "logic=not-proved\n", "rulefile: the library is not proved or not built\n"):
        p.expect(f"what is not proved: {words.strip()}", words in said, said)
    p.same("what is not proved: what it leaves", [], tree.left())
    tree.mark("fails").unlink()
    p.same("what is proved then", (*ANSWER, SAID), tree.call())
    # a library that stood before is kept where rt has not touched it
    library = tree.place / LIBRARY
    later(tree.place / "crates/two/source")
    (tree.kit / "rt").rename(tree.kit / "rt.away")
    (tree.kit / "rt").write_text("#!/bin/sh\necho 'rt: bad crates.txt'\nexit 2\n")
    (tree.kit / "rt").chmod(0o755)
    status, out, said = tree.call()
    p.expect("rt fails at once", (status, out) == (2, "") and "rt: bad crates.txt\n" in said, said)
    p.same("rt fails at once: the library", "whole\n", library.read_text())
    (tree.kit / "rt.away").replace(tree.kit / "rt")


def gone(process):
    """Whether a process has ended, by its number; one that nobody has waited for has."""
    try:
        with open(f"/proc/{process}/stat") as file:
            return file.read().rsplit(")", 1)[1].split()[0] == "Z"
    except FileNotFoundError:
        return True


def until(holds):
    end = time.monotonic() + 20
    while not holds() and time.monotonic() < end:
        time.sleep(0.02)
    return holds()


def hung(p, tree, stage, label, ignored=()):
    """A first run that waits in a stage, and the file that names what it waits for."""
    tree.forget()
    tree.mark(f"hangs-{stage}").write_text("")
    process = tree.start(ignored)
    running = tree.mark("running")
    p.expect(f"{label}: it has begun", until(lambda: running.exists() and running.read_text().endswith("\n")))
    return process, running


def goes_on(p, tree, name):
    """Started as nohup or a script's background starts it: the signal that is ignored changes nothing."""
    label = f"{name} ignored"
    process, running = hung(p, tree, "rt", label, (name,))
    os.kill(process.pid, numbered(name))
    time.sleep(0.3)
    p.same(f"{label}: it goes on", None, process.poll())
    os.kill(int(running.read_text()), signal.SIGTERM)
    out, said = process.communicate(timeout=60)
    p.same(f"{label}: answer", (*ANSWER, SAID), (process.returncode, out.decode(), said.decode()))


def interrupts(p, tree, stage, name, group):
    """A signal to the call alone, or as a terminal sends it, to its group."""
    label = f"{name} {'to all' if group else 'to the call'} during {stage}"
    process, running = hung(p, tree, stage, label)
    number = numbered(name)
    (os.killpg if group else os.kill)(process.pid, number)
    out, said = process.communicate(timeout=60)
    p.same(f"{label}: status", (-number, b""), (process.returncode, out))
    p.expect(f"{label}: words", said.decode().endswith("rulefile: interrupted, and not built\n"), said)
    p.expect(f"{label}: nothing runs on", until(lambda: gone(int(running.read_text()))), running.read_text())
    # what rt had ended stays, what it had begun does not
    p.same(f"{label}: what it leaves", [] if stage == "rt" else [LIBRARY], tree.left())
    p.expect(f"{label}: no program", not (tree.place / "command/target/release/rulefile").exists())
    tree.mark(f"hangs-{stage}").unlink()
    p.same(f"{label}: the next run", (*ANSWER, SAID if stage == "rt" else ""), tree.call())
