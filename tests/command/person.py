"""A person at a terminal: runs commands in a folder of their own, and counts what came out as it should."""

import os
import pathlib
import shutil
import subprocess
import tempfile

TREE = pathlib.Path(__file__).resolve().parents[2]
PROGRAM = TREE / "command/target/release/rulefile"


class Person:
    """Counts, and a folder with the examples in it."""

    def __init__(self):
        self.passed = self.failed = 0
        self.folder = None
        self.renew()

    def renew(self):
        """Another folder, with the examples as they are stored."""
        self.leave()
        self.folder = pathlib.Path(tempfile.mkdtemp(prefix="rulefile-"))
        shutil.copytree(TREE / "examples", self.folder / "examples")
        (self.folder / "bin").mkdir()
        for name in ("rulefile", "rules"):
            (self.folder / "bin" / name).symlink_to(TREE / "bin" / name)

    def leave(self):
        if self.folder is not None:
            shutil.rmtree(self.folder, ignore_errors=True)

    def expect(self, name, holds, why=""):
        """Counts one test."""
        if holds:
            self.passed += 1
        else:
            self.failed += 1
            print(f"command: {name}: {why}")

    def same(self, name, expected, found):
        self.expect(name, expected == found, f"expected {expected!r}, found {found!r}")

    def file(self, name, content):
        """A file in the folder."""
        path = self.folder / name
        path.write_bytes(content if isinstance(content, bytes) else content.encode())
        return path

    def call(self, *words, stdin=subprocess.DEVNULL, **more):
        """The command with these words: status, standard output, standard error."""
        done = subprocess.run(
            [str(PROGRAM), *map(str, words)],
            cwd=self.folder,
            stdin=stdin if not isinstance(stdin, bytes) else None,
            input=stdin if isinstance(stdin, bytes) else None,
            stdout=more.pop("stdout", subprocess.PIPE),
            stderr=subprocess.PIPE,
            timeout=60,
            **more,
        )
        return done.returncode, (done.stdout or b"").decode(), done.stderr.decode()

    def gives(self, name, words, status, out=None, said=None, **more):
        """Whether a call ends with a status, prints what it should and says words that it should."""
        given, found, error = self.call(*words, **more)
        self.same(f"{name}: status", status, given)
        if out is not None:
            self.same(f"{name}: output", out, found)
        if said is None:
            self.same(f"{name}: standard error", "", error)
        else:
            self.expect(f"{name}: standard error", said in error and bool(said), f"no {said!r} in {error!r}")
        return found

    def shell(self, line):
        """A line of shell, with what it prints and says in one text."""
        done = subprocess.run(
            ["sh", "-c", line],
            cwd=self.folder,
            stdin=subprocess.DEVNULL,
            stdout=subprocess.PIPE,
            stderr=subprocess.STDOUT,
            timeout=120,
            env={**os.environ, "COLUMNS": "100"},
        )
        return done.returncode, done.stdout.decode()
