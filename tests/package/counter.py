"""Counts what came out as it should, in a folder of its own."""

import os
import pathlib
import shutil
import subprocess
import tempfile

TREE = pathlib.Path(__file__).resolve().parents[2]
VERSION = (TREE / "VERSION").read_text().strip()

# what a machine has without the kit and without cargo
BARE = {"PATH": "/usr/bin:/bin", "LANG": "C.UTF-8", "COLUMNS": "100"}


class Counter:
    def __init__(self):
        self.passed = self.failed = 0
        self.folder = pathlib.Path(tempfile.mkdtemp(prefix="package-"))

    def leave(self):
        shutil.rmtree(self.folder, ignore_errors=True)

    def expect(self, name, holds, why=""):
        """Counts one test."""
        if holds:
            self.passed += 1
        else:
            self.failed += 1
            print(f"package: {name}: {why}")

    def same(self, name, expected, found):
        self.expect(name, expected == found, f"expected {expected!r}, found {found!r}")

    def call(self, *words, env=None, where=None, stdin=b""):
        """A program: status, standard output, standard error."""
        done = subprocess.run(
            [str(word) for word in words], cwd=where or self.folder, input=stdin, capture_output=True, timeout=600, env=env or os.environ
        )
        return done.returncode, done.stdout.decode(), done.stderr.decode()

    def gives(self, name, words, status, out=None, said=None, **more):
        """Whether a call ends with a status, prints what it should and says what it should."""
        given, found, error = self.call(*words, **more)
        self.expect(f"{name}: status", status == given, f"expected {status}, found {given}: {found}{error}")
        if out is not None:
            self.same(f"{name}: output", out, found)
        if said is not None:
            self.same(f"{name}: standard error", said, error)
        return found

    def needs(self, program, package):
        """A Debian package, fetched where it is missing."""
        there = shutil.which(program) or subprocess.run(["sh", "-c", f"apt-get update && apt-get install -y {package}"], capture_output=True).returncode == 0
        self.expect(f"{program} is there", there, f"{package} cannot be installed")
