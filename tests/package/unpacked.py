"""What the programs of the packages do, without the kit and without cargo; every command that the documents show."""

import pathlib
import re
import shutil
import subprocess
import sys

from contents import TAR
from counter import BARE, TREE, VERSION

sys.path.append(str(TREE / "tests/command"))
import documents  # noqa: E402

ACCEPTED = "0,0\n"
USAGE = "usage: rules < FILE\n"


def run(p, places):
    for program in ("rt", "cargo"):
        p.same(f"{program} is not there", None, shutil.which(program, path=BARE["PATH"]))
    top, usr = places
    for name, place, beside in (("tar", top, top), ("deb", usr, usr / "share/doc/rulefile")):
        examples = beside / "examples"
        out = p.gives(f"{name}: check", [place / "bin/rulefile", "check", examples / "heating-curve.rules"], 0, env=BARE)
        p.expect(f"{name}: check: accepted", out.startswith(ACCEPTED), out)
        out = p.gives(f"{name}: check refused", [place / "bin/rulefile", "check", examples / "merged-setting.rules"], 1, env=BARE)
        p.expect(f"{name}: check refused: numbers", out.startswith("12,9\n"), out)
        p.gives(f"{name}: version", [place / "bin/rulefile", "--version"], 0, f"rulefile {VERSION}\n", "", env=BARE)
        desk(p, name, place, examples)
    # /bin is /usr/bin on many machines
    (usr.parent / "bin").symlink_to("usr/bin")
    desk(p, "deb, by a folder that is a link", usr.parent, usr / "share/doc/rulefile/examples")
    first_lines(p, top)
    shown(p, top)


def desk(p, name, place, examples):
    """The desk program, and how it names itself."""
    given = (examples / "heating-curve.rules").read_bytes() + (examples / "heating-curve.queries").read_bytes()
    p.gives(f"{name}: rules", [place / "bin/rules"], 0, (examples / "heating-curve.out").read_text(), "", env=BARE, stdin=given)
    status, out, said = p.call(place / "bin/rules", "--help", env=BARE)
    p.expect(f"{name}: rules names itself", (status, out) == (2, "") and said.startswith(USAGE) and "bin/" not in said, said)
    status, out, said = p.call("script", "-qec", f"'{place}/bin/rules'", "/dev/null", env=BARE, stdin=b"T,0,0,0\nP,0,0,0\nI,0,0\nC,0,0\n\x04")
    p.expect(f"{name}: rules at a terminal", "(from a file: rules < FILE)" in out and ACCEPTED.strip() in out, out + said)
    status, out, said = p.call(place / "bin/rulefile", "--help", env=BARE)
    p.expect(f"{name}: rulefile names itself", out.startswith("usage: rulefile COMMAND") and "bin/" not in out, out)


def first_lines(p, top):
    """What the README begins with."""
    readme = (top / "README.md").read_text()
    p.same("README begins with", "Unpack, run", re.findall(r"^## (.*)$", readme, re.M)[0])
    lines = re.findall(r"^```sh\n(.*?)^```$", readme, re.M | re.S)[0]
    p.expect("README unpacks", lines.startswith(f"tar xzf {TAR}\n"), lines)
    folder = p.folder / "by the README"
    folder.mkdir()
    shutil.copy(p.folder / "made here" / TAR, folder)
    out = p.gives("README's first lines", ["sh", "-ec", lines], 0, said="", env=BARE, where=folder)
    p.expect("README's first lines: accepted", out.startswith(ACCEPTED), out)


def shown(p, top):
    """Every command of README and examples, in the unpacked folder as it is."""
    count = 0
    for document in ["README.md", *sorted(f"examples/{path.name}" for path in (top / "examples").glob("*.md"))]:
        folder = p.folder / "copy"
        shutil.copytree(top, folder, symlinks=True)
        for line, printed in documents.commands(pathlib.Path(folder / document)):
            done = subprocess.run(
                ["sh", "-c", line], cwd=folder, stdin=subprocess.DEVNULL, stdout=subprocess.PIPE, stderr=subprocess.STDOUT, timeout=120, env=BARE
            )
            p.same(f"{document}, unpacked: {line}", documents.plain(printed), documents.plain(done.stdout.decode()))
            count += 1
        shutil.rmtree(folder)
    p.expect("the documents show commands", count > 20, count)
