"""Verdicts that last: what judged, by the command's own hash and calendar; `verify`; verdicts behind one another; many files in one call."""

import datetime
import hashlib
import os
import re
import subprocess

from person import TREE

H = "examples/heating-curve.rules"
M = "examples/merged-setting.rules"
ARCHIVE = TREE / "crates/rulefile/out/librulefile.a"


def run(p):
    vectors(p)
    hashes(p)
    judges(p)
    own(p)
    good(p)
    changed(p)
    behind(p)
    no_verdicts(p)
    many(p)


def vectors(p):
    """The tests of the command's own parts, in Rust."""
    path = os.environ["PATH"] + ":" + os.environ.get("CARGO_HOME", os.environ.get("HOME", "/root") + "/.cargo") + "/bin:/root/.cargo/bin"
    call = ["cargo", "test", "--quiet", "--release", "--offline", "--manifest-path", str(TREE / "command/Cargo.toml"), "--test", "vectors"]
    done = subprocess.run(call, capture_output=True, text=True, env={**os.environ, "PATH": path}, timeout=600)
    count = re.search(r"test result: ok\. (\d+) passed; 0 failed; 0 ignored", done.stdout)
    p.expect("SHA-256 and calendar: status", done.returncode == 0, done.stdout + done.stderr)
    p.expect("SHA-256 and calendar: tests", count and int(count.group(1)) >= 4, done.stdout)


def fields(path):
    """The verdicts of a file of verdicts, each by its labels."""
    return [dict(line.split(": ", 1) for line in record.splitlines()) for record in path.read_text().split("\n\n")]


def hashes(p):
    """Of files of every length around a block, and over the ceiling: what sha256sum says."""
    lengths = [*range(0, 131), 1000, 4095, 65535, 65536, 65537, 65599, 131072, 1000003]
    folder = p.folder / "lengths"
    folder.mkdir()
    for length in lengths:
        (folder / f"{length:07}.rules").write_bytes(bytes((place * place + length) % 251 for place in range(length)))
    names = sorted(path.name for path in folder.glob("*.rules"))
    status, out, _ = p.call("verdict", *(f"lengths/{name}" for name in names))
    p.same("hashes: status", 1, status)
    p.expect("hashes: all judged", f"{len(names)} files: 1 accepted, {len(names) - 1} refused, 0 not judged\n" in out, out[-300:])
    done = subprocess.run(["sha256sum", *names], cwd=folder, capture_output=True, text=True)
    expected = {line.split("  ")[1]: line.split("  ")[0] for line in done.stdout.splitlines()}
    found = {name: fields(folder / f"{name}.verdict")[0]["SHA-256"] for name in names}
    p.same("hashes: as sha256sum has them", expected, found)
    p.same("hashes: of every length", len(lengths), len(set(found.values())))
    p.same("hashes: bytes", [str(length) for length in lengths], [fields(folder / f"{name}.verdict")[0]["bytes"] for name in names])


def judges(p):
    """What judged: the version, the archive that is linked, the kit."""
    file = p.file("judged.rules", (p.folder / H).read_bytes())
    p.gives("what judged", ["verdict", file], 0)
    [verdict] = fields(p.folder / "judged.rules.verdict")
    version = (TREE / "VERSION").read_text().strip()
    p.same("what judged: the library", version, verdict["library"])
    p.same("what judged: the archive", hashlib.sha256(ARCHIVE.read_bytes()).hexdigest(), verdict["archive"])
    p.expect("what judged: the kit", verdict["kit"] not in ("", "unknown"), verdict["kit"])


def own(p):
    """The hash and the day are the command's own, whatever stands first on PATH."""
    tools = p.folder / "tools"
    tools.mkdir()
    for name in ("sha256sum", "date", "rt", "sh"):
        (tools / name).write_text(f"#!/bin/sh\ntouch {p.folder}/called\necho {'0' * 64}\n")
        (tools / name).chmod(0o755)
    file = p.file("own.rules", (p.folder / H).read_bytes())
    before = datetime.datetime.now(datetime.timezone.utc).date()
    p.gives("with other tools on PATH", ["verdict", file], 0, env={"PATH": str(tools)})
    after = datetime.datetime.now(datetime.timezone.utc).date()
    [verdict] = fields(p.folder / "own.rules.verdict")
    p.same("with other tools on PATH: SHA-256", hashlib.sha256(file.read_bytes()).hexdigest(), verdict["SHA-256"])
    p.expect("with other tools on PATH: today", verdict["date"] in (str(before), str(after)), verdict["date"])
    p.expect("with other tools on PATH: none is called", not (p.folder / "called").exists())
    other = p.file("other.rules", (p.folder / H).read_bytes())
    p.gives("without any tool", ["verdict", other], 0, env={"TZ": "Pacific/Kiritimati"})
    [verdict] = fields(p.folder / "other.rules.verdict")
    p.expect("in another time zone: the day of UTC", verdict["date"] in (str(after), str(datetime.datetime.now(datetime.timezone.utc).date())), verdict["date"])


def good(p):
    """The same bytes, the same verdict: by the same library, by another one, under another name."""
    bytes_ = (p.folder / H).read_bytes()
    sha = hashlib.sha256(bytes_).hexdigest()
    p.file("kept.rules", bytes_)
    place = p.folder / "kept.rules.verdict"
    p.gives("verify: a verdict first", ["verdict", "kept.rules"], 0)
    [now] = fields(place)
    out = p.gives("verify", ["verify", "kept.rules"], 0)
    head = f"good\nkept.rules is the file that was judged, and it is judged the same.\n  bytes: the same, SHA-256 {sha}\n  verdict: 0,0, accepted, then and now\n"
    p.expect("verify: words", out.startswith(head) and out.endswith("  judged now: by the same\n"), out)
    joined = " ".join(out.split())
    p.expect("verify: by what", f"judged then: on {now['date']} by library {now['library']}, archive {now['archive']}, kit {now['kit']}" in joined, out)
    text = place.read_text()
    # an upgrade alone changes nothing
    place.write_text(re.sub("library: .*\narchive: .*\n", "library: 0.2.0\n", text).replace(now["date"], "2025-01-31"))
    before = place.read_bytes()
    out = p.gives("verify after an upgrade", ["verify", "kept.rules"], 0)
    joined = " ".join(out.split())
    p.expect("verify after an upgrade: good", out.startswith(head), out)
    p.expect("verify after an upgrade: then", f"judged then: on 2025-01-31 by library 0.2.0, archive unknown, kit {now['kit']} " in joined, out)
    p.expect("verify after an upgrade: now", f"judged now: by library {now['library']}, archive {now['archive']}, kit {now['kit']}" in joined, out)
    p.same("verify writes nothing", before, place.read_bytes())
    # both renamed together
    place.write_text(text)
    (p.folder / "kept.rules").rename(p.folder / "renamed.rules")
    place.rename(p.folder / "renamed.rules.verdict")
    out = p.gives("verify, both renamed", ["verify", "renamed.rules"], 0)
    p.expect("verify, both renamed: good", out.startswith("good\n") and "  name: it was called kept.rules when it was judged\n" in out, out)
    p.gives("verdict, both renamed", ["verdict", "renamed.rules"], 0, "0,0\naccepted: the verdict is filed already in renamed.rules.verdict\n")
    p.same("verdict, both renamed: kept", text, (p.folder / "renamed.rules.verdict").read_text())
    # a refused file that is still the same is good too
    p.file("refused.rules", (p.folder / M).read_bytes())
    p.gives("verify of a refused file: a verdict first", ["verdict", "refused.rules"], 1)
    out = p.gives("verify of a refused file", ["verify", "refused.rules"], 0)
    p.expect("verify of a refused file: words", "  verdict: 12,9, overlap right, then and now\n" in out, out)


def changed(p):
    """Another file, another verdict, or both."""
    bytes_ = (p.folder / H).read_bytes()
    file = p.file("changing.rules", bytes_)
    place = p.folder / "changing.rules.verdict"
    p.gives("changed: a verdict first", ["verdict", "changing.rules"], 0)
    text = place.read_text()
    file.write_bytes(bytes_.replace(b"\n", b"\r\n", 1))
    out = p.gives("other bytes", ["verify", "changing.rules"], 1)
    p.expect("other bytes: words", out.startswith("changed\nchanging.rules is not the file that was judged; the verdict on it is the same.\n"), out)
    both = (hashlib.sha256(bytes_).hexdigest(), hashlib.sha256(file.read_bytes()).hexdigest())
    p.expect("other bytes: both hashes", all(sha in out for sha in both), out)
    p.expect("other bytes: what to do", "what to do: ask who changed it" in out, out)
    file.write_bytes(bytes_[:-10])
    out = p.gives("other bytes and another verdict", ["verify", "changing.rules"], 1)
    p.expect("other bytes and another verdict: words", "is not the file that was judged, and it is judged otherwise.\n" in out, out)
    p.expect("other bytes and another verdict: both", "  verdict: 0,0, accepted, then; 8,30, variable, now\n" in out, out)
    # the same bytes, judged otherwise: by an earlier library, or by hand
    file.write_bytes(bytes_)
    other = text.replace("verdict: 0,0\nnumber: 0\nline: 0\nword: accepted", "verdict: 7,24\nnumber: 7\nline: 24\nword: ceiling")
    place.write_text(re.sub("archive: .*\n", "", other))
    out = p.gives("another verdict", ["verify", "changing.rules"], 1)
    p.expect("another verdict: words", "is the file that was judged, and it is judged otherwise now.\n" in out, out)
    p.expect("another verdict: both", "  verdict: 7,24, ceiling, then; 0,0, accepted, now\n" in out and "CHANGELOG.md says which files" in out, out)
    place.write_text(other)
    out = p.gives("an altered verdict", ["verify", "changing.rules"], 1)
    p.expect("an altered verdict: words", "the verdict that is filed was altered" in " ".join(out.split()), out)


def behind(p):
    """A later verdict stands behind the earlier ones; nothing is destroyed."""
    bytes_ = (p.folder / H).read_bytes()
    file = p.file("again.rules", bytes_)
    place = p.folder / "again.rules.verdict"
    p.gives("the first verdict", ["verdict", "again.rules"], 0)
    first = place.read_text()
    file.write_bytes(bytes_[:-10])
    out = p.gives("the second verdict", ["verdict", "again.rules"], 1)
    day = fields(place)[0]["date"]
    expected = f"8,30\nvariable: the verdict is filed in again.rules.verdict, behind 1 earlier verdict\n  what is new: the file has changed since the verdict of {day}, which was 0,0\n"
    p.same("the second verdict: output", expected, out)
    second = place.read_text()
    p.expect("the second verdict: behind the first", second.startswith(first + "\nfile: again.rules\nverdict: 8,30\n"), second)
    p.gives("the second verdict again", ["verdict", "again.rules"], 1, "8,30\nvariable: the verdict is filed already in again.rules.verdict\n")
    p.same("the second verdict again: nothing written", second, place.read_text())
    p.expect("verify goes by the last", p.call("verify", "again.rules")[0] == 0)
    file.write_bytes(bytes_)
    out = p.gives("the first file put back", ["verify", "again.rules"], 1)
    p.expect("the first file put back: words", f"these bytes are those of an earlier verdict, of {day}: was an old file put back?" in " ".join(out.split()), out)
    out = p.gives("the third verdict", ["verdict", "again.rules"], 0)
    p.expect("the third verdict: output", "filed in again.rules.verdict, behind 2 earlier verdicts\n" in out, out)
    p.expect("the third verdict: behind the others", place.read_text().startswith(second + "\nfile: again.rules\nverdict: 0,0\n"))
    p.same("three verdicts", ["0,0", "8,30", "0,0"], [record["verdict"] for record in fields(place)])
    # an upgrade: the same bytes judged the same by another library
    place.write_text(first.replace("archive: ", "archive: 0"))
    before = place.read_text()
    out = p.gives("a verdict after an upgrade", ["verdict", "again.rules"], 0)
    p.expect("a verdict after an upgrade: behind", place.read_text().startswith(before + "\nfile: ") and "behind 1 earlier verdict\n  what is new: the same bytes were judged 0,0 on " in out, out)
    # one that an editor saved with other endings, and without blanks at the ends of lines
    p.file("blank.rules", "T,0,0,0\n\n")
    p.gives("a verdict on an empty line", ["verdict", "blank.rules"], 1)
    edited = p.folder / "blank.rules.verdict"
    p.expect("a verdict on an empty line: shown as nothing", "\nline 2: \n" in edited.read_text(), edited.read_text())
    edited.write_bytes(edited.read_bytes().replace(b" \n", b"\n").replace(b"\n", b"\r\n"))
    p.expect("a verdict that an editor saved", p.call("verify", "blank.rules")[1].startswith("good\n"))
    p.expect("a verdict that an editor saved: filed already", "is filed already" in p.call("verdict", "blank.rules")[1])
    # one whose last line feed an editor took away
    place.write_text(before.rstrip("\n"))
    p.gives("a verdict without its last line feed", ["verdict", "again.rules"], 0)
    p.same("a verdict without its last line feed: two verdicts", 2, len(fields(place)))
    p.gives("no --force", ["verdict", "again.rules", "--force"], 2, "", said="there is no option --force")
    # no room: what was there stays
    file.write_bytes(bytes_[:-10])
    before = place.read_bytes()
    size = -(-len(before) // 512)
    program = p.folder / "bin/rulefile"
    status, text = p.shell(f"trap '' XFSZ; ulimit -f {size}; {program.resolve().parents[1]}/command/target/release/rulefile verdict again.rules")
    p.expect("no room for a verdict", status == 2 and "cannot write again.rules.verdict" in text, text)
    p.same("no room for a verdict: kept", before, place.read_bytes())


def no_verdicts(p):
    """What is no verdict is kept, and is no reason to say that a file is good."""
    file = p.file("bare.rules", (p.folder / H).read_bytes())
    place = p.folder / "bare.rules.verdict"
    p.gives("verify without a verdict", ["verify", "bare.rules"], 2, "", said="there is no verdict bare.rules.verdict; `rulefile verdict bare.rules` files one")
    for name, content in (("a letter", b"Dear all,\nthe file is good.\n"), ("no text", b"\xff\x00\n"), ("nothing", b""), ("half a verdict", b"file: bare.rules\nverdict: 0,0\n")):
        place.write_bytes(content)
        for command in ("verify", "verdict"):
            p.gives(f"{command}, {name}", [command, "bare.rules"], 2, "", said="bare.rules.verdict is there and is no verdict; it is kept")
        p.same(f"{name}: kept", content, place.read_bytes())
    place.unlink()
    place.mkdir()
    p.gives("a folder as a verdict", ["verify", "bare.rules"], 2, "", said="bare.rules.verdict is a folder, not a verdict")
    p.gives("verify of standard input", ["verify", "-"], 2, "", said="standard input is not a file beside which")
    p.same("the file is kept", (p.folder / H).read_bytes(), file.read_bytes())


def many(p):
    """Many files: each for itself, and a table at the end."""
    p.file("one.rules", (p.folder / H).read_bytes())
    p.file("two.rules", (p.folder / M).read_bytes())
    alone = [p.call("check", name)[1] for name in ("one.rules", "two.rules")]
    rows = "  verdict  word           file\n  0,0      accepted       one.rules\n  12,9     overlap right  two.rules\n"
    p.gives("check of two files", ["check", "one.rules", "two.rules"], 1, f"{alone[0]}\n{alone[1]}\n2 files: 1 accepted, 1 refused, 0 not judged\n{rows}")
    out = p.gives("check of two accepted files", ["check", "one.rules", "one.rules"], 0)
    p.expect("check of two accepted files: table", "2 files: 2 accepted, 0 refused, 0 not judged\n" in out, out)
    out = p.gives("check of a missing file among others", ["check", "one.rules", "missing", "two.rules"], 2, said="there is no file missing")
    p.expect("check of a missing file among others: table", "3 files: 1 accepted, 1 refused, 1 not judged\n" in out and "  –        –              missing\n" in out, out)
    p.gives("check of a missing file among others: words", ["check", "one.rules", "missing"], 2, said="1 of 2 files are not judged")
    p.gives("check of standard input twice", ["check", "-", "-"], 2, "", said="standard input can be read only once")
    out = p.gives("check of standard input among others", ["check", "one.rules", "-"], 0, stdin=(p.folder / H).read_bytes())
    p.expect("check of standard input among others: table", "  0,0      accepted  standard input\n" in out, out)
    out = p.gives("verdicts on two files", ["verdict", "one.rules", "two.rules"], 1)
    p.expect("verdicts on two files: table", out.endswith(f"\n\n2 files: 1 accepted, 1 refused, 0 not judged\n{rows}"), out)
    p.same("verdicts on two files: filed", ["0,0", "12,9"], [fields(p.folder / f"{name}.rules.verdict")[0]["verdict"] for name in ("one", "two")])
    p.expect("verify of two files", p.call("verify", "one.rules", "two.rules")[0] == 0)
    p.file("two.rules", (p.folder / H).read_bytes())
    out = p.gives("verify of one that changed", ["verify", "one.rules", "two.rules"], 1)
    table = "2 files: 1 good, 1 changed, 0 not judged\n  answer   then  now  file\n  good     0,0   0,0  one.rules\n  changed  12,9  0,0  two.rules\n"
    p.expect("verify of one that changed: table", out.endswith(f"\n\n{table}"), out)
    p.gives("verify of one without a verdict", ["verify", "one.rules", "examples/pump-speed.rules"], 2, said="there is no verdict examples/pump-speed.rules.verdict")
