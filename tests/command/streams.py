"""What cannot be read or written, and what never ends."""

import os
import re
import subprocess
import threading

from person import PROGRAM

H = "examples/heating-curve.rules"
S = ["check", "show", "turn", "verdict", "verify", "letter"]


def run(p):
    unreadable(p)
    rights(p)
    closed(p)
    endless(p)
    progress(p)
    full(p)
    at_once(p)


def unreadable(p):
    more = {"run": [0, "LU"], "sheet": ["examples/heating-curve.queries"], "number": [0, "U"], "setting": [0, 0], "bounds": [0], "overlap": [0, 0], "export": [0]}
    more |= {"witness": [], "compare": [H], "import": [0, 0, "examples/heating-curve.queries"], "play": ["examples/rollout/fleet.units", "examples/rollout/plan.script"]}
    for command in (*S, *more):
        rest = more.get(command, [])
        p.gives(f"{command} of a missing file", [command, "missing.rules", *rest], 2, "", said="there is no file missing.rules")
        p.gives(f"{command} of a folder", [command, "examples", *rest], 2, "", said="examples is")
    p.gives("turn into a folder", ["turn", H, "-o", "examples"], 2, "", said="examples is a folder")
    p.gives("turn into a folder that is missing", ["turn", H, "-o", "no/such/file"], 2, "", said="there is no file no/such/file")
    p.gives("a name with a line feed", ["check", "a\nb\x1b[2J"], 2, "", said="there is no file a?b?[2J")


def rights(p):
    """Without the right to read or to write; as root, through a user who has none."""
    file = p.file("secret.rules", (p.folder / H).read_bytes())
    file.chmod(0o000)
    kept = p.file("kept.rules", "kept\n")
    kept.chmod(0o444)
    locked = p.folder / "locked"
    locked.mkdir()
    locked.chmod(0o555)
    p.folder.chmod(0o755)
    if os.geteuid() == 0:
        # the program itself must be within reach of the user
        program = p.folder / "rulefile"
        program.write_bytes(PROGRAM.read_bytes())
        program.chmod(0o755)
        who = ["setpriv", "--reuid=65534", "--regid=65534", "--clear-groups"]
    else:
        program, who = PROGRAM, []

    def call(*words):
        done = subprocess.run([*who, program, *words], cwd=p.folder, capture_output=True, text=True, timeout=60)
        return done.returncode, done.stdout, done.stderr

    p.same("no right to read", (2, "", "rulefile: no right to read secret.rules\n"), call("check", "secret.rules"))
    p.same("no right to write", (2, "", "rulefile: no right to write kept.rules\n"), call("turn", H, "-o", "kept.rules", "--force"))
    p.same("no right to write, and no --force", (2, "", "rulefile: kept.rules is there; it is kept. --force writes over it\n"), call("turn", H, "-o", "kept.rules"))
    p.same("no right to write: kept", "kept\n", kept.read_text())
    p.same("no right to the folder", (2, "", "rulefile: no right to write locked/out\n"), call("turn", H, "-o", "locked/out"))
    p.same("no right to the folder: empty", [], list(locked.iterdir()))
    (locked / "in.rules").write_bytes((p.folder / H).read_bytes())
    status, out, said = call("verdict", "locked/in.rules")
    p.same("no right to file the verdict", (2, "", "rulefile: no right to write locked/in.rules.verdict\n"), (status, out, said))
    locked.chmod(0o755)


def closed(p):
    shell = lambda line: p.shell(line.replace("rulefile", str(PROGRAM), 1))
    p.same("standard input closed", (2, "rulefile: standard input is closed\n"), shell("rulefile check - <&-"))
    p.same("standard output closed", (2, "rulefile: standard output is closed\n"), shell(f"rulefile turn {H} >&-"))
    p.same("standard error closed", 1, shell("rulefile run examples/heating-curve.rules 0 x 2>&-")[0])
    p.same("standard error and output closed", 2, shell(f"rulefile turn {H} >&- 2>&-")[0])
    p.same("all three closed", 2, shell("rulefile check - <&- >&- 2>&-")[0])
    p.same("by bin/rulefile", (2, "rulefile: standard input is closed\n"), p.shell("bin/rulefile check - <&-"))
    p.same("by bin/rulefile, output closed", (2, "rulefile: standard output is closed\n"), p.shell(f"bin/rulefile turn {H} >&-"))
    p.same("a folder as standard input", (2, "rulefile: standard input is a folder, not a file\n"), shell("rulefile check - <examples"))
    p.expect("nothing as standard input", shell("rulefile check - </dev/null")[1].startswith("0,0\nstandard input is accepted"))
    status, text = shell(f"rulefile check - <{H}")
    p.expect("a file as standard input", status == 0 and "standard input is accepted" in text, text)
    status, text = p.shell(f"cat {H} | {PROGRAM} check -")
    p.expect("a pipe as standard input", status == 0 and "standard input is accepted" in text, text)
    done = subprocess.run(["script", "-qec", f"{PROGRAM} check -", "/dev/null"], input=b"T,0,0,0\n\x04", capture_output=True, timeout=60)
    p.expect("a terminal", b"Ctrl-D ends it" in done.stdout and b"0,0" in done.stdout, done.stdout)


def progress(p):
    """A command says how far it is once it takes over a second, on standard error alone."""
    p.file("many.queries", b"Q,1,0,9,PRURRLU\n" * 600)
    call = f"{{ cat many.queries; sleep 1.2; cat many.queries; }} | {PROGRAM} sheet {H} - >/dev/null"
    done = subprocess.run(["script", "-qec", call, "/dev/null"], cwd=p.folder, stdin=subprocess.DEVNULL, capture_output=True, timeout=120)
    p.expect("progress on a terminal", b"1200 queries answered" in done.stdout, done.stdout)
    status, text = p.shell(call)
    lines = re.fullmatch(r"(rulefile: sheet, \d+ s(: (600|1200) queries answered)?\n)+", text)
    p.expect("progress elsewhere, in lines", status == 0 and lines and "sheet, 1 s" in text, text)
    tower = "T,0,0,0\nP,0,0,0\nI,0,0\nC,0,0\n" + "".join("I,0,0\nC,0,0\n" + f"L,0,{i},0\n" * 8 for i in range(31))
    file = p.file("tower.rules", tower)
    long = ["run", file, 31, "U", "--budget", 50_000_000]
    status, out, said = p.call(*long)
    p.same("progress: standard output", (1, "17,0,\n"), (status, out))
    told = said.splitlines()
    p.expect("progress: after a second", re.fullmatch(r"rulefile: run, \d+ s: iso 31 takes over 4294967295 steps", told[0]), said)
    p.expect("progress: then what came of it", "rulefile: refused with 17, spent" in told and all(line.startswith("rulefile: ") for line in told), said)
    p.same("progress: no more than needed", len(set(told)), len(told))
    words = " ".join(map(str, long))
    p.same("progress, standard error closed", (1, "17,0,\n"), p.shell(f"{PROGRAM} {words} 2>&-"))
    words = " ".join(map(str, [*long[:-1], 100_000_000]))
    done = subprocess.run(["script", "-qec", f"{PROGRAM} {words} >long.out", "/dev/null"], cwd=p.folder, stdin=subprocess.DEVNULL, capture_output=True, timeout=120)
    p.same("progress on a terminal: standard output", "17,0,\n", (p.folder / "long.out").read_text())
    p.expect("progress on a terminal: the line is written anew", len(re.findall(rb"\rrulefile: run, \d+ s: iso 31 takes over 4294967295 steps\x1b\[K", done.stdout)) > 1, done.stdout)
    p.expect("progress on a terminal: room for other words", b"\r\x1b[Krulefile: refused with 17, spent\r\n" in done.stdout, done.stdout)


def taken(p, words):
    """4 GB of zeros on standard input: the status, what was printed and said, and how many bytes were taken."""
    call = subprocess.Popen([PROGRAM, *words], cwd=p.folder, stdin=subprocess.PIPE, stdout=subprocess.PIPE, stderr=subprocess.STDOUT)
    zeros, count = bytes(65536), 0
    try:
        while count < 1 << 32:
            count += call.stdin.write(zeros)
            call.stdin.flush()
        call.stdin.close()
    except BrokenPipeError:
        pass
    text = call.stdout.read().decode()
    call.stdout.close()
    return call.wait(60), text, count


def endless(p):
    for command, *rest in (["check"], ["show"], ["turn"], ["witness"], ["run", "0", "LU"], ["number", "0", "U"], ["export", "0"], ["play", "/dev/null", "/dev/null"]):
        status, text, count = taken(p, [command, "-", *rest])
        p.expect(f"{command} of 4 GB of zeros", status == 1 and "2,0" in text, text)
        p.expect(f"{command} of 4 GB of zeros: {count} bytes taken", count < 1 << 20)
        p.expect(f"{command} of zeros without end", p.call(command, "/dev/zero", *rest)[0] == 1)
    status, text, count = taken(p, ["sheet", H, "-"])
    p.expect("4 GB of zeros as queries", status == 2 and "its line 1 has over 65,536 bytes" in text and count < 1 << 20, text)
    p.gives("queries without end", ["sheet", H, "/dev/zero"], 2, said="its line 1 has over 65,536 bytes")
    p.gives("a verdict without end", ["verdict", "/dev/zero"], 2, "", said="is not a file beside which")
    # a fifo whose other end says nothing yet
    os.mkfifo(p.folder / "fifo")
    write = threading.Thread(target=lambda: (p.folder / "fifo").write_bytes((p.folder / H).read_bytes()))
    write.start()
    p.expect("a fifo", p.call("check", "fifo")[0] == 0)
    write.join()


def full(p):
    for words in (["check", H], ["turn", H], ["show", H], ["run", H, 0, "LU"], ["sheet", H, "examples/heating-curve.queries"], ["play", "examples/rollout/boards.rules", "examples/rollout/fleet.units", "examples/rollout/plan.script"], ["--help"]):
        with open("/dev/full", "wb") as device:
            p.gives(f"{words[0]} on a full device", words, 2, said="cannot write to standard output: No space left", stdout=device)
    p.gives("turn into a full device", ["turn", H, "-o", "/dev/full"], 2, "", said="cannot write /dev/full: No space left")
    p.expect("the device is still one", not os.path.isfile("/dev/full"))
    # a file that cannot grow: what was there stays, and nothing is left beside it
    kept = p.file("grown.rules", "kept\n")
    status, text = p.shell(f"trap '' XFSZ; ulimit -f 0; {PROGRAM} turn {H} -o grown.rules --force")
    p.expect("no room for the file", status == 2 and "cannot write grown.rules" in text, text)
    p.same("no room for the file: kept", "kept\n", kept.read_text())
    p.same("no room for the file: nothing left", [], [n.name for n in p.folder.iterdir() if n.name.endswith(".new")])
    # a reader that leaves
    p.same("a reader that leaves", (0, "0,0\n"), p.shell(f"{PROGRAM} show {H} | head -n 1"))


def at_once(p):
    """Several at once, into the same file: each time one of them whole."""
    wanted = p.call("turn", H)[1]
    calls = [subprocess.Popen([PROGRAM, "turn", H, "-o", "shared.rules", "--force"], cwd=p.folder) for _ in range(8)]
    p.same("eight at once: statuses", [0] * 8, [call.wait(60) for call in calls])
    p.same("eight at once: whole", wanted, (p.folder / "shared.rules").read_text())
    # without --force one of them writes it, and the others keep what is there
    calls = [subprocess.Popen([PROGRAM, "turn", H, "-o", "written-once.rules"], cwd=p.folder, stderr=subprocess.PIPE) for _ in range(8)]
    p.same("eight at once, no force: words", [b"", *[b"rulefile: written-once.rules is there; it is kept. --force writes over it\n"] * 7], sorted(call.communicate(timeout=60)[1] for call in calls))
    p.same("eight at once, no force: statuses", [0, *[2] * 7], sorted(call.returncode for call in calls))
    p.same("eight at once, no force: whole", wanted, (p.folder / "written-once.rules").read_text())
    p.same("eight at once, no force: nothing left", [], [n.name for n in p.folder.iterdir() if n.name.endswith(".new")])
    calls = [subprocess.Popen(["bin/rulefile", "check", H], cwd=p.folder, stdout=subprocess.PIPE) for _ in range(2)]
    outs = [call.communicate(timeout=60)[0] for call in calls]
    p.expect("two at once", outs[0] == outs[1] and outs[0].startswith(b"0,0\n"), outs)
    file = p.file("both.rules", (p.folder / H).read_bytes())
    calls = [subprocess.Popen([PROGRAM, "verdict", file], stdout=subprocess.PIPE) for _ in range(4)]
    p.same("four verdicts at once", [0] * 4, [call.wait(60) for call in calls])
    for call in calls:
        call.stdout.close()
    text = (p.folder / "both.rules.verdict").read_text()
    p.same("four verdicts at once: one is filed", (1, 1), (text.count("file: both.rules\n"), text.count("date: ")))
