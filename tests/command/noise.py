"""Files with a fault that nobody planned: whatever they hold, every command ends with a status of its own, and all agree on the verdict."""

import random
import re

FILES = 120


def damaged(chance, lines):
    """The lines with one of them gone, doubled, moved or changed in a number, or a byte changed."""
    lines = list(lines)
    place, other = chance.randrange(len(lines)), chance.randrange(len(lines))
    deed = chance.randrange(8)
    if deed == 0:
        del lines[place]
    elif deed == 1:
        lines.insert(place, lines[place])
    elif deed == 2:
        lines.insert(other, lines.pop(place))
    elif deed == 3:
        at = chance.randrange(len(lines[place]))
        lines[place] = lines[place][:at] + bytes([chance.randrange(256)]) + lines[place][at + 1 :]
    else:
        numbers = list(re.finditer(rb"\d+", lines[place]))
        number = chance.choice(numbers)
        lines[place] = lines[place][: number.start()] + b"%d" % chance.randrange(16) + lines[place][number.end() :]
    return lines


def run(p):
    chance = random.Random(22)
    examples = sorted((p.folder / "examples").glob("**/*.rules"))
    found = set()
    for place in range(FILES):
        example = chance.choice(examples)
        lines = example.read_bytes().splitlines(True)
        for _ in range(place % 3):
            lines = damaged(chance, lines)
        file = p.file("noise.rules", b"".join(lines))
        number = agree(p, f"noise {place}", file)
        found.add(number)
        told(p, f"noise {place}", number, file)
        compared(p, f"noise {place}", number, example, file)
    p.expect("noise: verdicts of many kinds", "0" in found and len(found) > 6, found)


def told(p, name, number, path):
    """Every fault is told apart: a line, a clause or a field by what is wrong, an overlap by two clauses, a gap by a setting."""
    out, letter = p.call("check", path)[1], p.call("letter", path)
    p.same(f"{name}: letter", number != "0", letter[0] == 1 and "\n\nWe ask " in letter[1])
    if number in ("3", "4", "5", "6", "7", "8", "9", "10"):
        p.same(f"{name}: look here", 1, out.count("\n  look here: "))
    p.same(f"{name}: two clauses", 2 if number in ("11", "12") else 0, out.count("\n  clause of line "))


def compared(p, name, number, example, path):
    """Compared with what it was: the same only where it is accepted, and then every conversion has the same list and the same steps."""
    status, out, _ = p.call("compare", example, path)
    p.expect(f"{name}: compared", status == (0 if out.startswith("same\n") else 1), out)
    if number != "0" or p.call("check", example)[0] != 0:
        p.same(f"{name}: compared, and refused", 1, status)
    elif status == 0:
        isos = example.read_bytes().count(b"\nI,")
        lists = lambda file: [[p.call(command, file, iso)[1] for command in ("export", "bounds")] for iso in range(isos + 1)]
        p.same(f"{name}: the same lists and bounds", lists(example), lists(path))


def agree(p, name, path):
    """The commands on one file; gives the number of its verdict."""
    status, out, _ = p.call("check", path)
    verdict = out.split("\n")[0]
    p.expect(name, status == (verdict != "0,0"), path.read_bytes())
    shown = p.call("show", path)
    p.same(f"{name}: shown", (status, verdict), (shown[0], shown[1].split("\n")[0]))
    page = p.call("show", "--html", path)
    p.same(f"{name}: page", (status, True), (page[0], f"<strong>{verdict} – " in page[1]))
    p.same(f"{name}: turned", status, p.call("turn", path)[0])
    witness = p.call("witness", path)
    number, line, letters = witness[1].split("\n")[0].split(",")
    p.same(f"{name}: witness", (status, verdict), (witness[0], f"{number},{line}"))
    p.same(f"{name}: a setting", number in ("11", "12", "13", "14"), letters != "")
    return number
