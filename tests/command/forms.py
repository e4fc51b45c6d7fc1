"""Refusal 3 told apart."""

H = "examples/heating-curve.rules"


def run(p):
    good = (p.folder / H).read_bytes()
    lines = good.splitlines(True)

    def third(line):
        return b"".join(lines[:2] + [line] + lines[3:])

    cases = [
        ("a byte order mark", b"\xef\xbb\xbf" + good, 1, "byte order mark"),
        ("UTF-16 with a mark", good.decode().encode("utf-16"), 1, "UTF-16"),
        ("UTF-16, little end first", good.decode().encode("utf-16-le"), 1, "UTF-16"),
        ("UTF-16, big end first", good.decode().encode("utf-16-be"), 1, "UTF-16"),
        ("no last line feed", good[:-1], 31, "does not end with a line feed"),
        ("carriage returns alone", good.replace(b"\n", b"\r"), 1, "carriage returns alone"),
        ("a stray carriage return", third(b"T,1\r,0,1\n"), 3, "a carriage return stands at byte 4 of the line"),
        ("two carriage returns", third(b"T,1,0,1\r\r\n"), 3, "a carriage return stands at byte 8 of the line"),
        ("a blank", third(b"T, 1,0,1\n"), 3, "there is a blank at byte 3 of the line"),
        ("a tab", third(b"T,1,0,1\t\n"), 3, "there is a blank at byte 8 of the line"),
        ("semicolons", good.replace(b",", b";"), 1, "semicolon"),
        ("quotation marks", third(b'"T",1,0,1\n'), 3, "quotation mark"),
        ("a sign", third(b"T,+1,0,1\n"), 3, "sign or a point at byte 3"),
        ("a zero byte", third(b"T,1,0,\0\n"), 3, "zero byte at byte 7"),
        ("a byte of no text", third(b"T,1,0,\xc3\xa4\n"), 3, "hexadecimal C3"),
        ("an empty line", third(b"\n"), 3, "the line is empty"),
        ("a query", third(b"Q,0,0,9,LU\n"), 3, "a query stands in the rule file"),
        ("a small letter", third(b"t,1,0,1\n"), 3, "begins with a small t; its letter is T"),
        ("another letter", third(b"X,1,0,1\n"), 3, "none of the letters"),
        ("no comma", third(b"T1,0,1\n"), 3, "a comma is missing behind the letter"),
        ("a number too few", third(b"T,1,0\n"), 3, "3 numbers follow the letter T, here there are 2"),
        ("a number too many", good + b"I,1,1,0\n", 32, "2 numbers follow the letter I, here there are 3"),
        ("a number missing", third(b"T,1,,1\n"), 3, "a number is missing"),
        ("a leading zero", third(b"T,1,00,1\n"), 3, "the number 00 has a leading zero"),
        ("a number too high", third(b"T,65536,0,1\n"), 3, "the number 65536 is over 65535"),
        ("a letter as a number", third(b"T,1,O,1\n"), 3, "O is not a number"),
        ("a long line", third(b"T,1,0,1" + b"1" * 300 + b"\n"), 3, "is over 65535"),
    ]
    for name, content, line, words in cases:
        out = p.gives(name, ["check", p.file("form.rules", content)], 1)
        p.expect(f"{name}: 3 at line {line}", out.startswith(f"3,{line}\n"), out)
        p.expect(f"{name}: {words}", words in out, out)
    out = p.gives("blanks", ["check", p.file("form.rules", third(b"T,  1,0,1\n"))], 1)
    p.expect("blanks: shown as they are", "  line 3: T,  1,0,1\n" in out, out)
    both = good.replace(b"\n", b"\r\n")
    p.expect("carriage returns at the ends of lines", p.call("check", p.file("form.rules", both))[0] == 0)
    out = p.gives("a line that cannot be seen", ["check", p.file("form.rules", third(b"T\x1b[2J\n"))], 1)
    p.expect("a line that cannot be seen: shown safely", "line 3: T\\x1B[2J" in out and "\x1b" not in out, out)
