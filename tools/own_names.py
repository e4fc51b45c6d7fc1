#!/usr/bin/env python3
"""Respells this repository's own definitions, lemmas, fields and constructors in snake case: `sameType` becomes `same_type`, `clash-orth` `clash_orth`.

usage: python3 tools/own_names.py [--check]     at the top of the repository, once, behind /opt/rattle/port/port.py

It goes by text, over specs/, proofs/, src/ and must-fail/ of every crate, and over the names in backquotes of README.md, docs/ and examples/.
Types and modules keep their capitals, names of the kit's libraries, of Rust's items and of what Rattle makes of a function keep their spelling.
Where two names of one file would fall together, the one with a dash ends in `_lem`, as the kit's own lemmas do. --check writes nothing and lists those.
"""
import collections
import glob
import os
import re
import sys

TOKEN = re.compile(r"[^\s(){}\[\].;,@\"«»`]+")
USE = re.compile(r"\buse ([^\s;{]+?)(?:\.\{([^{}]*)\})?(?: as ([^\s;]+))?(?=;|\s*$|\s*--)", re.M)
DECLARED = re.compile(r"^\s*(?:(?:pub|abbrev|unfoldable|data|record|pattern|opaque|module) )*([^\s(){}.;,:]+)(?: [^:=\n]*)?(?: :|$| where)", re.M)
# Constructors and fields that share a type: `left right : Tag`.
SEVERAL = re.compile(r"^\s+(?:pub )?((?:[^\s(){}.;,:=λ→]+ )+)(?:\{[^{}]*\} )*:(?= )", re.M)


def turned(name):
    """The name in snake case, or the name itself where it has no dash and no capital within."""
    if not re.match(r"[a-zà-öø-ÿα-ω]", name) or not re.search(r"[^\s-]-[^\s-]|[a-z0-9][A-Z]", name):
        return name
    words = re.sub(r"(?<=[a-z0-9])[A-Z]", lambda m: "_" + m[0].lower(), name)
    words = re.sub(r"(?<=-)[A-Z](?=[a-z])", lambda m: m[0].lower(), words)
    return words.replace("-", "_")


def is_law(path):
    return bool(re.search(r"/(specs|proofs)/[^/]+\.antt$", path))


def own_module(path, crates):
    """Whether a module path names a file of specs/ or proofs/ of this repository, and not what Rattle makes of a function."""
    steps = path.split(".")
    return len(steps) >= 4 and steps[0] == "Rattle" and steps[1] in crates and steps[2] in ("specs", "proofs") and steps[3][:1].isupper()


class Names:
    def __init__(self, root):
        self.root = root
        self.crates = set(os.listdir(os.path.join(root, "crates")))
        every = lambda pattern: sorted(p for p in glob.glob(os.path.join(root, pattern), recursive=True) if "/out/" not in p)
        self.antt = every("crates/*/specs/*.antt") + every("crates/*/proofs/**/*.antt")
        self.rt = every("crates/*/src/*.rt")
        self.edits = every("crates/*/must-fail/*.edit")
        self.pages = every("*.md") + every("docs/**/*.md") + every("examples/**/*.md")
        self.text = {p: open(p, encoding="utf-8").read() for p in self.antt + self.rt + self.edits + self.pages}
        self.own = set()
        for p in self.antt:
            if is_law(p):
                self.own.update(self.declared(self.text[p]))
        self.special, self.pinned = {}, set()

    def declared(self, text):
        code = re.sub(r"--[^\n]*", "", text)
        several = [n for line in SEVERAL.findall(code) for n in line.split()]
        return {n for n in DECLARED.findall(code) + several if turned(n) != n}

    def brought(self, text):
        """Names that a file brings in from this repository's law files, and from elsewhere."""
        own, other = set(), set()
        for path, items, alias in USE.findall(text):
            names = {part for item in items.split(",") for part in item.split(" as ")[-1:] for part in [part.strip()] if part}
            first = {item.split(" as ")[0].strip() for item in items.split(",") if item.strip()}
            if own_module(path, self.crates):
                own |= names | first
            else:
                other |= names | first | {alias, path.split(".")[-1]}
        return own, other - own

    def new(self, name):
        return self.special.get(name, turned(name))

    def picker(self, path):
        """For a file, the function from a token and what stands before it to the token's new spelling."""
        text = self.text[path]
        own, other = self.brought(text)
        pinned = self.pinned & (own | set(DECLARED.findall(re.sub(r"--[^\n]*", "", text))) if path.endswith(".antt") else set())
        if path.endswith(".antt") and is_law(path):
            here = lambda it: it not in other
            field = lambda it: it in self.own
        elif path.endswith(".antt"):
            here = lambda it: it in own
            field = lambda it: it in self.own
        else:
            here = lambda it: it in self.own and it not in other
            field = here
        def pick(it, dotted):
            if it in self.pinned:
                return self.new(it) if it in pinned and not dotted else it
            return self.new(it) if (field(it) if dotted else here(it)) else it
        return pick

    def code(self, text, pick):
        def one(m):
            it, at = m[0], m.start()
            dotted = at > 0 and text[at - 1] == "." and at > 1 and not text[at - 2].isspace()
            return pick(it, dotted)
        return TOKEN.sub(one, text)

    def pieces(self, path, text):
        """Splits into (kind, text): code, comment, string or path of a use line."""
        mark = "--" if path.endswith(".antt") else "//"
        out, at = [], 0
        found = re.compile(r'"(?:\\.|[^"\\\n])*"' + (r"|(?<![^\s(){};,])--[^\n]*" if mark == "--" else r"|//[^\n]*|b?'(?:\\.|[^'\\\n])'"))
        for m in found.finditer(text):
            out.append(("code", text[at:m.start()]))
            out.append(("comment" if m[0].startswith(mark) else "string", m[0]))
            at = m.end()
        out.append(("code", text[at:]))
        return out

    def quoted(self, text):
        return re.sub(r"`[^`\n]+`", lambda m: TOKEN.sub(lambda t: self.new(t[0]) if t[0] in self.own else t[0], m[0]), text)

    def respelled(self, path, text=None):
        text = self.text[path] if text is None else text
        if path.endswith(".md"):
            return self.quoted(text)
        if path.endswith(".edit"):
            return self.edit(path, text)
        pick = self.picker(path)
        return "".join(self.code(t, pick) if kind == "code" else self.quoted(t) if kind == "comment" else t for kind, t in self.pieces(path, text))

    def edit(self, path, text):
        """An edit's texts, as the file that it changes has them."""
        crate, target, out = os.path.dirname(os.path.dirname(path)), None, []
        for line in text.split("\n"):
            key, _, rest = line.partition(": ")
            if key == "file":
                target = os.path.join(crate, rest.strip())
            if key in ("old", "new") and target in self.text:
                pick = self.picker(target)
                line = key + ": " + "".join(self.code(t, pick) if kind == "code" else self.quoted(t) if kind == "comment" else t for kind, t in self.pieces(target, rest))
            out.append(line)
        return "\n".join(out)

    def parameters(self, path):
        """Names of Rust's that a clause of this file may mean: parameters, fields and labels."""
        return set(re.findall(r"\b([a-z_]\w*)\s*:(?!:)", self.text[path])) | set(re.findall(r"\b(?:ensures|requires|ghost)\*? +(\w+)", self.text[path]))

    def clashes(self):
        """Old names that would fall together with another name of a file, by file."""
        found = collections.defaultdict(set)
        for p in self.antt + self.rt:
            pick = self.picker(p)
            meets = collections.defaultdict(set)
            for kind, t in self.pieces(p, self.text[p]):
                if kind != "code":
                    continue
                for m in TOKEN.finditer(t):
                    at = m.start()
                    dotted = at > 1 and t[at - 1] == "." and not t[at - 2].isspace()
                    if dotted or p.endswith(".rt") and pick(m[0], dotted) == m[0] and m[0] not in self.parameters(p):
                        continue
                    meets[pick(m[0], dotted)].add(m[0])
            for new, olds in meets.items():
                if len(olds) > 1:
                    found[(new, tuple(sorted(olds)))].add(os.path.relpath(p, self.root))
        return found


def main(argv):
    names = Names(".")
    for _ in range(3):
        met = names.clashes()
        for (new, olds), files in met.items():
            lemma = [it for it in olds if "-" in it] or [it for it in olds if it == new]
            for old in lemma[:1]:
                if names.new(old) == new:
                    if argv == ["--check"]:
                        print(f"falls together: {new}: {', '.join(olds)} in {len(files)} files, e.g. {sorted(files)[0]}")
                    names.special[old] = turned(old) + "_lem"
                    if old == new:
                        names.pinned.add(old)
    left = names.clashes()
    for (new, olds), files in left.items():
        print(f"left: {new}: {', '.join(olds)}: {sorted(files)[:3]}")
    if argv == ["--check"]:
        return 0
    changed = 0
    for p in names.antt + names.rt + names.edits + names.pages:
        text = names.respelled(p)
        if text != names.text[p]:
            with open(p, "w", encoding="utf-8") as f:
                f.write(text)
            changed += 1
    print(f"own_names: {changed} files, {len(names.own)} names, {len(names.special)} with _lem")
    return 0


if __name__ == "__main__":
    raise SystemExit(main(sys.argv[1:]))
