"""Programs in C and Rust over what the packages put in place."""

import os
import re
import shutil

from counter import BARE, TREE, VERSION


def run(p, places):
    p.needs("pkg-config", "pkgconf")
    readme = (TREE / "README.md").read_text()
    lines = re.findall(r"^- `(cc program\.c \$\(pkg-config --cflags --libs ([a-z-]+)\))`", readme, re.M)
    p.same("README's lines for C", ["rulefile", "rulefile-static"], [library for _, library in lines])
    for name, place in zip(("tar", "deb"), places):
        for line, library in lines:
            in_c(p, f"{name}: {library}", place, line, shared=library == "rulefile")
        in_rust(p, name, place)
    other_versions(p, places[0])


def in_c(p, name, place, line, shared):
    folder = p.folder / name.replace(": ", "-")
    folder.mkdir()
    shutil.copy(TREE / "examples/c/there_and_back.c", folder / "program.c")
    env = {**BARE, "PKG_CONFIG_PATH": str(place / "lib/pkgconfig")}
    p.gives(f"{name}: {line}", ["sh", "-c", line], 0, "", "", env=env, where=folder)
    # no variable says where the library stands
    expected = (TREE / "examples/c/there_and_back.expected").read_text()
    words = [folder / "a.out", TREE / "examples/heating-curve.rules", 1, 9, "PRURRLU"]
    p.gives(f"{name}: the program", words, 0, expected, "", env=BARE)
    needs = "librulefile.so" in p.call("readelf", "-d", folder / "a.out")[1]
    p.same(f"{name}: the program needs the shared library", shared, needs)


def manifest(folder, crate):
    (folder / "src").mkdir(parents=True)
    shutil.copy(TREE / "tests/install/main.rs", folder / "src/main.rs")
    text = '[package]\nname = "outside"\nversion = "0.0.0"\nedition = "2021"\n[dependencies]\n'
    (folder / "Cargo.toml").write_text(text + f'rulefile = {{ path = "{crate}" }}\n')


def build(p, folder, **variables):
    env = {key: value for key, value in os.environ.items() if key != "RULEFILE_LIB"}
    env.update(CARGO_TARGET_DIR=str(folder / "target"), **variables)
    return p.call("cargo", "build", "--quiet", "--offline", env=env, where=folder)


def in_rust(p, name, place):
    """A Rust program over the crate of the package, which finds the archive beside it."""
    folder = p.folder / f"{name}-rust"
    manifest(folder, place / "share/rulefile/rust")
    status, out, said = build(p, folder)
    p.expect(f"{name}: a Rust program is built", status == 0, out + said)
    words = [folder / "target/debug/outside", TREE / "examples/heating-curve.rules"]
    p.gives(f"{name}: a Rust program", words, 0, f"PPRULURU 2\n17, spent\n{VERSION}\n", "", env=BARE)


def other_versions(p, top):
    """An archive of another version, and one that states none: the crate is not built over them."""
    archive = (top / "lib/librulefile.a").read_bytes()
    mark = f"librulefile.a, version {VERSION};".encode()
    p.same("the archive states its version once", 1, archive.count(mark))
    other = mark.replace(VERSION.encode(), b"9" * len(VERSION))
    bare = (TREE / "crates/rulefile/out/librulefile.a").read_bytes()
    folder = p.folder / "versions"
    manifest(folder, top / "share/rulefile/rust")
    for name, content, words in (
        ("other", archive.replace(mark, other), f"is of version {'9' * len(VERSION)}, and this crate of version {VERSION}"),
        ("none", bare, f"states no version, and this crate is of version {VERSION}"),
    ):
        place = p.folder / f"archive-{name}/a/b/c"
        place.mkdir(parents=True)
        (place / "librulefile.a").write_bytes(content)
        status, _, said = build(p, folder, RULEFILE_LIB=str(place))
        p.expect(f"an archive of {name} version is refused", status != 0 and words in said, said)
    # one as the kit writes it is of the version of the tree around it
    place = p.folder / "archive-none/a/b/c"
    for version, built in (("9.9.9", False), (VERSION, True)):
        (p.folder / "archive-none/VERSION").write_text(version + "\n")
        status, _, said = build(p, folder, RULEFILE_LIB=str(place))
        p.expect(f"an archive in a tree of version {version}", (status == 0) == built and (built or "is of version 9.9.9" in said), said)
