"""bin/package: what it makes, what is in it, and what it says where it cannot."""

import os
import re
import shutil

from counter import TREE, VERSION

TAR = f"rulefile-{VERSION}-x86_64-linux.tar.gz"
DEB = f"rulefile_{VERSION}_amd64.deb"

# what bin/install puts in place
INSTALLED = [
    "bin/rulefile",
    "bin/rules",
    "include/rulefile.h",
    "lib/librulefile.a",
    "lib/librulefile.so",
    f"lib/librulefile.so.{VERSION.rsplit('.', 1)[0]}",
    f"lib/librulefile.so.{VERSION}",
    "lib/pkgconfig/rulefile-static.pc",
    "lib/pkgconfig/rulefile.pc",
    "libexec/rulefile/rules",
    "share/man/man1/rulefile.1",
    "share/man/man1/rules.1",
    "share/man/man3/rulefile.3",
]


def crate():
    source = TREE / "bindings/rust"
    files = [source / "Cargo.toml", source / "build.rs", *source.glob("src/*.rs"), *source.glob("examples/*.rs")]
    return [f"share/rulefile/rust/{file.relative_to(source)}" for file in files]


def documents(p):
    """What else is in a package, as it stands in this tree."""
    shown = re.findall(r"^!\[.*\]\((docs/.*)\)$", (TREE / "README.md").read_text(), re.M)
    examples = p.call("git", "ls-files", "examples", where=TREE)[1].split()
    p.expect("there are examples", "examples/heating-curve.rules" in examples, examples)
    return ["README.md", "CHANGELOG.md", "docs/REFUSALS.md", "docs/FORMAT.md", *shown, *examples]


def files_of(place):
    return sorted(str(path.relative_to(place)) for path in place.rglob("*") if path.is_symlink() or not path.is_dir())


def run(p):
    """The places where the packages are unpacked: that of the .tar.gz, and /usr of the .deb."""
    folder = p.folder / "made here"
    p.gives("bin/package", [TREE / "bin/package", folder], 0, f"{folder}/{TAR}\n{folder}/{DEB}\n", "")
    p.same("bin/package makes two files", sorted([TAR, DEB]), sorted(os.listdir(folder)))
    p.gives("bin/package again", [TREE / "bin/package", p.folder / "again"], 0)
    for name in (TAR, DEB):
        p.expect(f"{name}: the same tree gives the same bytes", (folder / name).read_bytes() == (p.folder / "again" / name).read_bytes())
    usage = "usage: bin/package [FOLDER]\n"
    p.gives("an option", [TREE / "bin/package", "--help"], 2, "", usage)
    p.gives("two words", [TREE / "bin/package", p.folder / "one", p.folder / "two"], 2, "", usage)
    (p.folder / "file").write_text("")
    given, out, said = p.call(TREE / "bin/package", p.folder / "file")
    p.expect("a file where the folder should be", (given, out) == (2, "") and "package: cannot make" in said, said)
    return unpack(p, folder)


def unpack(p, folder):
    place = p.folder / "place"
    for name in ("tar", "deb"):
        (place / name).mkdir(parents=True)
    p.gives("tar", ["tar", "xzf", folder / TAR, "-C", place / "tar"], 0, "", "")
    p.gives("dpkg -x", ["dpkg", "-x", folder / DEB, place / "deb"], 0, "", "")
    shutil.rmtree(p.folder / "again")
    top, usr = place / f"tar/rulefile-{VERSION}", place / "deb/usr"
    beside = [*documents(p), "RECEIPT"]
    p.same("the .tar.gz has one folder", [top.name], os.listdir(place / "tar"))
    p.same("what the .tar.gz has", sorted([*INSTALLED, *crate(), *beside]), files_of(top))
    in_deb = [*INSTALLED, *crate(), *(f"share/doc/rulefile/{name}" for name in [*beside, "copyright"])]
    p.same("what the .deb has", sorted(f"usr/{name}" for name in in_deb), files_of(place / "deb"))
    for name in documents(p):
        for found in (top / name, usr / "share/doc/rulefile" / name):
            p.expect(f"{found.relative_to(place)} is that of the tree", found.read_bytes() == (TREE / name).read_bytes())
    needed(p, top, folder)
    return top, usr


def needed(p, top, folder):
    """The programs need the C library and what comes with it, of the version that the .deb asks for."""
    versions = {(0,)}
    for name in ("bin/rulefile", "libexec/rulefile/rules", f"lib/librulefile.so.{VERSION}"):
        known = set(re.findall(r"\(NEEDED\).*\[(.*)\]", p.call("readelf", "-d", top / name)[1]))
        p.expect(f"{name} needs the C library alone", known <= {"libc.so.6", "libgcc_s.so.1", "ld-linux-x86-64.so.2"}, known)
        symbols = re.findall(r"GLIBC_([0-9.]+)", p.call("readelf", "-V", top / name)[1])
        versions |= {tuple(map(int, version.split("."))) for version in symbols}
    newest = ".".join(map(str, max(versions)))
    p.same("Depends", f"libc6 (>= {newest}), libgcc-s1\n", p.call("dpkg-deb", "-f", folder / DEB, "Depends")[1])
    p.same("Version", f"{VERSION}\n", p.call("dpkg-deb", "-f", folder / DEB, "Version")[1])
    p.expect("README says which C library", f"glibc {newest} or later" in (TREE / "README.md").read_text(), newest)
