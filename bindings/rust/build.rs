//! Finds librulefile.a and holds its version to that of this crate. The archive stands in the folder that
//! RULEFILE_LIB names; without that, where `rt lib` writes it, in out/ of crates/rulefile, or, for a crate that is
//! installed, in lib/ of the same place.

use std::env;
use std::fs;
use std::path::{Path, PathBuf};
use std::process;

/// What an installed archive has before its version; a semicolon stands behind it.
const MARK: &[u8] = b"librulefile.a, version ";

/// Ends the build with a sentence that says what is missing and what to do.
fn missing(what: String) -> ! {
    eprintln!("{what}");
    process::exit(1);
}

/// The folder of the archive, and how it comes to be there.
fn folder() -> (PathBuf, &'static str) {
    let here = PathBuf::from(env!("CARGO_MANIFEST_DIR"));
    match env::var_os("RULEFILE_LIB") {
        Some(folder) => (
            PathBuf::from(folder),
            "RULEFILE_LIB names that folder; `bin/install PREFIX` puts the archive into PREFIX/lib",
        ),
        None if here.join("../../crates.txt").is_file() => (
            here.join("../../crates/rulefile/out"),
            "`rt lib`, run in crates/rulefile, writes it there; \
             where it is installed elsewhere, set RULEFILE_LIB to its folder",
        ),
        None => (
            here.join("../../../lib"),
            "the package and `bin/install PREFIX` put it there, beside share/, which holds this crate; \
             where it stands elsewhere, set RULEFILE_LIB to its folder",
        ),
    }
}

/// The library is compiled for one platform.
fn require_platform() {
    let part = |name: &str| env::var(format!("CARGO_CFG_TARGET_{name}")).unwrap_or_default();
    let (architecture, system) = (part("ARCH"), part("OS"));
    if (architecture.as_str(), system.as_str()) != ("x86_64", "linux") {
        missing(format!(
            "librulefile.a is for x86_64 Linux; this build is for {architecture} {system}"
        ));
    }
}

/// The version that an installed archive states of itself.
fn stated(archive: &[u8]) -> Option<String> {
    let place = archive.windows(MARK.len()).position(|part| part == MARK)?;
    let behind = &archive[place + MARK.len()..];
    let end = behind.iter().position(|byte| *byte == b';')?;
    String::from_utf8(behind[..end].to_vec()).ok()
}

/// The version of the tree in whose crates/rulefile/out an archive stands, which states none itself.
fn of_tree(folder: &Path) -> Option<String> {
    let file = folder.join("../../../VERSION");
    println!("cargo:rerun-if-changed={}", file.display());
    let version = fs::read_to_string(file).ok()?;
    Some(version.trim().to_string())
}

/// The archive must be of this crate's version: another one may have other functions, or the same ones with other
/// answers.
fn require_version(archive: &Path, folder: &Path) {
    let named = archive.display();
    let bytes = fs::read(archive)
        .unwrap_or_else(|error| missing(format!("{named} cannot be read: {error}")));
    let own = env!("CARGO_PKG_VERSION");
    match stated(&bytes).or_else(|| of_tree(folder)) {
        Some(version) if version == own => {}
        Some(version) => missing(format!(
            "{named} is of version {version}, and this crate of version {own}: take both out of one package"
        )),
        None => missing(format!(
            "{named} states no version, and this crate is of version {own}: `bin/install PREFIX` puts an archive that does \
             into PREFIX/lib"
        )),
    }
}

fn main() {
    println!("cargo:rerun-if-env-changed=RULEFILE_LIB");
    require_platform();
    let (folder, way) = folder();
    let archive = folder.join("librulefile.a");
    println!("cargo:rerun-if-changed={}", archive.display());
    if !archive.is_file() {
        missing(format!("{} is missing: {way}", archive.display()));
    }
    require_version(&archive, &folder);
    // for the build scripts of crates over this one
    println!("cargo:archive={}", archive.display());
    println!("cargo:rustc-link-search=native={}", folder.display());
    println!("cargo:rustc-link-lib=static=rulefile");
}
