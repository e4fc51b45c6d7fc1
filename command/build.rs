//! Notes what judges: the kit that proved the library, and the SHA-256 of the archive that is linked. Every verdict
//! states both.

#[path = "src/sha256.rs"]
mod sha256;

use std::env;
use std::fs;
use std::process::{self, Command};

/// What `rt version` says, `unknown` where the command is not there.
fn kit() -> String {
    let said = Command::new("rt").arg("version").output();
    let line = said.ok().filter(|said| said.status.success());
    let line = line.and_then(|said| String::from_utf8(said.stdout).ok());
    match line.as_deref().map(str::trim) {
        Some(line) if !line.is_empty() && !line.contains('\n') => line.to_string(),
        _ => "unknown".to_string(),
    }
}

/// The SHA-256 of the archive; without it there would be no telling what judged.
fn archive(path: &str) -> String {
    match fs::read(path) {
        Ok(bytes) => sha256::digits(&bytes),
        Err(error) => {
            eprintln!("cannot read {path}: {error}");
            process::exit(1);
        }
    }
}

fn main() {
    // the crate over the library says where the archive stands
    let path = env::var("DEP_RULEFILE_ARCHIVE").unwrap_or_default();
    println!("cargo:rerun-if-changed={path}");
    println!("cargo:rerun-if-changed=src/sha256.rs");
    println!("cargo:rerun-if-changed=build.rs");
    println!("cargo:rustc-env=RULEFILE_KIT={}", kit());
    println!("cargo:rustc-env=RULEFILE_ARCHIVE={}", archive(&path));
}
