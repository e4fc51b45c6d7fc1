//! `witness FILE`
//!
//! A setting that shows the fault. FILE is a rule file as `rules` reads it: a line that begins with Q ends it.
//! Prints `number,line,letters`: the verdict and, for 11 to 14, the setting.
//!
//! Exit status: 0 accepted, 1 refused, 2 the argument or FILE cannot be read.

use rulefile::{Desk, Witness};
use std::env;
use std::ffi::OsString;
use std::fs;
use std::process::ExitCode;

/// What stands before the first line that begins with Q.
fn rules(text: &[u8]) -> &[u8] {
    let lines = text.split_inclusive(|byte| *byte == b'\n');
    let rules = lines.take_while(|line| !line.starts_with(b"Q"));
    &text[..rules.map(<[u8]>::len).sum()]
}

fn main() -> ExitCode {
    let words: Vec<OsString> = env::args_os().skip(1).collect();
    let [path] = &words[..] else {
        eprintln!("usage: witness FILE");
        return ExitCode::from(2);
    };
    let Ok(text) = fs::read(path) else {
        eprintln!("witness: cannot read {}", path.to_string_lossy());
        return ExitCode::from(2);
    };
    match Desk::new().witness(rules(&text)) {
        Ok(()) => {
            println!("0,0,");
            ExitCode::SUCCESS
        }
        Err(Witness { refused, letters }) => {
            let (number, letters) = (refused.refusal.number(), String::from_utf8_lossy(&letters));
            println!("{number},{},{letters}", refused.line);
            ExitCode::FAILURE
        }
    }
}
