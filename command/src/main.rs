//! `rulefile COMMAND …`: judges, files, shows, turns and runs rule files, and tries out visits with them. Every answer comes from the proved
//! library; the words for it come from `docs/REFUSALS.md`.
//!
//! Exit status: 0 accepted or done, 1 refused, 2 not readable, not writable or wrong usage.

// The runtime of Rust would put /dev/null in place of a closed stream before `main`, so that a closed standard
// input looked like an empty file, which is accepted. Without it, `streams` sees which are closed.
#![no_main]

mod arguments;
mod calendar;
mod check;
mod commands;
mod compare;
mod explain;
mod files;
mod form;
mod input;
mod judge;
mod letter;
mod lists;
mod look;
mod names;
mod numbers;
mod output;
mod patterns;
mod play;
mod progress;
mod records;
mod rules;
mod run;
mod samples;
mod script;
mod settings;
mod sha256;
mod sheet;
mod show;
mod streams;
mod turn;
mod units;
mod verdict;
mod verify;
mod witness;
mod words;

/// Where a command ends that was not wrong usage and failed nowhere.
#[derive(Clone, Copy, Debug, PartialEq, Eq)]
pub enum Status {
    /// Accepted, or done.
    Done,
    /// The file or what was asked of it is refused.
    Refused,
}

/// Why a command could not be carried out, in words.
#[derive(Debug)]
pub struct Failure(pub String);

/// What a command comes to.
pub type Outcome = Result<Status, Failure>;

/// What the system calls.
#[no_mangle]
pub extern "C" fn main() -> i32 {
    streams::guard();
    let words: Vec<_> = std::env::args_os().skip(1).collect();
    match commands::carry_out(&words) {
        Ok(Status::Done) => 0,
        Ok(Status::Refused) => 1,
        Err(Failure(why)) => {
            output::say(&why);
            2
        }
    }
}
