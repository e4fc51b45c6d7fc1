//! `turn`: the turned file, alone.

use crate::arguments::Given;
use crate::{check, output, Failure, Outcome, Status};
use rulefile::Desk;
use std::ffi::OsStr;
use std::fs;

/// What is written must not take the place of the file that it comes from.
pub fn require_other(file: &OsStr, out: Option<&OsStr>) -> Result<(), Failure> {
    let place = |path: &OsStr| fs::canonicalize(path).ok();
    let there = out.and_then(place);
    if file != "-" && there.is_some() && place(file) == there {
        let why = "-o names a file that is read; keep it as it was sent";
        return Err(Failure(why.to_string()));
    }
    Ok(())
}

/// Turns a file.
pub fn turn(given: &Given) -> Outcome {
    require_other(given.word(0), given.value("-o"))?;
    let target = output::target(given)?;
    let mut desk = Desk::new();
    let Some(file) = check::read_accepted(&mut desk, given)? else {
        return Ok(Status::Refused);
    };
    match desk.turn(&file.bytes) {
        Ok(turned) => target.give(&turned).map(|()| Status::Done),
        Err(refused) => Ok(check::say_refused(&refused.into())),
    }
}
