//! `check`: the verdict on a file, in numbers and in words.

use crate::arguments::Given;
use crate::files::{self, Many, Row};
use crate::input::{self, Input};
use crate::look::asked::Told;
use crate::{explain, output, Failure, Outcome, Status};
use rulefile::{Desk, Refused};
use std::ffi::OsStr;

/// The lines of a file by their letters.
pub fn counts(bytes: &[u8]) -> String {
    let lines = || bytes.split(|byte| *byte == b'\n');
    let of = |letter: u8| lines().filter(|line| line.first() == Some(&letter)).count();
    let [t, p, i, c, l] = [b'T', b'P', b'I', b'C', b'L'].map(of);
    format!("{t} T, {p} P, {i} I, {c} C, {l} L")
}

/// A file that is accepted, or nothing: then why is printed, as `check` does.
pub fn accepted(desk: &mut Desk, file: &Input) -> Result<bool, Failure> {
    match desk.check(&file.bytes) {
        Ok(()) => Ok(true),
        refused => output::print(verdict(file, refused).as_bytes()).map(|()| false),
    }
}

/// A refusal of what was asked, on standard error, with where to look.
pub fn say_refused(told: &Told) -> Status {
    let look = told.look.iter().map(|look| format!("look here: {look}"));
    say_refused_at(told.refused, &look.collect::<Vec<_>>())
}

/// The same, with these lines between.
pub fn say_refused_at(refused: Refused, place: &[String]) -> Status {
    let meaning = explain::meaning(refused.refusal);
    output::say(&format!("refused with {}", refused.refusal));
    for line in place {
        output::say(line);
    }
    output::say(&format!("what happened: {}", meaning.happened));
    output::say(&format!("what to do: {}", meaning.ask));
    Status::Refused
}

/// Asks an accepted file.
pub fn ask(
    given: &Given,
    zeros: &str,
    question: impl FnOnce(&mut Desk, &[u8]) -> Result<String, Told>,
) -> Outcome {
    let mut desk = Desk::new();
    let Some(file) = read_accepted(&mut desk, given)? else {
        return Ok(Status::Refused);
    };
    answer(zeros, question(&mut desk, &file.bytes))
}

/// Prints an answer or, where it is refused, its number and these zeros, and on standard error why and where to look.
pub fn answer(zeros: &str, answer: Result<String, Told>) -> Outcome {
    match answer {
        Ok(answer) => output::print(answer.as_bytes()).map(|()| Status::Done),
        Err(told) => {
            let number = told.refused.refusal.number();
            output::print(format!("{number},{zeros}\n").as_bytes())?;
            Ok(say_refused(&told))
        }
    }
}

/// The verdict as it is printed.
pub fn verdict(file: &Input, verdict: Result<(), Refused>) -> String {
    let (number, line) = explain::numbers(verdict);
    let words = match verdict {
        Err(refused) => explain::refusal(file, refused),
        Ok(()) => {
            let meaning = explain::accepted(&file.bytes);
            let meaning = explain::entry("what it means", meaning);
            let lines = explain::entry("lines", &counts(&file.bytes));
            format!("{} is accepted.\n{meaning}{lines}", file.name)
        }
    };
    format!("{number},{line}\n{words}")
}

/// Checks one file.
fn check_one(path: &OsStr) -> Result<Row, Failure> {
    let file = input::read(path)?;
    let answer = Desk::new().check(&file.bytes);
    let (number, line) = explain::numbers(answer);
    let word = explain::word(answer).to_string();
    Ok(Row {
        status: status(answer),
        text: verdict(&file, answer),
        warning: warning(&file, answer),
        cells: vec![format!("{number},{line}"), word],
    })
}

/// Checks files.
pub fn check(given: &Given) -> Outcome {
    let many = Many {
        head: &["verdict", "word"],
        words: ["accepted", "refused"],
    };
    files::each(given, &many, check_one)
}

/// The status of a verdict.
pub fn status(verdict: Result<(), Refused>) -> Status {
    match verdict {
        Ok(()) => Status::Done,
        Err(_) => Status::Refused,
    }
}

/// What an accepted file with nothing in it is warned of.
pub fn warning(file: &Input, verdict: Result<(), Refused>) -> Option<&'static str> {
    explain::warning(&file.bytes).filter(|_| verdict.is_ok())
}

/// A file that has to be accepted for what follows.
pub fn read_accepted(desk: &mut Desk, given: &Given) -> Result<Option<Input>, Failure> {
    let file = input::read(given.word(0))?;
    Ok(accepted(desk, &file)?.then_some(file))
}
