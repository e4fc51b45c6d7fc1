//! `there_and_back FILE ISO BUDGET LETTERS`
//!
//! Checks and turns a rule file, sends a setting forward through it, and sends what comes out forward
//! through the turned file: the same setting comes back, with the same count. Of FILE, all that stands
//! before the first line that begins with Q is the rule file.
//!
//! Exit status: 0 came back, 1 refused, 2 the arguments or the file cannot be read.

use rulefile::{Accepted, Converted, Desk, Direction, Query, Refused};
use std::env;
use std::ffi::{OsStr, OsString};
use std::fs::File;
use std::io::{self, Read};
use std::process::ExitCode;

/// One byte more than a rule file may have is enough for refusal 2.
const READ: u64 = 65_536 + 1;

/// What the command line asks for.
struct Request {
    path: OsString,
    iso: u32,
    budget: u32,
    letters: Vec<u8>,
}

fn read_number(text: &OsStr) -> Option<u32> {
    let text = text.to_str().filter(|text| !text.starts_with('+'))?;
    text.parse().ok()
}

fn read_request() -> Option<Request> {
    let words: Vec<OsString> = env::args_os().skip(1).collect();
    let [path, iso, budget, letters] = <[OsString; 4]>::try_from(words).ok()?;
    Some(Request {
        path,
        iso: read_number(&iso)?,
        budget: read_number(&budget)?,
        letters: letters.into_encoded_bytes(),
    })
}

fn read_text(path: &OsStr) -> io::Result<Vec<u8>> {
    let mut text = Vec::new();
    File::open(path)?.take(READ).read_to_end(&mut text)?;
    Ok(text)
}

/// What stands before the first line that begins with Q.
fn rules_of(text: &[u8]) -> &[u8] {
    let lines = text.split_inclusive(|&byte| byte == b'\n');
    let length = lines
        .take_while(|line| line[0] != b'Q')
        .map(<[u8]>::len)
        .sum();
    &text[..length]
}

/// Prints the refusal of a step.
fn refused(step: &'static str) -> impl Fn(Refused) -> Refused {
    move |refused| {
        println!("{step}: {refused}");
        refused
    }
}

/// Runs an iso of an accepted file forward.
fn run(
    accepted: &mut Accepted,
    step: &'static str,
    request: &Request,
    letters: &[u8],
) -> Result<Converted, Refused> {
    let query = Query::new(request.iso, Direction::Forward, request.budget, letters);
    let to = accepted.run(query).map_err(refused(step))?;
    let from = String::from_utf8_lossy(letters);
    println!("{step}: {from} becomes {}, count {}", to.letters, to.count);
    Ok(to)
}

fn there_and_back(rules: &[u8], request: &Request) -> Result<bool, Refused> {
    let mut desk = Desk::new();
    let mut accepted = desk.open(rules).map_err(refused("Check"))?;
    println!("Check: accepted, number 0, line 0");
    let turned = accepted.turn().map_err(refused("Turn"))?;
    println!(
        "Turn: {} bytes written, the file has {}",
        turned.len(),
        rules.len()
    );
    let there = run(&mut accepted, "Run of the file", request, &request.letters)?;
    let step = "Run of the turned file";
    let mut accepted = desk.open(&turned).map_err(refused(step))?;
    let back = run(&mut accepted, step, request, &there.letters)?;
    let same = |holds| if holds { "the same" } else { "another" };
    let same_setting = *back.letters == *request.letters;
    let same_count = back.count == there.count;
    println!(
        "Came back: {} setting, {} count",
        same(same_setting),
        same(same_count)
    );
    Ok(same_setting && same_count)
}

fn main() -> ExitCode {
    let Some(request) = read_request() else {
        eprintln!("usage: there_and_back FILE ISO BUDGET LETTERS");
        return ExitCode::from(2);
    };
    let Ok(text) = read_text(&request.path) else {
        eprintln!(
            "there_and_back: cannot read {}",
            request.path.to_string_lossy()
        );
        return ExitCode::from(2);
    };
    match there_and_back(rules_of(&text), &request) {
        Ok(true) => ExitCode::SUCCESS,
        Ok(false) | Err(_) => ExitCode::FAILURE,
    }
}
