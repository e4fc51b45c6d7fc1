//! `verdict`: the verdict on a file, filed beside it.

use crate::arguments::Given;
use crate::files::{self, Many, Row};
use crate::input::{self, Input};
use crate::records::{self, Record};
use crate::rules::Rules;
use crate::run::counted;
use crate::sha256::{self, Sha256};
use crate::{calendar, check, explain, judge, output, Failure, Outcome};
use rulefile::{Desk, Refused};
use std::ffi::OsStr;
use std::fs::{self, File};
use std::io::{self, Read};

/// What a file has to be for a verdict.
pub const BESIDE: &str = "beside which a verdict could be filed";

/// A file with what the library says of it, and the hash of its bytes.
pub struct Judged {
    pub file: Input,
    pub verdict: Result<(), Refused>,
    pub sha_256: String,
    /// How many bytes it has; of one over the ceiling not all are read.
    pub bytes: u64,
}

/// A regular file: of standard input or of a device nobody could tell later what was judged.
fn require_file(path: &OsStr, purpose: &str) -> Result<u64, Failure> {
    let name = input::shown(path);
    let none = || Failure(format!("{name} is not a file {purpose}"));
    if path == "-" {
        return Err(none());
    }
    let about = fs::metadata(path).map_err(|error| input::failure(&name, "read", &error))?;
    let length = Some(about.len()).filter(|_| about.is_file());
    length.ok_or_else(none)
}

/// The name of a file without its folder, as a verdict has it.
pub fn base(path: &OsStr) -> String {
    let whole = fs::canonicalize(path).unwrap_or_default();
    input::shown(whole.file_name().unwrap_or(path))
}

/// The SHA-256 of all that a file holds.
fn whole_digest(path: &OsStr) -> io::Result<String> {
    let mut file = File::open(path)?;
    let (mut hash, mut part) = (Sha256::new(), vec![0; 1 << 16]);
    loop {
        match file.read(&mut part)? {
            0 => return Ok(hash.digits()),
            length => hash.add(&part[..length]),
        }
    }
}

/// The SHA-256 of the bytes that were judged; of a file that was not read to its end, of the file.
fn digest(path: &OsStr, file: &Input) -> Result<String, Failure> {
    match file.too_long() {
        false => Ok(sha256::digits(&file.bytes)),
        true => whole_digest(path).map_err(|error| input::failure(&file.name, "read", &error)),
    }
}

impl Judged {
    /// Judges a file that has a place of its own, as this purpose asks for it.
    pub fn read(path: &OsStr, purpose: &str) -> Result<Judged, Failure> {
        let length = require_file(path, purpose)?;
        let file = input::read(path)?;
        let verdict = Desk::new().check(&file.bytes);
        let sha_256 = digest(path, &file)?;
        let bytes = match file.too_long() {
            true => length,
            false => file.bytes.len() as u64,
        };
        Ok(Judged {
            file,
            verdict,
            sha_256,
            bytes,
        })
    }

    /// `number,line`.
    pub fn numbers(&self) -> String {
        let (number, line) = explain::numbers(self.verdict);
        format!("{number},{line}")
    }

    /// What the verdict says in words.
    fn meaning(&self) -> String {
        let mut text = String::new();
        match self.verdict {
            Ok(()) => text += &format!("meaning: {}\n", explain::accepted(&self.file.bytes)),
            Err(refused) => {
                // without the names that people gave, which are no part of a verdict
                let rules = Rules::of(&self.file.bytes);
                for (label, said) in explain::line(&rules, &self.file.bytes, refused) {
                    text += &format!("{label}: {said}\n");
                }
                let meaning = explain::meaning(refused.refusal);
                let (happened, ask) = (meaning.happened, meaning.ask);
                text += &format!("meaning: {happened}\nwhat to do: {ask}\n");
            }
        }
        if let Some(warning) = check::warning(&self.file, self.verdict) {
            text += &format!("warning: {warning}\n");
        }
        text
    }

    /// The verdict as it is filed.
    fn text(&self, path: &OsStr) -> String {
        let name = base(path);
        let (number, line) = explain::numbers(self.verdict);
        let word = explain::word(self.verdict);
        let mut text = format!(
            "file: {name}\nverdict: {number},{line}\nnumber: {number}\nline: {line}\nword: {word}\n"
        );
        text += &self.meaning();
        text += &format!("bytes: {}\nSHA-256: {}\n", self.bytes, self.sha_256);
        if !self.file.too_long() {
            text += &format!("lines: {}\n", check::counts(&self.file.bytes));
        }
        for (label, said) in judge::NOW {
            text += &format!("{label}: {said}\n");
        }
        text + &format!("date: {}\n", calendar::today())
    }

    /// Whether a verdict says the same of the same bytes; the file may have got another name.
    pub fn same_as(&self, record: &Record) -> [bool; 2] {
        let bytes = record.sha_256() == self.sha_256;
        [bytes, record.verdict() == self.numbers()]
    }
}

/// What is new against the last verdict, in a line.
fn news(judged: &Judged, last: &Record) -> String {
    let (date, then, by) = (last.date(), last.verdict(), last.judge());
    match judged.same_as(last) {
        [false, _] => format!("the file has changed since the verdict of {date}, which was {then}"),
        [true, _] => format!("the same bytes were judged {then} on {date}, by {by}"),
    }
}

/// Files the verdict behind those that are there, unless the last one says the same; gives what was done.
fn file(path: &OsStr, judged: &Judged) -> Result<String, Failure> {
    let place = records::place(path);
    let name = input::shown(&place);
    let text = judged.text(path);
    let mut earlier = records::read(&place)?;
    if earlier.is_none() {
        if output::write_first(&place, text.as_bytes())? {
            return Ok(format!("the verdict is filed in {name}\n"));
        }
        // another call was first
        earlier = records::read(&place)?;
    }
    let earlier = earlier.unwrap_or_default();
    let last = earlier.last();
    if last.is_some_and(|last| judged.same_as(last) == [true, true] && last.by_the_same()) {
        return Ok(format!("the verdict is filed already in {name}\n"));
    }
    output::append(&place, &format!("\n{text}"))?;
    let count = counted(earlier.len() as u128, "earlier verdict");
    let news = last.map(|last| explain::entry("what is new", &news(judged, last)));
    let news = news.unwrap_or_default();
    Ok(format!(
        "the verdict is filed in {name}, behind {count}\n{news}"
    ))
}

/// Judges one file and files the verdict beside it.
fn verdict_on(path: &OsStr) -> Result<Row, Failure> {
    let judged = Judged::read(path, BESIDE)?;
    let done = file(path, &judged)?;
    let (numbers, word) = (judged.numbers(), explain::word(judged.verdict));
    Ok(Row {
        status: check::status(judged.verdict),
        text: format!("{numbers}\n{word}: {done}"),
        warning: check::warning(&judged.file, judged.verdict),
        cells: vec![numbers, word.to_string()],
    })
}

/// Judges files and files the verdicts beside them.
pub fn verdict(given: &Given) -> Outcome {
    let many = Many {
        head: &["verdict", "word"],
        words: ["accepted", "refused"],
    };
    files::each(given, &many, verdict_on)
}
