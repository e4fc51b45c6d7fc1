//! `letter`: a text to send to the supplier of a file.

use crate::arguments::Given;
use crate::explain::{self, wrapped};
use crate::rules::Rules;
use crate::run::counted;
use crate::verdict::{base, Judged};
use crate::{calendar, check, judge, output, turn, Outcome};
use rulefile::Refused;
use std::ffi::OsStr;

/// What a file has to be for a letter.
const NAMED: &str = "that could be named in a letter";

/// What every letter about a refused file ends with.
const AGAIN: &str = "Please send the whole file once more, as the generator writes it and not mended by hand. We judge it \
    from the start, since a mended file may show the next fault.";

/// A paragraph.
fn paragraph(text: &str) -> String {
    format!("{}\n", wrapped("", text, 78))
}

/// What is seen of a refusal, one below the other.
fn seen(judged: &Judged, refused: Refused) -> String {
    // without names, which the supplier does not know
    let rules = Rules::of(&judged.file.bytes);
    let lines = explain::line(&rules, &judged.file.bytes, refused).into_iter();
    let lines = lines.map(|(label, said)| wrapped(&format!("  {label}:"), &said, 78));
    let lines: String = lines.collect();
    match lines.is_empty() {
        true => lines,
        false => format!("{lines}\n"),
    }
}

/// The file as both sides can tell that they speak of one.
fn named(path: &OsStr, judged: &Judged) -> String {
    let (name, bytes) = (base(path), counted(judged.bytes.into(), "byte"));
    format!("{name} ({bytes}, SHA-256 {})", judged.sha_256)
}

fn refusal(path: &OsStr, judged: &Judged, refused: Refused) -> String {
    let (number, word) = (refused.refusal.number(), refused.refusal.word());
    let place = match refused.line {
        0 => String::new(),
        line => format!(", at line {line}"),
    };
    let meaning = explain::meaning(refused.refusal);
    let named = named(path, judged);
    let mut text = paragraph(&format!(
        "Your file {named} is refused with {number}, {word}{place}. Nothing of it is used."
    ));
    text += &paragraph(&format!("What happened: {}.", meaning.happened));
    text += &seen(judged, refused);
    // what to ask the supplier begins with the word "ask"
    text += &paragraph(&format!("We {}.", meaning.ask));
    text + &paragraph(AGAIN)
}

/// The whole letter.
fn text(path: &OsStr, judged: &Judged) -> String {
    let text = match judged.verdict {
        Err(refused) => refusal(path, judged, refused),
        Ok(()) => {
            let named = named(path, judged);
            let meaning = explain::accepted(&judged.file.bytes);
            let warning = check::warning(&judged.file, judged.verdict);
            let warning = warning.map(|warning| paragraph(&format!("But {warning}")));
            let accepted = paragraph(&format!("Your file {named} is accepted: {meaning}."));
            accepted + &warning.unwrap_or_default()
        }
    };
    let (today, by) = (calendar::today(), judge::now());
    text + &wrapped("", &format!("Judged on {today} by {by}."), 78)
}

/// Writes a letter.
pub fn letter(given: &Given) -> Outcome {
    let path = given.word(0);
    turn::require_other(path, given.value("-o"))?;
    let target = output::target(given)?;
    let judged = Judged::read(path, NAMED)?;
    target.give(text(path, &judged).as_bytes())?;
    Ok(check::status(judged.verdict))
}
