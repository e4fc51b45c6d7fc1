//! What a refusal means, in the words of `docs/REFUSALS.md`.

use crate::input::Input;
use crate::rules::Rules;
use crate::settings::MOST_LETTERS;
use crate::show::tree;
use crate::{form, look, names, show};
use rulefile::{Desk, Refusal, Refused};

/// The one source of the words.
const REFUSALS: &str = include_str!("../../docs/REFUSALS.md");

/// What stands in the table for one refusal.
#[derive(Clone, Copy)]
pub struct Meaning {
    /// What happened.
    pub happened: &'static str,
    /// What to do, or to ask the supplier.
    pub ask: &'static str,
}

/// The row of a refusal.
pub fn meaning(refusal: Refusal) -> Meaning {
    let number = refusal.number().to_string();
    let rows = REFUSALS.lines().filter(|line| line.starts_with('|'));
    let mut cells = rows.map(|row| row.split('|').map(str::trim).skip(1).collect::<Vec<_>>());
    match cells.find(|cells| cells.first() == Some(&number.as_str())) {
        Some(cells) if cells.len() >= 4 => Meaning {
            happened: cells[2],
            ask: cells[3],
        },
        _ => Meaning {
            happened: "this version of the command has no words for the number",
            ask: "build the command again, over the library of the same version",
        },
    }
}

/// What accepted means, of a file without lists.
const ACCEPTED: &str = "every setting of a from-type goes to exactly one setting of its to-type, \
    every setting of the to-type is reached, and the way back leads to the setting it came from";

/// The same of a file with lists, in which no iso calls itself.
const WITH_LISTS: &str =
    "every setting of a from-type goes to exactly one setting of its to-type, \
    every setting of the to-type is reached, and the way back leads to the setting it came from; lists are of any \
    length, and a run that meets a setting of over 127 letters is refused with 24";

/// The same of a file in which an iso calls itself.
const CALLS_ITSELF: &str =
    "a setting of a from-type that is given a result gets exactly one, of the to-type, and \
    the way back leads from there to the setting it came from, with the same count of steps; since an iso of the file \
    calls itself, a run may be refused with 17 or 24 under every budget, and that every setting of a to-type is reached \
    is not promised";

/// What it means that a file is accepted.
pub fn accepted(file: &[u8]) -> &'static str {
    let rules = Rules::of(file);
    match (rules.any_calls_itself(), rules.has_lists()) {
        (true, _) => CALLS_ITSELF,
        (false, true) => WITH_LISTS,
        (false, false) => ACCEPTED,
    }
}

/// A warning about an accepted file in which there is nothing to use. One with lines has an I line, or its first
/// line would be idle or misplaced.
pub fn warning(bytes: &[u8]) -> Option<&'static str> {
    let empty = "the file is empty: it is accepted, and has no conversion; was it sent whole?";
    bytes.is_empty().then_some(empty)
}

/// The word of a verdict.
pub fn word(verdict: Result<(), Refused>) -> &'static str {
    verdict.map_or_else(|refused| refused.refusal.word(), |()| "accepted")
}

/// `number,line` of a verdict.
pub fn numbers(verdict: Result<(), Refused>) -> (u32, usize) {
    verdict.map_or_else(
        |refused| (refused.refusal.number(), refused.line),
        |()| (0, 0),
    )
}

/// What a setting does that shows a fault.
fn fault(refusal: Refusal) -> Option<&'static str> {
    match refusal {
        Refusal::OverlapLeft => Some("which two or more clauses match"),
        Refusal::OverlapRight => Some("which two or more clauses give"),
        Refusal::GapLeft => Some("which no clause matches"),
        Refusal::GapRight => Some("which no clause gives"),
        _ => None,
    }
}

/// A setting that shows the fault of an iso, from the library: its letters, or that it has too many.
fn witness(file: &[u8], refused: Refused) -> Option<Result<Vec<u8>, String>> {
    let fault = fault(refused.refusal)?;
    let witness = Desk::new().witness(file).err()?;
    Some(match witness.refused.refusal {
        Refusal::TooLarge => Err(format!(
            "the shortest one, {fault}, has over {MOST_LETTERS} letters, and is not shown"
        )),
        _ => Ok(witness.letters),
    })
}

/// The T line of the settings that show the fault of an iso.
fn side(rules: &Rules, refused: Refused) -> Option<usize> {
    let iso = rules.isos.iter().find(|iso| iso.line == refused.line)?;
    match refused.refusal {
        Refusal::OverlapLeft | Refusal::GapLeft => Some(iso.from),
        Refusal::OverlapRight | Refusal::GapRight => Some(iso.to),
        _ => None,
    }
}

/// A setting that shows the fault of an iso: how it reads, its letters, and what it does.
fn setting(rules: &Rules, letters: &[u8], refused: Refused) -> Option<String> {
    let fault = fault(refused.refusal)?;
    let reads = tree::setting(rules, side(rules, refused)?, letters);
    let letters = String::from_utf8_lossy(letters);
    match reads == letters {
        true => Some(format!("{letters}, {fault}")),
        false => Some(format!("{reads}, in letters {letters}, {fault}")),
    }
}

/// Whether a file that is refused has readable lines.
pub fn readable(refused: Refused) -> bool {
    refused.refusal.number() > Refusal::Ceiling.number()
}

/// The lines of a refused file with the names beside it, where they are readable.
fn named(file: &Input, refused: Refused) -> Rules {
    match readable(refused) {
        true => names::rules(&file.path, &file.bytes),
        false => Rules::default(),
    }
}

/// What there is to see of a refusal, each with its label: the line; what exactly is wrong; a clause, or an idle type
/// or pattern, as it reads; a setting that shows the fault, and the two clauses that meet in it.
pub fn line(rules: &Rules, file: &[u8], refused: Refused) -> Vec<(String, String)> {
    let mut said = Vec::new();
    let mut add = |label: &str, text: Option<String>| {
        said.extend(text.map(|text| (label.to_string(), text)));
    };
    let bytes = form::line(file, refused.line);
    add(&format!("line {}", refused.line), bytes.map(form::shown));
    let reading = readable(refused).then(|| show::reading(rules, refused.line));
    add("it reads", reading.flatten());
    add("look here", look::here(file, refused));
    let (letters, none) = match witness(file, refused) {
        Some(Ok(letters)) => (letters, None),
        Some(Err(none)) => (Vec::new(), Some(none)),
        None => (Vec::new(), None),
    };
    let shown = Some(&letters).filter(|letters| !letters.is_empty());
    let shown = shown.and_then(|letters| setting(rules, letters, refused));
    add("a setting", shown.or(none));
    for (line, clause) in look::meeting(rules, refused, &letters) {
        add(&format!("clause of line {line}"), Some(clause));
    }
    said
}

/// A text in lines of at most so many characters, all but the first indented; the first begins with this.
pub fn wrapped(first: &str, text: &str, most: usize) -> String {
    let whole = format!("{first} {text}");
    if !first.is_empty() && whole.chars().count() <= most {
        return whole + "\n";
    }
    let indent = if first.is_empty() { "" } else { "    " };
    let (mut lines, mut line) = (String::new(), first.to_string());
    for word in text.split_whitespace() {
        let blank = if line.trim().is_empty() { "" } else { " " };
        let length = line.chars().count() + blank.len() + word.chars().count();
        if length > most && !line.trim().is_empty() {
            lines += &format!("{line}\n");
            line = format!("{indent}{word}");
        } else {
            line += &format!("{blank}{word}");
        }
    }
    lines + &line + "\n"
}

/// A text under its label.
pub fn entry(label: &str, text: &str) -> String {
    wrapped(&format!("  {label}:"), text, 100)
}

/// A refusal of a file in lines: what it is, the line, what happened, what to do. Names that people gave are in it.
pub fn refusal(file: &Input, refused: Refused) -> String {
    refusal_in(&named(file, refused), file, refused)
}

/// The same, in the words that these lines of the file have.
pub fn refusal_in(rules: &Rules, file: &Input, refused: Refused) -> String {
    let (number, word) = (refused.refusal.number(), refused.refusal.word());
    let place = match refused.line {
        0 => String::new(),
        line => format!(", at line {line}"),
    };
    let mut text = format!("{} is refused: {number}, {word}{place}.\n", file.name);
    for (label, said) in line(rules, &file.bytes, refused) {
        text += &entry(&label, &said);
    }
    let meaning = meaning(refused.refusal);
    text + &entry("what happened", meaning.happened) + &entry("what to do", meaning.ask)
}
