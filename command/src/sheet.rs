//! `sheet`: many queries, their answers as CSV.

use crate::arguments::Given;
use crate::input::{self, Input, Lines};
use crate::look::asked;
use crate::output::Sink;
use crate::rules::Rules;
use crate::show::tree;
use crate::{check, form, names, output, progress, turn, Failure, Outcome, Status};
use rulefile::{Desk, Refusal, Value, MAX_QUERIES};
use std::collections::BTreeMap;

/// The heads of the columns.
const HEAD: [&str; 8] = [
    "line", "query", "number", "word", "count", "letters", "setting", "becomes",
];

/// A field of CSV, in quotation marks; an apostrophe keeps a spreadsheet program from taking it for a formula.
fn quoted(text: &str) -> String {
    let mark = if text.starts_with(['=', '+', '-', '@']) {
        "'"
    } else {
        ""
    };
    format!("\"{mark}{}\"", text.replace('"', "\"\""))
}

/// Columns parted by commas or semicolons.
fn columns(cells: [&str; 8], comma: &str) -> String {
    format!("{}\n", cells.join(comma))
}

/// The T lines that a query leads from and to, and its letters; none where it is of another form.
fn ends<'a>(rules: &Rules, query: &'a [u8]) -> Option<(usize, usize, &'a [u8])> {
    let mut fields = form::text(query).splitn(5, |byte| *byte == b',');
    let mut number = |_| std::str::from_utf8(fields.next()?).ok()?.parse().ok();
    let [_, iso, direction, _]: [Option<usize>; 4] = [(); 4].map(&mut number);
    let iso = rules.isos.get(iso?)?;
    let letters = fields.next()?;
    match direction? {
        0 => Some((iso.from, iso.to, letters)),
        _ => Some((iso.to, iso.from, letters)),
    }
}

/// A setting as it reads, quoted; nothing for what is none.
fn reads(rules: &Rules, ty: usize, letters: &[u8]) -> String {
    match tree::fits(rules, ty, letters) {
        true => quoted(&tree::setting(rules, ty, letters)),
        false => String::new(),
    }
}

/// The line of an answer.
fn row(
    rules: &Rules,
    place: usize,
    query: &[u8],
    answer: &Result<Value, Refusal>,
    comma: &str,
) -> String {
    let ends = ends(rules, query);
    let (place, query) = (place.to_string(), quoted(&form::shown_whole(query)));
    let setting = ends.map(|(from, _, letters)| reads(rules, from, letters));
    let setting = setting.unwrap_or_default();
    let (front, count, letters, becomes) = match answer {
        Ok(value) => {
            let becomes = ends.map(|(_, to, _)| reads(rules, to, &value.letters));
            let letters = String::from_utf8_lossy(&value.letters).into_owned();
            let front = ("0".to_string(), "answered");
            (front, value.count, letters, becomes)
        }
        Err(refusal) => {
            let front = (refusal.number().to_string(), refusal.word());
            (front, 0, String::new(), None)
        }
    };
    let ((number, word), count) = (front, count.to_string());
    let becomes = becomes.unwrap_or_default();
    columns(
        [
            &place, &query, &number, word, &count, &letters, &setting, &becomes,
        ],
        comma,
    )
}

/// The next lines, at most as many as go into one call.
fn next(lines: &mut Lines) -> Result<Vec<Vec<u8>>, Failure> {
    let mut queries = Vec::new();
    while queries.len() < MAX_QUERIES {
        match lines.next()? {
            Some(line) => queries.push(line),
            None => break,
        }
    }
    Ok(queries)
}

/// What came of a sheet.
#[derive(Default)]
struct Counts {
    answered: usize,
    refused: usize,
    /// The first query that is refused with each number: its line and what is at fault.
    first: BTreeMap<u32, String>,
}

impl Counts {
    /// Counts one more query.
    fn add(&mut self, desk: &mut Desk, file: &[u8], query: &[u8], answer: &Result<Value, Refusal>) {
        self.answered += 1;
        let Err(refusal) = *answer else {
            return;
        };
        self.refused += 1;
        let line = self.answered;
        self.first.entry(refusal.number()).or_insert_with(|| {
            let look = asked::query(desk, file, query, refusal);
            let look = look.map(|look| format!(": {look}")).unwrap_or_default();
            format!("line {line}, {}: {refusal}{look}", form::shown(query))
        });
    }
}

/// Answers all queries; gives how many there were and how many of them were refused.
fn answer(
    desk: &mut Desk,
    (file, rules): (&Input, &Rules),
    lines: &mut Lines,
    comma: &str,
    sink: &mut Sink,
) -> Result<Counts, Failure> {
    let mut counts = Counts::default();
    sink.write(columns(HEAD, comma).as_bytes())?;
    loop {
        let queries = next(lines)?;
        if queries.is_empty() {
            break;
        }
        let answers = desk.sheet(&file.bytes, &queries.concat());
        let answers = answers.map_err(|refused| Failure(refused.to_string()))?;
        let mut rows = String::new();
        for (query, answer) in queries.iter().zip(&answers) {
            counts.add(desk, &file.bytes, query, answer);
            rows += &row(rules, counts.answered, query, answer, comma);
        }
        sink.write(rows.as_bytes())?;
        progress::tell(format!("{} queries answered", counts.answered));
    }
    Ok(counts)
}

/// Answers a list of queries.
pub fn sheet(given: &Given) -> Outcome {
    if given.word(0) == "-" && given.word(1) == "-" {
        let why = "FILE and QUERIES cannot both be standard input";
        return Err(Failure(why.to_string()));
    }
    for word in [0, 1] {
        turn::require_other(given.word(word), given.value("-o"))?;
    }
    let target = output::target(given)?;
    let mut desk = Desk::new();
    let Some(file) = check::read_accepted(&mut desk, given)? else {
        return Ok(Status::Refused);
    };
    let mut lines = input::lines(given.word(1))?;
    let comma = if given.flag("--semicolon") { ";" } else { "," };
    let mut sink = target.open()?;
    let rules = names::rules(given.word(0), &file.bytes);
    let counts = answer(&mut desk, (&file, &rules), &mut lines, comma, &mut sink)?;
    sink.close()?;
    if counts.refused == 0 {
        return Ok(Status::Done);
    }
    let (refused, answered) = (counts.refused, counts.answered);
    output::say(&format!("{refused} of {answered} queries are refused"));
    for first in counts.first.values() {
        output::say(first);
    }
    output::say("docs/REFUSALS.md says what each number means");
    Ok(Status::Refused)
}
