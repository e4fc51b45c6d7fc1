//! Request 06: which files and queries have carriage returns and where, and the
//! same bytes with other endings, which are to be answered alike.

use crate::areas::Kind;
use crate::block::Block;
use crate::calls::fit;
use crate::desk::{difference, Program};
use crate::grid::Grid;
use crate::service::{Answer, Call, Services};
use crate::sheets::Given;
use crate::tally::{names, Tally, LIBRARY, OTHER_ENDINGS, RULES, SHEET};
use apart::areas::{Known, RESULT};
use apart::desk::parts;
use apart::generate::ending::{is_across, resaved};
use apart::generate::random::Random;
use apart::lines::{split, text, BYTES};
use apart::sheet::{NUMBERS, QUERIES};
use std::io;

/// Rows of the table of files.
const ALL: usize = 0;
const SOME: usize = 1;
const FIRST: usize = 2;
const INSIDE: usize = 3;
const TWICE: usize = 4;
const LAST: usize = 5;
const AT_BYTES: usize = 6;
const OVER_BYTES: usize = 7;
const ACROSS: usize = 8;

/// Columns of the table of files.
const ACCEPTED: usize = 0;
const REFUSED: usize = 1;

/// A carriage return that is no part of an ending is never accepted. No
/// accepted file has 65,536 bytes.
fn file_needed(row: usize, column: usize) -> bool {
    match row {
        ALL | SOME => true,
        ACROSS => column == ACCEPTED,
        _ => column == REFUSED,
    }
}

pub fn file_grid() -> Grid {
    let rows = names(&[
        "in all endings",
        "in some endings",
        "first in a line",
        "inside a line",
        "two before a line feed",
        "last, without a line feed",
        "within 65,536 bytes",
        "within 65,537 bytes",
        "a chunk ends in an ending",
    ]);
    Grid::new(
        "file's carriage returns",
        rows,
        &["accepted", "refused"],
        file_needed,
    )
}

/// Counts where a file has carriage returns.
pub fn count_file(tally: &mut Tally, known: &Known) {
    let column = if known.checked.is_ok() {
        ACCEPTED
    } else {
        REFUSED
    };
    let lines = split(known.file);
    let both = lines.iter().filter(|line| line.ends_with(b"\r\n")).count();
    let length = |length| both > 0 && known.file.len() == length;
    let texts: Vec<&[u8]> = lines.iter().filter_map(|line| text(line)).collect();
    let any = |is: fn(&[u8]) -> bool| texts.iter().any(|text| is(text));
    let is = [
        (ALL, both > 0 && both == lines.len()),
        (SOME, both > 0 && both < lines.len()),
        (FIRST, any(|text| text.starts_with(b"\r"))),
        (INSIDE, any(|text| inner(text).contains(&b'\r'))),
        (TWICE, any(|text| text.ends_with(b"\r"))),
        (LAST, known.file.ends_with(b"\r")),
        (AT_BYTES, length(BYTES)),
        (OVER_BYTES, length(BYTES + 1)),
        (ACROSS, is_across(known.file, 0, known.file.len())),
    ];
    for (row, is) in is {
        if is {
            tally.returns.hit(row, column);
        }
    }
}

/// All but the first and the last byte.
fn inner(text: &[u8]) -> &[u8] {
    text.get(1..text.len().saturating_sub(1))
        .unwrap_or_default()
}

/// Rows of the table of queries.
const BOTH: usize = 0;
const IN_FIELDS: usize = 1;
const IN_LETTERS: usize = 2;
const TWO: usize = 3;
const NO_FEED: usize = 4;
const OF_200: usize = 5;
const OF_201: usize = 6;
const BORDER: usize = 7;

/// Columns of the table of queries.
const ASKED: usize = 0;
const IN_LIST: usize = 1;

/// A sheet is not read in chunks.
fn query_needed(row: usize, column: usize) -> bool {
    row != BORDER || column == ASKED
}

pub fn query_grid() -> Grid {
    let rows = names(&[
        "in the ending",
        "before the letters",
        "among the letters",
        "two before the line feed",
        "last, without a line feed",
        "200 bytes with both",
        "201 bytes with both",
        "a chunk ends in the ending",
    ]);
    Grid::new(
        "query's carriage returns",
        rows,
        &["rules", "sheet"],
        query_needed,
    )
}

/// Counts where the queries that are answered, by the desk program and in a
/// sheet, have carriage returns.
pub fn count_queries(tally: &mut Tally, known: &Known, input: &[u8], list: &[u8]) {
    let (file, queries) = parts(input);
    if known.checked.is_err() || file != known.file {
        return;
    }
    if is_across(input, file.len(), input.len()) {
        tally.query_returns.hit(BORDER, ASKED);
    }
    for line in split(queries) {
        count_query(tally, line, ASKED);
    }
    let lines = split(list);
    if lines.len() <= QUERIES {
        for line in lines {
            count_query(tally, line, IN_LIST);
        }
    }
}

fn count_query(tally: &mut Tally, line: &[u8], column: usize) {
    if !line.contains(&b'\r') {
        return;
    }
    let both = line.ends_with(b"\r\n");
    let text = text(line).unwrap_or_default();
    let fields: Vec<&[u8]> = text.splitn(5, |byte| *byte == b',').collect();
    let letters = fields.get(4).copied().unwrap_or_default();
    let before = &text[..text.len() - letters.len()];
    let is = [
        (BOTH, both),
        (IN_FIELDS, before.contains(&b'\r')),
        (IN_LETTERS, letters.contains(&b'\r')),
        (TWO, text.ends_with(b"\r")),
        (NO_FEED, line.ends_with(b"\r")),
        (OF_200, both && line.len() == 200),
        (OF_201, both && line.len() == 201),
    ];
    for (row, is) in is {
        if is {
            tally.query_returns.hit(row, column);
        }
    }
}

/// Whether of each two lines both have more than 200 bytes or neither.
fn as_long(first: &[u8], second: &[u8]) -> bool {
    let over = |lines: &[u8]| -> Vec<bool> {
        let lines = split(lines).into_iter();
        lines.map(|line| line.len() > 200).collect()
    };
    over(first) == over(second)
}

impl<P: Program, S: Services> Block<P, S> {
    /// The same file, sheet and input with other endings, where none becomes too
    /// long by them, are answered as the first ones.
    pub fn other_endings(
        &mut self,
        random: &mut Random,
        known: &Known,
        input: &[u8],
        list: &[u8],
    ) -> io::Result<()> {
        let file = resaved(random, known.file);
        if known.file.len().max(file.len()) <= BYTES {
            let other = Known::of(&file);
            self.services_alike(random, known, &other);
            let others = resaved(random, list);
            if as_long(list, &others) {
                self.sheets_alike(random, [(known, list), (&other, &others)]);
            }
        }
        let other = resaved(random, input);
        let (first, second) = (parts(input), parts(&other));
        if first.0.len().max(second.0.len()) <= BYTES && as_long(first.1, second.1) {
            let printed = self.program.printed(input)?;
            let others = self.program.printed(&other)?;
            if let Some(what) = difference(&printed, &others) {
                let text = format!("with other endings, {what}");
                self.tally.mismatch(text, other);
            }
            self.tally.laws.hit(OTHER_ENDINGS, RULES);
        }
        Ok(())
    }

    /// Check and Turn, each area of the second call exactly as long as stated.
    fn services_alike(&mut self, random: &mut Random, known: &Known, other: &Known) {
        for call in [Call::Check, Call::Turn] {
            let mut given: Vec<(Answer, Vec<u8>)> = Vec::new();
            for (known, kinds) in [(known, fit(random)), (other, [Kind::Exact; 4])] {
                let answer = self.calls.call(random, &mut self.tally, known, call, kinds);
                let written = self.calls.written(answer.length).to_vec();
                given.push((answer, written));
            }
            if given[0] != given[1] {
                let text = format!(
                    "{call:?} with other endings: {:?}, {:?}",
                    given[0].0, given[1].0
                );
                self.tally.mismatch(text, other.file.to_vec());
            }
        }
        self.tally.laws.hit(OTHER_ENDINGS, LIBRARY);
    }

    fn sheets_alike(&mut self, random: &mut Random, sheets: [(&Known, &[u8]); 2]) {
        let mut answers = Vec::new();
        for (known, list) in sheets {
            let kinds = fit(random);
            let call = Call::Sheet(list);
            let answer = self.calls.call(random, &mut self.tally, known, call, kinds);
            answers.push((answer, answered(&self.calls.given(), answer.queries)));
        }
        if answers[0] != answers[1] {
            let text = "a sheet with other endings is answered otherwise".to_string();
            let (known, list) = sheets[1];
            self.tally.mismatch(text, [known.file, list].concat());
        }
        self.tally.laws.hit(OTHER_ENDINGS, SHEET);
    }
}

/// The three numbers and the letters of each query that was answered.
pub fn answered(given: &Given, queries: usize) -> Vec<(Vec<u32>, Vec<u8>)> {
    let numbers = given.numbers.chunks(NUMBERS);
    let letters = given.letters.chunks(RESULT);
    let answer = |(numbers, letters): (&[u32], &[u8])| {
        let length = numbers.get(2).map_or(0, |length| *length as usize);
        let letters = letters[..length.min(letters.len())].to_vec();
        (numbers.to_vec(), letters)
    };
    numbers.zip(letters).take(queries).map(answer).collect()
}
