//! What sheets hit, and their queries against runs of their own.

use crate::calls::{fit, short, Calls};
use crate::grid::Grid;
use crate::service::{ask, Answer, Call, Services};
use crate::tally::{names, Tally, IN_SHEET, SHEET};
use apart::areas::{Known, RESULT};
use apart::desk::query as parsed;
use apart::generate::random::Random;
use apart::lines::split;
use apart::sheet::{NUMBERS, QUERIES};

/// Rows of the table of sheets. The last three are of answered sheets alone.
const FULL: usize = 0;
const OVER: usize = 1;
const EMPTY: usize = 2;
const CUT: usize = 3;
const LINE_OF_200: usize = 4;
const LINE_OVER_200: usize = 5;
const BYTE_0: usize = 6;
const BYTE_255: usize = 7;
const BETWEEN: usize = 8;
const LONGEST: usize = 9;
const ALONE: usize = 10;

/// Columns of the table of sheets.
const ANSWERED: usize = 0;
const REFUSED: usize = 1;
const SHORT: usize = 2;

/// So many queries of a sheet are run alone too.
const RUNS: usize = 8;

/// More than 600 queries are never answered.
fn needed(row: usize, column: usize) -> bool {
    match row {
        OVER => column != ANSWERED,
        BETWEEN | LONGEST | ALONE => column == ANSWERED,
        _ => true,
    }
}

pub fn grid() -> Grid {
    let rows = names(&[
        "600 queries",
        "601 queries",
        "empty list",
        "no line feed at the end",
        "line of 200 bytes",
        "line over 200 bytes",
        "byte 0",
        "byte 255",
        "refused between two good ones",
        "127 letters",
        "query run alone",
    ]);
    Grid::new("sheet", rows, &["answered", "refused", "if short"], needed)
}

/// Counts what a sheet is like, and what its queries are given.
pub fn count(tally: &mut Tally, list: &[u8], number: u32, numbers: &[u32]) {
    let column = match number {
        0 => ANSWERED,
        1 => SHORT,
        _ => REFUSED,
    };
    for (row, is) in likeness(list) {
        if is {
            tally.sheets.hit(row, column);
        }
    }
    let threes: Vec<&[u32]> = numbers.chunks(NUMBERS).collect();
    tally.in_sheets += threes.len();
    for three in &threes {
        tally.numbers.hit(three[0] as usize, IN_SHEET);
        tally.count(three[1].into(), SHEET);
        if three[2] as usize == RESULT {
            tally.sheets.hit(LONGEST, ANSWERED);
        }
    }
    let between = |near: &[&[u32]]| near[0][0] == 0 && near[1][0] != 0 && near[2][0] == 0;
    if threes.windows(3).any(between) {
        tally.sheets.hit(BETWEEN, ANSWERED);
    }
}

/// The rows of a list, each with whether it is so.
fn likeness(list: &[u8]) -> [(usize, bool); 8] {
    let lines = split(list);
    let last = list.last();
    [
        (FULL, lines.len() == QUERIES),
        (OVER, lines.len() == QUERIES + 1),
        (EMPTY, list.is_empty()),
        (CUT, last.is_some_and(|byte| *byte != b'\n')),
        (LINE_OF_200, lines.iter().any(|line| line.len() == 200)),
        (LINE_OVER_200, lines.iter().any(|line| line.len() > 200)),
        (BYTE_0, list.contains(&0)),
        (BYTE_255, list.contains(&255)),
    ]
}

/// What a sheet has been given for its queries.
#[derive(Debug, Clone, PartialEq, Eq)]
pub struct Given {
    pub numbers: Vec<u32>,
    pub letters: Vec<u8>,
}

impl Given {
    /// How a query of the sheet differs from a run of its own.
    pub fn difference(&self, query: usize, alone: &Answer, written: &[u8]) -> Option<String> {
        let (three, place) = (NUMBERS * query, RESULT * query);
        let numbers = self.numbers.get(three..three + NUMBERS);
        let letters = self.letters.get(place..place + RESULT);
        let wanted = [alone.number.into(), alone.count, alone.length as u64];
        let given = numbers.unwrap_or_default().iter().copied().map(u64::from);
        if given.eq(wanted) && letters.is_some_and(|letters| letters.starts_with(written)) {
            return None;
        }
        let show = |letters| String::from_utf8_lossy(letters);
        let begin = letters.and_then(|letters| letters.get(..written.len()));
        Some(format!(
            "query {query}: in the sheet {numbers:?} and {}, alone {wanted:?} and {}",
            show(begin.unwrap_or_default()),
            show(written)
        ))
    }
}

impl<S: Services> Calls<S> {
    /// A sheet with a short area and with areas long enough, and its first
    /// queries alone.
    pub fn sheet(&mut self, random: &mut Random, tally: &mut Tally, known: &Known, list: &[u8]) {
        let call = Call::Sheet(list);
        let kinds = short(random, call);
        self.call(random, tally, known, call, kinds);
        let kinds = fit(random);
        let answer = self.call(random, tally, known, call, kinds);
        if answer.number == 0 {
            let given = self.given();
            self.alone(random, tally, known, list, &given);
        }
    }

    /// The first queries of a sheet, each in a run of its own.
    fn alone(
        &mut self,
        random: &mut Random,
        tally: &mut Tally,
        known: &Known,
        list: &[u8],
        given: &Given,
    ) {
        for (place, line) in split(list).into_iter().take(RUNS).enumerate() {
            let Some(query) = parsed(line) else { continue };
            let kinds = fit(random);
            let call = Call::Run(ask(query));
            let answer = self.call(random, tally, known, call, kinds);
            let written = self.written(answer.length);
            if let Some(what) = given.difference(place, &answer, written) {
                tally.mismatch(what, [known.file, list].concat());
            }
            tally.sheets.hit(ALONE, ANSWERED);
        }
    }
}
