//! Request 13: isos of 32 to 129 clauses, and lists of as many pairs.

use crate::case::Case;
use crate::grid::Grid;
use crate::tally::{names, Tally};
use apart::areas::Known;
use apart::generate::longer::{Weight, COUNTS, NUMBERS};
use apart::lines::{parse, read, split, Clause, Iso, CLAUSES, PATTERNS, SIDES};
use apart::pair_lists::unjudged;
use apart::{Refusal, Rules};

/// Columns of the tables of clauses and of pairs: how many there are.
const COLUMNS: &[&str] = &["32", "33", "127", "128", "33 to 128", "129"];
pub const WIDE: usize = 4;
pub const OVER: usize = 5;

/// Rows of the table of clauses: 0, and 7 to 14.
fn file_row(number: u8) -> usize {
    usize::from(number.saturating_sub(6))
}

/// Rows of the table of pairs.
pub const WRITTEN: usize = 0;
pub const BAD: usize = 1;
pub const MANY_LINES: usize = 2;
pub const MANY_SIDES: usize = 3;
pub const MANY_PAIRS: usize = 4;

/// Rows and columns of the table of weights.
pub const EVEN: usize = 0;
pub const FORTY: usize = 1;
const ACCEPTED: usize = 0;
const LEFT: usize = 1;
const RIGHT: usize = 2;

/// What was hit.
pub struct Grids {
    pub clauses: Grid,
    pub pairs: Grid,
    pub weights: Grid,
}

impl Default for Grids {
    fn default() -> Grids {
        Grids {
            clauses: clauses(),
            pairs: pairs(),
            weights: weights(),
        }
    }
}

impl Grids {
    pub fn add(&mut self, other: &Grids) {
        self.clauses.add(&other.clauses);
        self.pairs.add(&other.pairs);
        self.weights.add(&other.weights);
    }

    pub fn all(&self) -> [&Grid; 3] {
        [&self.clauses, &self.pairs, &self.weights]
    }
}

fn clauses() -> Grid {
    let mut rows = names(&["accepted", "7 for the 129th"]);
    rows.extend((8..15).map(|number| number.to_string()));
    let needed = |row, column| (row == file_row(7)) == (column == OVER);
    Grid::new("clauses of an iso", rows, COLUMNS, needed)
}

/// Values with over 40 left and right nodes are of types with over 40 values.
fn pairs() -> Grid {
    let rows = names(&[
        "written",
        "20",
        "7 for P lines",
        "7 for left and right nodes",
        "7 for pairs",
    ]);
    let needed = |row, column| match row {
        MANY_PAIRS => column == OVER,
        MANY_SIDES => (2..OVER).contains(&column),
        _ => column != OVER,
    };
    Grid::new("pairs of a list", rows, COLUMNS, needed)
}

/// A right side with a gap and a pattern of 40 left and right nodes is not made.
fn weights() -> Grid {
    let rows = names(&[
        "7 left and right nodes in each",
        "40 left and right nodes in one",
    ]);
    let columns = &["accepted", "13", "14"];
    let needed = |row, column| (row, column) != (FORTY, RIGHT);
    Grid::new("weights of over 32 clauses", rows, columns, needed)
}

/// The cases that every run has.
pub fn cases() -> Vec<Case> {
    let of = |number: u8| COUNTS.map(|count| Case::Longer(number, count));
    let mut cases: Vec<Case> = NUMBERS.into_iter().flat_map(of).collect();
    cases.extend([0, 13, 14].map(|number| Case::Weighed(Weight::Even, number)));
    cases.extend([0, 13].map(|number| Case::Weighed(Weight::Forty, number)));
    cases.repeat(2)
}

/// The columns of a number of clauses or pairs.
fn columns(count: usize) -> Vec<usize> {
    let place = COUNTS.iter().position(|other| *other == count);
    let mut columns: Vec<usize> = place.into_iter().collect();
    if (33..=CLAUSES).contains(&count) {
        columns.push(WIDE);
    }
    if count == CLAUSES + 1 {
        columns.push(OVER);
    }
    columns
}

/// Counts a file by the clauses of its longest iso, or of the one refused.
pub fn count_file(tally: &mut Tally, known: &Known) {
    let (number, clauses) = match &known.checked {
        Ok(rules) => {
            for iso in &rules.isos {
                weigh(tally, iso, 0);
            }
            let longest = rules.isos.iter().map(|iso| iso.clauses.len()).max();
            (0, longest.unwrap_or(0))
        }
        Err(Refusal { number: 7, line }) => (7, clauses_above(known.file, *line)),
        Err(Refusal { number, line }) if (8..15).contains(number) => {
            let Some(iso) = iso_at(known.file, *line) else {
                return;
            };
            weigh(tally, &iso, *number);
            (*number, iso.clauses.len())
        }
        Err(_) => return,
    };
    for column in columns(clauses) {
        if (number == 7) == (column == OVER) {
            tally.longer.clauses.hit(file_row(number), column);
        }
    }
}

/// The clauses of an iso up to a C line; 0 where the line is another one.
fn clauses_above(file: &[u8], line: usize) -> usize {
    let rows: Vec<_> = split(file).into_iter().take(line).map(parse).collect();
    let letter = |place: &usize| rows[*place].map_or(0, |row| row.letter);
    let own = (0..rows.len())
        .rev()
        .take_while(|place| letter(place) != b'I');
    match rows.last() {
        Some(Some(row)) if row.letter == b'C' => own.filter(|place| letter(place) == b'C').count(),
        _ => 0,
    }
}

/// The iso that a line is of.
fn iso_at(file: &[u8], line: usize) -> Option<Iso> {
    let isos = read(file).ok()?.isos;
    isos.into_iter().rev().find(|iso| iso.line <= line)
}

/// Counts what the patterns of an iso weigh, on the left side, or on the one
/// that has a gap.
fn weigh(tally: &mut Tally, iso: &Iso, number: u8) {
    if iso.clauses.len() <= COUNTS[0] {
        return;
    }
    let (column, side): (usize, fn(&Clause) -> usize) = match number {
        0 => (ACCEPTED, |clause| clause.left.sides()),
        13 => (LEFT, |clause| clause.left.sides()),
        14 => (RIGHT, |clause| clause.right.sides()),
        _ => return,
    };
    if iso.clauses.iter().all(|clause| side(clause) >= 7) {
        tally.longer.weights.hit(EVEN, column);
    }
    if iso.clauses.iter().any(|clause| side(clause) == SIDES) {
        tally.longer.weights.hit(FORTY, column);
    }
}

/// Counts an import by the pairs of its list.
pub fn count_list(tally: &mut Tally, rules: &Rules, types: [u32; 2], list: &[u8], number: u32) {
    let columns = columns(split(list).len());
    if columns.is_empty() {
        return;
    }
    let row = match number {
        0 => WRITTEN,
        20 => BAD,
        7 => ceiling(rules, types, list),
        _ => return,
    };
    for column in columns {
        tally.longer.pairs.hit(row, column);
    }
}

/// The ceiling that an import passes.
fn ceiling(rules: &Rules, [from, to]: [u32; 2], list: &[u8]) -> usize {
    let Ok(file) = unjudged(rules, from, to, list) else {
        return MANY_PAIRS;
    };
    let patterns = split(&file).iter().filter(|line| line[0] == b'P').count();
    if patterns > PATTERNS {
        MANY_LINES
    } else {
        MANY_SIDES
    }
}
