//! Settings that show a fault: what is asked, what is hit, and the two ways of
//! the checker written apart held to each other.

use crate::calls::{fit, input, otherwise, short, Calls};
use crate::case::Case;
use crate::grid::Grid;
use crate::service::{Answer, Call, Services};
use crate::settings::{GIVEN, HERE, SHORT, THERE};
use crate::tally::{file_number, names, number_rows, Tally, NUMBERS};
use apart::areas::{Known, RESULT};
use apart::cover::orthogonal;
use apart::generate::random::Random;
use apart::generate::shown::{self, forms};
use apart::lines::{Iso, CLAUSES, LISTS};
use apart::numbering::values;
use apart::tree::{Pattern, Value};
use apart::witness::{refused_iso, written, Shown, Side};
use apart::Refusal;

/// Files of other refusals, or of none, are asked in so many of a hundred cases.
const OTHERS: usize = 40;

/// The first number that is given with a value.
const FIRST: u8 = 11;

/// Rows of the table of witnesses; its columns are the numbers 11 to 14.
pub const BY_FORCE: usize = 0;
const BY_SETS: usize = 1;
const ONE_OF_A_MILLION: usize = 2;
const SEVERAL: usize = 3;
const NOT_FIRST: usize = 4;
const MANY_PAIRS: usize = 5;
const THREE_MATCH: usize = 6;
const NO_CLAUSES: usize = 7;
const ALL_CLAUSES: usize = 8;
const ALL_LETTERS: usize = 9;
const OTHER_TYPE: usize = 10;
const OTHER_SIDE: usize = 11;
const LATER_ISO: usize = 12;
const ANOTHER_ISO: usize = 13;
/// Those of types that hold lists follow.
const OF_LISTS: usize = 14;
const BY_SHORT: usize = 15;
const LETTERS_126: usize = 16;
const LETTERS_127: usize = 17;
const OVER_127: usize = 18;

/// Values of lists of at most so many letters are all tried.
const FEW_LETTERS: usize = 11;

/// What was hit.
pub struct Grids {
    pub numbers: Grid,
    pub kinds: Grid,
}

impl Default for Grids {
    fn default() -> Grids {
        Grids {
            numbers: numbers(),
            kinds: kinds(),
        }
    }
}

impl Grids {
    pub fn add(&mut self, other: &Grids) {
        self.numbers.add(&other.numbers);
        self.kinds.add(&other.kinds);
    }

    pub fn all(&self) -> [&Grid; 2] {
        [&self.numbers, &self.kinds]
    }
}

/// The numbers that a file can be given.
fn numbers() -> Grid {
    let rows = number_rows();
    let needed =
        |number, column| (file_number(number) || number == 24) && (number, column) != (1, SHORT);
    Grid::new("rulefile_witness", rows, GIVEN, needed)
}

/// An iso without clauses is refused with 13. Where the right side is refused,
/// the left one has no fault of that kind; and a to-type of 127 letters has one
/// value, so that it has no gap beside a clause.
fn needed(row: usize, column: usize) -> bool {
    match row {
        MANY_PAIRS | THREE_MATCH => column < 2,
        NO_CLAUSES => column == 2,
        ALL_LETTERS => column != 3,
        OTHER_SIDE => column == 0 || column == 2,
        _ => true,
    }
}

fn kinds() -> Grid {
    let mut rows = names(&[
        "held to brute force",
        "held to sets of patterns alone",
        "1 of over 1,000,000 values",
        "several of the fewest letters",
        "a longer one first in byte order",
        "10 or more pairs overlap",
        "3 or more patterns match it",
        "no clauses",
        "128 clauses",
        "127 letters",
        "types of other trees",
        "another value on the other side",
        "an accepted iso before it",
        "another iso refused behind it",
    ]);
    if LISTS {
        rows.extend(names(&[
            "of a type that holds lists",
            "held to all short values",
            "of lists, 126 letters",
            "of lists, 127 letters",
            "of lists, 128 letters: 24",
        ]));
    }
    let columns = &["11", "12", "13", "14"];
    Grid::new("settings that show a fault", rows, columns, needed)
}

/// The cases that every run has.
pub fn cases() -> Vec<Case> {
    let of = |number: u8| {
        forms(number)
            .into_iter()
            .map(move |form| Case::Shown(form, number))
    };
    let cases: Vec<Case> = (11..15).flat_map(of).collect();
    cases.repeat(4)
}

/// A file of one of these cases.
pub fn file(random: &mut Random, case: Case) -> Vec<u8> {
    let Case::Shown(form, number) = case else {
        unreachable!("one of these cases")
    };
    shown::file(random, form, number)
}

/// Counts what a call is given, on both sides.
pub fn count(tally: &mut Tally, known: &Known, call: Call, ours: &Answer, theirs: &Answer) {
    if call != Call::Witness {
        return;
    }
    let grid = &mut tally.witness.numbers;
    grid.hit(ours.number as usize, HERE);
    if (theirs.number as usize) < NUMBERS {
        grid.hit(theirs.number as usize, THERE);
    }
    if ours.number == 1 {
        grid.hit(otherwise(known, call), SHORT);
    }
}

impl<S: Services> Calls<S> {
    /// The witness of a file, with areas long enough and with a short one.
    pub fn witness(&mut self, random: &mut Random, tally: &mut Tally, known: &Known) {
        let refusal = match &known.checked {
            Err(refusal) if (FIRST..FIRST + 4).contains(&refusal.number) => Some(*refusal),
            _ => None,
        };
        if refusal.is_none() && !random.chance(OTHERS) {
            return;
        }
        let kinds = short(random, Call::Witness);
        self.call(random, tally, known, Call::Witness, kinds);
        let kinds = fit(random);
        let answer = self.call(random, tally, known, Call::Witness, kinds);
        if let Some(refusal) = refusal {
            let letters = self.written(answer.length).to_vec();
            hold(tally, known, refusal, &letters);
        }
    }
}

/// Holds the letters given to both ways, and counts what they are like.
pub fn hold(tally: &mut Tally, known: &Known, refusal: Refusal, letters: &[u8]) {
    let iso = refused_iso(known.file, refusal).expect("the refusal names an iso");
    let side = Side::refused(&iso, refusal.number);
    if side.ty.holds_list() {
        return hold_lists(tally, known, (&side, refusal), letters);
    }
    let shown = side.by_sets();
    if let Some(what) = broken(&side, shown.as_ref(), letters) {
        tally.mismatch(what, input(known.file, Call::Witness));
    }
    let Some(shown) = shown else { return };
    let column = usize::from(refusal.number - FIRST);
    let kinds = &mut tally.witness.kinds;
    let row = [BY_SETS, BY_FORCE][usize::from(side.has_few_values())];
    kinds.hit(row, column);
    for (row, is) in like(&iso, &side, refusal, &shown) {
        if is {
            kinds.hit(row, column);
        }
    }
    let isos = apart::lines::read(known.file).map_or(Vec::new(), |read| read.isos);
    if isos.first().is_some_and(|first| first.line < iso.line) {
        kinds.hit(LATER_ISO, column);
    }
    let bare = |other: &Iso| other.line > iso.line && other.clauses.is_empty();
    if isos.iter().any(bare) {
        kinds.hit(ANOTHER_ISO, column);
    }
}

/// The same of a type that holds lists: by columns, and by all short values where
/// there are few of them.
fn hold_lists(tally: &mut Tally, known: &Known, (side, refusal): (&Side, Refusal), given: &[u8]) {
    let least = side.by_columns().unwrap_or_default();
    let short = least.len() <= FEW_LETTERS && written(side.ty, FEW_LETTERS).len() < 2_000;
    let wanted = if least.len() > RESULT {
        &[]
    } else {
        &least[..]
    };
    let value = Value::read(&least, side.ty).filter(|value| side.shown_by(value));
    let forced = !short || by_short(side).as_ref() == Some(&least);
    if given != wanted || value.is_none() || !forced {
        let [least, given] = [&least[..], given].map(String::from_utf8_lossy);
        let text = format!("{given} shows a fault of lists, by columns {least}");
        tally.mismatch(text, input(known.file, Call::Witness));
    }
    let column = usize::from(refusal.number - FIRST);
    for (row, is) in [
        (OF_LISTS, true),
        (BY_SHORT, short),
        (LETTERS_126, least.len() == 126),
        (LETTERS_127, least.len() == RESULT),
        (OVER_127, least.len() == RESULT + 1),
    ] {
        if is {
            tally.witness.kinds.hit(row, column);
        }
    }
}

/// The least of all short values that show the fault.
fn by_short(side: &Side) -> Option<Vec<u8>> {
    let shows = |letters: &Vec<u8>| {
        let value = Value::read(letters, side.ty);
        value.is_some_and(|value| side.shown_by(&value))
    };
    let shown = written(side.ty, FEW_LETTERS).into_iter().filter(shows);
    shown.min_by_key(|letters| (letters.len(), letters.clone()))
}

/// What a witness and its side are like.
fn like(iso: &Iso, side: &Side, refusal: Refusal, shown: &Shown) -> [(usize, bool); 10] {
    let value = Value::read(&shown.letters, side.ty).expect("a value of the type");
    let matching = |pattern: &&&Pattern| apart::witness::matches(pattern, &value);
    // The right side for 11 and 13; for 12 and 14 the left one has no such fault.
    let other = Side::refused(iso, refusal.number + refusal.number % 2);
    let other = other.least();
    [
        (
            ONE_OF_A_MILLION,
            shown.all == 1 && values(side.ty) > 1_000_000,
        ),
        (SEVERAL, shown.as_short > 1),
        (NOT_FIRST, shown.first != shown.letters),
        (MANY_PAIRS, overlapping(&side.patterns) >= 10),
        (
            THREE_MATCH,
            side.patterns.iter().filter(matching).count() >= 3,
        ),
        (NO_CLAUSES, iso.clauses.is_empty()),
        (ALL_CLAUSES, iso.clauses.len() == CLAUSES),
        (ALL_LETTERS, shown.letters.len() == RESULT),
        (OTHER_TYPE, iso.from != iso.to),
        (
            OTHER_SIDE,
            other.is_some_and(|letters| letters != shown.letters),
        ),
    ]
}

/// How many pairs of patterns are not orthogonal.
fn overlapping(patterns: &[&Pattern]) -> usize {
    let with = |(place, one): (usize, &&Pattern)| {
        let before = patterns[..place].iter();
        before.filter(|two| !orthogonal(one, two)).count()
    };
    patterns.iter().enumerate().map(with).sum()
}

/// How letters break what the request asks: they are those that sets of patterns
/// give, of a type with few values those that brute force gives, and as a value
/// they show the fault.
pub fn broken(side: &Side, shown: Option<&Shown>, letters: &[u8]) -> Option<String> {
    let text = String::from_utf8_lossy(letters);
    let value = Value::read(letters, side.ty);
    if !value.is_some_and(|value| side.shown_by(&value)) {
        return Some(format!("{text} does not show the fault"));
    }
    if shown.is_none_or(|shown| shown.letters != letters) {
        return Some(format!("{text}, by sets of patterns {shown:?}"));
    }
    let force = side.has_few_values().then(|| side.by_force());
    if force
        .as_ref()
        .is_some_and(|force| force.as_deref() != Some(letters))
    {
        return Some(format!("{text}, by brute force {force:?}"));
    }
    None
}
