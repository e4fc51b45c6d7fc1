//! Steps known beforehand: what is asked, what is hit, and the bounds held to
//! real runs.

use crate::calls::{fit, input, otherwise, short, Calls};
use crate::case::Case;
use crate::grid::Grid;
use crate::service::{Answer, Ask, Call, Services};
use crate::settings::{GIVEN, HERE, SHORT, THERE};
use crate::tally::{file_number, names, number_rows, Tally, NUMBERS};
use apart::areas::Known;
use apart::bounds::{exact, Exact, LIMIT};
use apart::generate::bounded::{self, DEEP, NEEDS, TOP};
use apart::generate::query::sample;
use apart::generate::random::Random;
use apart::generate::tower::LONG_ISOS;
use apart::lines::LISTS;
use apart::Rules;

/// Columns of the table of bounds.
pub const LEAST: usize = 0;
pub const GREATEST: usize = 1;

/// Rows of the table of bounds; those of `NEEDS` follow.
pub const NOT_FLAGGED: usize = 0;
pub const FLAGGED: usize = 1;
pub const REACHED: usize = 2;
pub const NOT_REACHED: usize = 3;
const ALL_DEEP: usize = 4;
const FIRST_NEED: usize = 5;

/// Columns of the table of runs are forward and back; rows below.
pub const AT_GREATEST: usize = 0;
pub const BELOW_LEAST: usize = 1;
pub const ALL_SPENT: usize = 2;
pub const NO_LETS: usize = 3;

/// Rows of the table of isos.
const TOP_ISO: usize = 0;
const FIRST_ABSENT: usize = 1;
const ABOVE_65535: usize = 2;
const APART: usize = 3;
pub const TURNED_ALIKE: usize = 4;

/// What was hit.
pub struct Grids {
    pub numbers: Grid,
    pub kinds: Grid,
    pub runs: Grid,
    pub isos: Grid,
}

impl Default for Grids {
    fn default() -> Grids {
        Grids {
            numbers: numbers(),
            kinds: kinds(),
            runs: runs(),
            isos: isos(),
        }
    }
}

impl Grids {
    pub fn add(&mut self, other: &Grids) {
        self.numbers.add(&other.numbers);
        self.kinds.add(&other.kinds);
        self.runs.add(&other.runs);
        self.isos.add(&other.isos);
    }

    pub fn all(&self) -> [&Grid; 4] {
        [&self.numbers, &self.kinds, &self.runs, &self.isos]
    }
}

/// The numbers that a file can be given, and 15; 18 for lists.
fn numbers() -> Grid {
    let rows = number_rows();
    let needed = |number, column| {
        let given = file_number(number) || number == 15 || LISTS && number == 18;
        given && (number, column) != (1, SHORT)
    };
    Grid::new("rulefile_bounds", rows, GIVEN, needed)
}

fn kinds() -> Grid {
    let mut rows = names(&[
        "not flagged",
        "flagged",
        "reached by a run",
        "not reached by a run",
        "32 deep, 8 let steps each",
    ]);
    rows.extend(NEEDS.map(|(number, _)| format!("{number}")));
    Grid::new("bounds", rows, &["least", "greatest"], |_, _| true)
}

fn runs() -> Grid {
    let rows = names(&[
        "budget at the greatest",
        "budget below the least: 17",
        "least flagged: 17",
        "no let steps: both reached",
    ]);
    let columns = &["forward", "back"];
    Grid::new("runs under bounds", rows, columns, |_, _| true)
}

fn isos() -> Grid {
    let rows = names(&[
        "iso 31",
        "first absent iso",
        "iso above 65,535",
        "least below greatest",
        "turned file alike",
    ]);
    Grid::new("isos with bounds", rows, &["calls"], |_, _| true)
}

/// The cases that every run has: each number around the limit, as greatest
/// alone and as both, and calls nested to the last iso.
pub fn cases() -> Vec<Case> {
    let limits = (0..NEEDS.len()).flat_map(|place| [true, false].map(|both| (place, both)));
    let limits = limits.map(|(place, both)| Case::Bounded(place, both));
    let mut cases: Vec<Case> = limits.collect();
    cases.push(Case::Deep);
    cases.repeat(3)
}

/// An accepted file of one of these cases.
pub fn file(random: &mut Random, case: Case) -> Vec<u8> {
    match case {
        Case::Bounded(place, both) => bounded::file(random, place, both),
        _ => bounded::deep(random),
    }
}

/// What the last iso of a case's file needs, by hand.
fn promised(case: Case) -> Option<Exact> {
    let (least, greatest) = match case {
        Case::Bounded(place, true) => (NEEDS[place].0, NEEDS[place].0),
        Case::Bounded(place, false) => (1, NEEDS[place].0),
        Case::Deep => (DEEP, DEEP),
        _ => return None,
    };
    Some(Exact { least, greatest })
}

/// Counts what a call is given, on both sides, and what it is like.
pub fn count(tally: &mut Tally, known: &Known, call: Call, ours: &Answer, theirs: &Answer) {
    let Call::Bounds(iso) = call else { return };
    let grids = &mut tally.bounds;
    grids.numbers.hit(ours.number as usize, HERE);
    if (theirs.number as usize) < NUMBERS {
        grids.numbers.hit(theirs.number as usize, THERE);
    }
    if ours.number == 1 {
        grids.numbers.hit(otherwise(known, call), SHORT);
    }
    let Ok(rules) = &known.checked else { return };
    let absent = ours.number == 15;
    for (row, is) in [
        (TOP_ISO, ours.number == 0 && iso == TOP),
        (FIRST_ABSENT, absent && iso as usize == rules.isos.len()),
        (ABOVE_65535, absent && iso > 65_535),
    ] {
        if is {
            grids.isos.hit(row, 0);
        }
    }
    if ours.number == 0 {
        count_kinds(grids, exact(&rules.isos)[iso as usize]);
    }
}

/// Counts the numbers of an iso as they are reckoned.
fn count_kinds(grids: &mut Grids, Exact { least, greatest }: Exact) {
    for (column, number) in [(LEAST, least), (GREATEST, greatest)] {
        let over = usize::from(number > LIMIT);
        grids.kinds.hit([NOT_FLAGGED, FLAGGED][over], column);
        if number == DEEP {
            grids.kinds.hit(ALL_DEEP, column);
        }
        if let Some(place) = NEEDS.iter().position(|(needs, _)| *needs == number) {
            grids.kinds.hit(FIRST_NEED + place, column);
        }
    }
    if least < greatest {
        grids.isos.hit(APART, 0);
    }
}

/// An iso that may be far above all.
pub fn any_iso(random: &mut Random, known: &Known) -> u32 {
    let isos = known.checked.as_ref().map_or(1, |rules| rules.isos.len()) as u32;
    let near = random.below(isos as usize + 1) as u32;
    let above = [near + 256, near + 65_536, near + (1 << 31), u32::MAX];
    match random.below(10) {
        0..=5 => near,
        6 => isos,
        _ => *random.pick(&above),
    }
}

/// An iso whose bounds are held to runs, and the highest greatest with which
/// they are made.
fn route(random: &mut Random, case: Case, rules: &Rules) -> (u32, u32) {
    match case {
        Case::Long => (*random.pick(&LONG_ISOS[..3]) as u32, 70_000),
        Case::Bounded(..) | Case::Deep if random.chance(50) => (TOP, 3_000),
        _ => (random.below(rules.isos.len()) as u32, 3_000),
    }
}

impl<S: Services> Calls<S> {
    /// Bounds of a file: of any iso, with a short area and with areas long
    /// enough, of the iso that the case is made for, and of one held to runs.
    pub fn bounds(&mut self, random: &mut Random, tally: &mut Tally, case: Case, known: &Known) {
        let call = Call::Bounds(any_iso(random, known));
        let kinds = short(random, call);
        self.call(random, tally, known, call, kinds);
        self.told(random, tally, known, call);
        let Ok(rules) = &known.checked else { return };
        if let Some(wanted) = promised(case) {
            let told = self.told(random, tally, known, Call::Bounds(TOP));
            if told != as_told(wanted) {
                let text = format!("{wanted:?} is told as {told:?}");
                tally.mismatch(text, input(known.file, Call::Bounds(TOP)));
            }
        }
        if !rules.isos.is_empty() {
            let (iso, longest) = route(random, case, rules);
            let told = self.told(random, tally, known, Call::Bounds(iso));
            let held = usize::from(told.number == 0) * 2;
            for back in [false, true].into_iter().take(held) {
                self.run_under(random, tally, known, (iso, back, longest), &told);
            }
        }
    }

    /// The answer of the services, with areas long enough.
    fn told(
        &mut self,
        random: &mut Random,
        tally: &mut Tally,
        known: &Known,
        call: Call,
    ) -> Answer {
        let kinds = fit(random);
        self.call(random, tally, known, call, kinds)
    }

    /// The bounds of the turned file are the same.
    pub fn turned_alike(
        &mut self,
        random: &mut Random,
        tally: &mut Tally,
        known: &Known,
        turned: &Known,
    ) {
        let call = Call::Bounds(any_iso(random, known));
        let told = self.told(random, tally, known, call);
        let other = self.told(random, tally, turned, call);
        if told != other {
            let text = format!("{told:?}, but for the turned file {other:?}");
            tally.mismatch(text, input(known.file, call));
        }
        tally.bounds.isos.hit(TURNED_ALIKE, 0);
    }

    /// Runs of an iso, on any value: under the greatest, if that is not too
    /// long, and under less than the least.
    fn run_under(
        &mut self,
        random: &mut Random,
        tally: &mut Tally,
        known: &Known,
        (iso, back, longest): (u32, bool, u32),
        told: &Answer,
    ) {
        let Ok(rules) = &known.checked else { return };
        let isos = if back { &rules.turned } else { &rules.isos };
        let mut letters = Vec::new();
        sample(random, &isos[iso as usize].from, &mut letters);
        let mut budgets = vec![told.least.saturating_sub(1).min(3_000)];
        if !told.greatest_over && told.greatest <= longest {
            budgets.push(told.greatest);
        }
        for budget in budgets {
            let ask = Ask {
                iso,
                back,
                budget,
                letters: &letters,
            };
            let call = Call::Run(ask);
            let ran = self.told(random, tally, known, call);
            if let Some(what) = broken(told, budget, &ran) {
                tally.mismatch(what, input(known.file, call));
            }
            let lets = isos[iso as usize].clauses.iter();
            let flat = lets.clone().all(|clause| clause.lets.is_empty());
            count_run(&mut tally.bounds, told, flat, back, &ran);
        }
    }
}

/// "Both stop at 4,294,967,295, and a flag for each says when the number so
/// reckoned is above that."
fn as_told(Exact { least, greatest }: Exact) -> Answer {
    Answer {
        least: least.min(LIMIT) as u32,
        greatest: greatest.min(LIMIT) as u32,
        least_over: least > LIMIT,
        greatest_over: greatest > LIMIT,
        ..Answer::default()
    }
}

/// Counts a run that was held to the bounds.
fn count_run(grids: &mut Grids, told: &Answer, flat: bool, back: bool, ran: &Answer) {
    let column = usize::from(back);
    if ran.number == 17 {
        let row = [BELOW_LEAST, ALL_SPENT][usize::from(told.least_over)];
        grids.runs.hit(row, column);
        return;
    }
    grids.runs.hit(AT_GREATEST, column);
    for (side, bound) in [(LEAST, told.least), (GREATEST, told.greatest)] {
        let reached = ran.count == u64::from(bound);
        let row = [NOT_REACHED, REACHED][usize::from(reached)];
        grids.kinds.hit(row, side);
    }
    if flat {
        grids.runs.hit(NO_LETS, column);
    }
}

/// How a run breaks what the bounds promise: "No count of an unrefused run may
/// lie outside, and a budget that reaches an unflagged greatest is never
/// refused 17"; so a budget below the least is.
pub fn broken(told: &Answer, budget: u32, ran: &Answer) -> Option<String> {
    let reaches = !told.greatest_over && told.greatest <= budget;
    let below = told.least_over || budget < told.least;
    let inside = u64::from(told.least) <= ran.count
        && (told.greatest_over || ran.count <= u64::from(told.greatest));
    let right = match ran.number {
        0 => inside && !below,
        17 => !reaches,
        _ => false,
    };
    let text = || format!("{told:?}, but a run under {budget} gives {ran:?}");
    (!right).then(text)
}
