//! What was compared, what was hit, and what differed.

use crate::bounds;
use crate::endings;
use crate::grid::Grid;
use crate::idle;
use crate::longer;
use crate::overlaps;
use crate::pair_lists;
use crate::play;
use crate::settings;
use crate::sheets;
use crate::shuffle;
use crate::sizes;
use crate::variables;
use crate::witness;
use crate::zoned;
use apart::generate::ceiling::CEILINGS;
use apart::generate::pair;
use apart::lines::LISTS;

/// How many mismatches are shown.
const SHOWN: usize = 5;

/// Columns of the table of numbers: `BY_SHEET` counts the answers of sheets,
/// `IN_SHEET` those of their queries, the last one the calls with a short area
/// that would have given the number otherwise.
pub const FILE: usize = 0;
pub const QUERY: usize = 1;
pub const CHECK: usize = 2;
pub const TURN: usize = 3;
pub const RUN: usize = 4;
pub const BY_SHEET: usize = 5;
pub const IN_SHEET: usize = 6;
pub const SHORT: usize = 7;

/// Columns of the table of laws; rows below.
pub const RULES: usize = 0;
pub const LIBRARY: usize = 1;
pub const SHEET: usize = 2;

pub const TURNED_ACCEPTED: usize = 0;
pub const TURNED_TWICE: usize = 1;
pub const THERE_AND_BACK: usize = 2;
pub const COUNT_ABOVE_3000: usize = 3;
pub const COUNT_ABOVE_65535: usize = 4;
pub const ISO_ABOVE_65535: usize = 5;
pub const OTHER_ENDINGS: usize = 6;

/// Rows of the table of ceilings behind those of `CEILINGS`.
pub const BYTES: usize = CEILINGS.len();
pub const LETTERS: usize = BYTES + 1;

/// One mismatch: what differs, and the input in the form of the desk program.
#[derive(Debug, Clone)]
pub struct Report {
    pub text: String,
    pub input: Vec<u8>,
}

pub struct Tally {
    /// The case that is compared, by its number.
    pub case: usize,
    pub files: usize,
    pub turned: usize,
    pub queries: usize,
    pub calls: usize,
    /// Queries answered in sheets.
    pub in_sheets: usize,
    pub mismatches: usize,
    pub reports: Vec<Report>,
    pub numbers: Grid,
    pub areas: Grid,
    pub budgets: Grid,
    pub laws: Grid,
    pub settings: settings::Grids,
    pub overlaps: overlaps::Grids,
    pub bounds: bounds::Grids,
    pub witness: witness::Grids,
    pub pair_lists: pair_lists::Grids,
    pub plays: play::Grids,
    pub idle: idle::Grids,
    pub longer: longer::Grids,
    pub zoned: zoned::Grids,
    pub sizes: Grid,
    pub ceilings: Grid,
    pub sheets: Grid,
    pub variables: Grid,
    pub returns: Grid,
    pub query_returns: Grid,
    pub shuffled: Grid,
    /// How often each pair of faults was hit.
    pub pairs: Vec<usize>,
}

pub fn names(names: &[&str]) -> Vec<String> {
    names.iter().map(|name| name.to_string()).collect()
}

/// The numbers up to 21; with the lines of request 14 up to 24.
pub const NUMBERS: usize = if LISTS { 25 } else { 22 };

/// Their rows.
pub fn number_rows() -> Vec<String> {
    (0..NUMBERS).map(|number| number.to_string()).collect()
}

/// Whether Check can give the number: up to 14, 21 and 23.
pub fn file_number(number: usize) -> bool {
    number < 15 || number == 21 || number == 23
}

/// Refusal 1 is given through the library alone; 15 to 17 and 24 to queries and
/// runs; a query of another form is refused with 3, in a sheet too.
fn number_needed(number: usize, column: usize) -> bool {
    match column {
        _ if matches!(number, 18..=20 | 22) => false,
        FILE => number != 1 && file_number(number),
        QUERY | IN_SHEET => matches!(number, 0 | 3 | 15..=17 | 24),
        CHECK | TURN | BY_SHEET => file_number(number),
        RUN => true,
        _ => number != 1,
    }
}

/// Turning is not to be had from `rules`, nor is an iso of more than 16 bits.
/// Of the laws only that of other endings is tried with sheets.
fn law_needed(law: usize, column: usize) -> bool {
    match column {
        RULES => !matches!(law, TURNED_TWICE | ISO_ABOVE_65535),
        SHEET => matches!(law, COUNT_ABOVE_3000 | COUNT_ABOVE_65535 | OTHER_ENDINGS),
        _ => true,
    }
}

/// A value of more than 127 letters is of no type without lists.
fn ceiling_needed(ceiling: usize, column: usize) -> bool {
    ceiling != LETTERS || column == 0 || LISTS
}

fn numbers() -> Grid {
    let rows = number_rows();
    let columns = &[
        "files", "queries", "check", "turn", "run", "sheet", "in sheet", "if short",
    ];
    Grid::new("number", rows, columns, number_needed)
}

/// The first of the rows of a play in the table of areas.
pub const PLAY_AREAS: usize = 26;

/// Of two unit areas the shorter one is short, and neither is longer.
fn area_needed(area: usize, column: usize) -> bool {
    area < PLAY_AREAS + 2 || column != 1
}

fn areas() -> Grid {
    let rows = names(&[
        "table",
        "work",
        "output",
        "result",
        "table of a sheet",
        "work of a sheet",
        "letters",
        "numbers",
        "table of number_of",
        "work of number_of",
        "table of setting_of",
        "work of setting_of",
        "result of setting_of",
        "table of overlap",
        "work of overlap",
        "table of bounds",
        "work of bounds",
        "table of witness",
        "work of witness",
        "result of witness",
        "table of export",
        "work of export",
        "output of export",
        "table of import",
        "work of import",
        "output of import",
        "table of a play",
        "work of a play",
        "types of a play",
        "settings of a play",
    ]);
    let columns = &["exact", "longer", "one short", "fewer", "empty"];
    Grid::new("area", rows, columns, area_needed)
}

fn budgets() -> Grid {
    let rows = names(&[
        "forward",
        "back",
        "forward, turned file",
        "back, turned file",
    ]);
    let columns = &["below", "at", "above", "below lib", "at lib", "above lib"];
    Grid::new("budget against count", rows, columns, |_, _| true)
}

fn laws() -> Grid {
    let rows = names(&[
        "turned file accepted",
        "turned twice",
        "there and back",
        "count above 3,000",
        "count above 65,535",
        "iso above 65,535",
        "same with other endings",
    ]);
    let columns = &["rules", "library", "in sheet"];
    Grid::new("law or range", rows, columns, law_needed)
}

fn ceilings() -> Grid {
    let mut rows: Vec<String> = CEILINGS.iter().map(|name| format!("{name:?}")).collect();
    rows.extend(names(&["Bytes", "Letters"]));
    Grid::new("ceiling", rows, &["at", "over"], ceiling_needed)
}

impl Default for Tally {
    fn default() -> Tally {
        Tally {
            case: 0,
            files: 0,
            turned: 0,
            queries: 0,
            calls: 0,
            in_sheets: 0,
            mismatches: 0,
            reports: Vec::new(),
            numbers: numbers(),
            areas: areas(),
            budgets: budgets(),
            laws: laws(),
            settings: settings::Grids::default(),
            overlaps: overlaps::Grids::default(),
            bounds: bounds::Grids::default(),
            witness: witness::Grids::default(),
            pair_lists: pair_lists::Grids::default(),
            plays: play::Grids::default(),
            idle: idle::Grids::default(),
            longer: longer::Grids::default(),
            zoned: zoned::Grids::default(),
            sizes: sizes::grid(),
            ceilings: ceilings(),
            sheets: sheets::grid(),
            variables: variables::grid(),
            returns: endings::file_grid(),
            query_returns: endings::query_grid(),
            shuffled: shuffle::grid(),
            pairs: vec![0; pair::all().len()],
        }
    }
}

impl Tally {
    /// Adds what was compared after all that is counted here.
    pub fn add(&mut self, other: Tally) {
        self.files += other.files;
        self.turned += other.turned;
        self.queries += other.queries;
        self.calls += other.calls;
        self.in_sheets += other.in_sheets;
        self.mismatches += other.mismatches;
        self.reports.extend(other.reports);
        self.reports.truncate(SHOWN);
        self.numbers.add(&other.numbers);
        self.areas.add(&other.areas);
        self.budgets.add(&other.budgets);
        self.laws.add(&other.laws);
        self.settings.add(&other.settings);
        self.overlaps.add(&other.overlaps);
        self.bounds.add(&other.bounds);
        self.witness.add(&other.witness);
        self.pair_lists.add(&other.pair_lists);
        self.plays.add(&other.plays);
        self.idle.add(&other.idle);
        self.longer.add(&other.longer);
        self.zoned.add(&other.zoned);
        self.sizes.add(&other.sizes);
        self.ceilings.add(&other.ceilings);
        self.sheets.add(&other.sheets);
        self.variables.add(&other.variables);
        self.returns.add(&other.returns);
        self.query_returns.add(&other.query_returns);
        self.shuffled.add(&other.shuffled);
        for (pair, other) in self.pairs.iter_mut().zip(other.pairs) {
            *pair += other;
        }
    }

    pub fn mismatch(&mut self, text: String, input: Vec<u8>) {
        self.mismatches += 1;
        if self.reports.len() < SHOWN {
            let text = format!("case {}: {text}", self.case);
            self.reports.push(Report { text, input });
        }
    }

    /// Counts the range in which the count of an answer lies.
    pub fn count(&mut self, count: u64, column: usize) {
        if count > 3_000 {
            self.laws.hit(COUNT_ABOVE_3000, column);
        }
        if count > 65_535 {
            self.laws.hit(COUNT_ABOVE_65535, column);
        }
    }

    fn grids(&self) -> Vec<&Grid> {
        let own = [
            &self.numbers,
            &self.areas,
            &self.sizes,
            &self.budgets,
            &self.laws,
            &self.ceilings,
            &self.sheets,
            &self.variables,
            &self.returns,
            &self.query_returns,
            &self.shuffled,
        ];
        let others = self.settings.all().into_iter();
        let others = others.chain(self.overlaps.all()).chain(self.bounds.all());
        let others = others.chain(self.witness.all());
        let others = others.chain(self.pair_lists.all()).chain(self.plays.all());
        let others = others.chain(self.idle.all()).chain(self.longer.all());
        let others = others.chain(self.zoned.all());
        own.into_iter().chain(others).collect()
    }

    /// All that has to be hit and was not.
    pub fn missing(&self) -> Vec<String> {
        let grids = self.grids();
        let mut missing: Vec<String> = grids.iter().flat_map(|grid| grid.missing()).collect();
        for (pair, count) in pair::all().iter().zip(&self.pairs) {
            if *count == 0 {
                missing.push(format!("{pair:?}"));
            }
        }
        missing
    }

    /// The cases that agreed, and those that did not or were never hit.
    pub fn verdict(&self) -> (usize, usize) {
        let cases = self.files + self.turned + self.queries + self.calls + self.in_sheets;
        let passed = cases.saturating_sub(self.mismatches);
        (passed, self.mismatches + self.missing().len())
    }

    pub fn print(&self) {
        for report in &self.reports {
            println!("mismatch: {}", report.text);
        }
        for grid in self.grids() {
            println!("{}", grid.text());
        }
        let hit = self.pairs.iter().filter(|count| **count > 0).count();
        println!("pairs          {hit} of {}", self.pairs.len());
        println!("files          {} and {} turned", self.files, self.turned);
        println!("queries        {}", self.queries);
        println!("library calls  {}", self.calls);
        println!("in sheets      {}", self.in_sheets);
        println!("mismatches     {}", self.mismatches);
        for what in self.missing() {
            println!("never hit: {what}");
        }
    }
}
