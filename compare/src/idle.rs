//! Request 11: files refused for idle lines, and files with another fault beside
//! one.

use crate::grid::Grid;
use crate::tally::{names, Tally};
use apart::areas::Known;
use apart::generate::pair::Pair;
use apart::idle;
use apart::lines::{read, Row, LISTS};
use apart::Refusal;

/// Columns of the table of idle lines.
pub const RULES: usize = 0;
pub const LIBRARY: usize = 1;

/// Rows of the table of idle lines.
pub const TYPE: usize = 0;
pub const PATTERN: usize = 1;
pub const NAMED_TYPE: usize = 2;
pub const NAMED_PATTERN: usize = 3;
pub const NO_ISO: usize = 4;
pub const SEVERAL: usize = 5;

/// Columns of the table of other faults.
pub const ABOVE: usize = 0;
pub const BELOW: usize = 1;

/// The first number that stands beside 21.
const FIRST: u8 = 3;

/// The numbers that stand beside 21.
fn beside() -> impl Iterator<Item = u8> {
    (FIRST..15).chain(LISTS.then_some(23))
}

/// What was hit.
pub struct Grids {
    pub lines: Grid,
    pub beside: Grid,
}

impl Default for Grids {
    fn default() -> Grids {
        let rows = names(&[
            "a T line",
            "a P line",
            "a T line, named by idle ones",
            "a P line, named by idle ones",
            "no iso in the file",
            "several idle lines",
        ]);
        let numbers = beside().map(|number| number.to_string()).collect();
        // A clause stands below all T and P lines.
        let needed = |row, column| column == ABOVE || row < usize::from(8 - FIRST);
        Grids {
            lines: Grid::new("21 for", rows, &["rules", "library"], |_, _| true),
            beside: Grid::new("21 beside", numbers, &["21 above", "21 below"], needed),
        }
    }
}

impl Grids {
    pub fn add(&mut self, other: &Grids) {
        self.lines.add(&other.lines);
        self.beside.add(&other.beside);
    }

    pub fn all(&self) -> [&Grid; 2] {
        [&self.lines, &self.beside]
    }
}

/// Counts a file that is refused for an idle line.
pub fn count(tally: &mut Tally, known: &Known, column: usize) {
    let Err(Refusal { number: 21, line }) = known.checked else {
        return;
    };
    let rows = read(known.file).map_or(Vec::new(), |reader| reader.rows);
    for (row, is) in like(&rows, line) {
        if is {
            tally.idle.lines.hit(row, column);
        }
    }
}

fn like(rows: &[Row], line: usize) -> [(usize, bool); 6] {
    let letter = rows[line - 1].letter;
    let above = rows[..line - 1].iter().filter(|row| row.letter == letter);
    let own = (letter, above.count() as u16);
    let named = rows.iter().any(|row| idle::names(row).contains(&own));
    let (ty, pattern) = (letter == b'T', letter == b'P');
    [
        (TYPE, ty),
        (PATTERN, pattern),
        (NAMED_TYPE, ty && named),
        (NAMED_PATTERN, pattern && named),
        (NO_ISO, rows.iter().all(|row| row.letter != b'I')),
        (SEVERAL, idle::last(rows) != Some(line)),
    ]
}

/// Counts a pair of faults of which one is 21.
pub fn count_pair(tally: &mut Tally, pair: Pair) {
    let (other, column) = match (pair.first, pair.second) {
        (21, 21) => return,
        (21, other) => (other, ABOVE),
        (other, 21) => (other, BELOW),
        _ => return,
    };
    let row = beside().position(|number| number == other);
    tally.idle.beside.hit(row.expect("one of these"), column);
}
