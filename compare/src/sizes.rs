//! Request 10: the table with a size on each line, as every service leaves it.

use crate::areas::FORMER_TABLE;
use crate::grid::Grid;
use crate::service::Call;
use crate::tally::{file_number, names, Tally};
use apart::areas::TABLE;
use apart::lines::{LINES, NODES};

/// Rows of the table.
pub const FORMER: usize = 0;
pub const ONE_SHORT: usize = 1;
pub const EXACT: usize = 2;
pub const MORE: usize = 3;
pub const ZEROS: usize = 4;
const LEAF: usize = 5;
const WIDE_TYPE: usize = 6;
const WIDE_PATTERN: usize = 7;
const NO_SIZE: usize = 8;
const LAST_LINE: usize = 9;
const BEHIND: usize = 10;

/// The column of a play; those of the calls are before it.
pub const PLAY: usize = 11;

/// The column of a call.
pub fn column(call: Call) -> usize {
    match call {
        Call::Check => 0,
        Call::Turn => 1,
        Call::Run(_) => 2,
        Call::Sheet(_) => 3,
        Call::NumberOf(..) => 4,
        Call::SettingOf(..) => 5,
        Call::Overlap(..) => 6,
        Call::Bounds(_) => 7,
        Call::Witness => 8,
        Call::Export(..) => 9,
        Call::Import(..) => 10,
    }
}

pub fn grid() -> Grid {
    let rows = names(&[
        "16,384 numbers: 1",
        "20,479 numbers: 1",
        "20,480 numbers",
        "more numbers",
        "refused: 20,480 zeros",
        "size 1 of a T and a P line",
        "size 127 of a T line",
        "size 127 of a P line",
        "0 of I, C and L lines",
        "4,096 lines",
        "zeros behind the last line",
    ]);
    let columns = &[
        "check", "turn", "run", "sheet", "number", "letters", "overlap", "bounds", "witness",
        "export", "import", "play",
    ];
    Grid::new("table of five a line", rows, columns, |_, _| true)
}

/// Counts the length of a table, and what a call has left in it.
pub fn count(tally: &mut Tally, column: usize, table: &[u16], number: u32) {
    let mut hit = |row: usize, is: bool| {
        if is {
            tally.sizes.hit(row, column);
        }
    };
    hit(FORMER, table.len() == FORMER_TABLE);
    hit(ONE_SHORT, table.len() + 1 == TABLE);
    if number < 3 && number > 0 {
        return;
    }
    hit(EXACT, table.len() == TABLE);
    hit(MORE, table.len() > TABLE);
    let rows: Vec<&[u16]> = table[..TABLE].chunks_exact(5).collect();
    let lines = rows.iter().take_while(|row| row[0] > 0).count();
    hit(
        ZEROS,
        lines == 0 && number > 0 && file_number(number as usize),
    );
    let has = |letters: &[u8], size: usize| {
        let mut rows = rows[..lines].iter();
        let is = |letter: u16| letters.iter().any(|own| u16::from(*own) == letter);
        rows.any(|row| is(row[0]) && usize::from(row[4]) == size)
    };
    hit(LEAF, has(b"T", 1) && has(b"P", 1));
    hit(WIDE_TYPE, has(b"T", NODES));
    hit(WIDE_PATTERN, has(b"P", NODES));
    hit(NO_SIZE, has(b"I", 0) && has(b"C", 0) && has(b"L", 0));
    hit(LAST_LINE, lines == LINES);
    hit(BEHIND, 0 < lines && lines < LINES);
}
