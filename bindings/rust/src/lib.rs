//! Check, Turn, Run, whole sheets of queries, settings as numbers, the overlap of two patterns, steps known
//! beforehand, pair lists, settings that show a fault and units tried out for rule files, over the proved static
//! library.
//!
//! Callers who keep their own areas lend them to [`check`], [`turn`], [`run`], [`sheet`], [`number_of`],
//! [`setting_of`], [`overlap`], [`bounds`], [`export`], [`import`], [`witness`] and [`play`]; areas of any length are
//! safe, and what each then holds is said in `include/rulefile.h`. Callers who do not want to make one [`Desk`],
//! which owns the areas. A file that is [opened](Desk::open) on it is an accepted one, and its settings are
//! [`Letters`]:
//!
//! ```
//! use rulefile::{Desk, Direction, Letters, Query};
//!
//! let mut desk = Desk::new();
//! let file = b"T,0,0,0\nT,1,0,0\nP,0,0,0\nP,2,0,0\nP,3,0,0\nI,1,1\nC,1,2\nC,2,1\n";
//! let mut accepted = desk.open(file)?;
//! let letters: Letters = "LU".parse()?;
//! let there = accepted.run(Query::new(0, Direction::Forward, 9, &letters))?;
//! assert_eq!((there.letters.to_string().as_str(), there.count), ("RU", 1));
//! // T line 1 has two settings, with the numbers 0 and 1.
//! assert_eq!(accepted.number_of(1, &there.letters)?, 1);
//! assert_eq!(accepted.setting_of(1, 1)?, "RU");
//! // Without its last line the file leaves a setting out: there is no accepted file to ask.
//! let refused = desk.open(&file[..file.len() - 6]).unwrap_err();
//! assert_eq!(refused.to_string(), "refused with 13, gap left, at line 6");
//! # Ok::<(), Box<dyn std::error::Error>>(())
//! ```
//!
//! The methods of the desk itself take the file with each call, and check it:
//!
//! ```
//! use rulefile::{Desk, Direction, Query};
//!
//! let mut desk = Desk::new();
//! let file = b"T,0,0,0\nT,1,0,0\nP,0,0,0\nP,2,0,0\nP,3,0,0\nI,1,1\nC,1,2\nC,2,1\n";
//! desk.check(file)?;
//! let there = desk.run(file, Query::new(0, Direction::Forward, 9, b"LU"))?;
//! assert_eq!((there.letters.as_slice(), there.count), (b"RU".as_slice(), 1));
//! // T line 1 has two settings, with the numbers 0 and 1.
//! assert_eq!(desk.number_of(file, 1, b"RU")?, 1);
//! assert_eq!(desk.setting_of(file, 1, 1)?, b"RU");
//! // P lines 1 and 2, a left and a right, clash at once.
//! let overlap = desk.overlap(file, 1, 2)?;
//! assert_eq!((overlap.clash, overlap.pairs), (true, 1));
//! // Every run of iso 0 makes one application.
//! let bounds = desk.bounds(file, 0)?;
//! assert_eq!((bounds.least, bounds.greatest, bounds.greatest_over), (1, 1, false));
//! // Without its last line the file leaves a setting out.
//! let shown = desk.witness(&file[..file.len() - 6]).unwrap_err();
//! assert_eq!((shown.refused.refusal, shown.letters.as_slice()), (rulefile::Refusal::GapLeft, b"RU".as_slice()));
//! // Iso 0 as a pair list, and a file out of the list.
//! let list = desk.export(file, 0, 1)?;
//! assert_eq!(list, b"0,1\n1,0\n");
//! assert_eq!(desk.import(file, 1, 1, &list)?, file);
//! // Unit 0 holds setting 0 of T line 1, and is visited twice.
//! let (mut types, mut settings) = ([1], [0]);
//! let tally = desk.play(file, &mut types, &mut settings, b"S,0,0,0\nS,0,0,0\n", 1)?;
//! assert_eq!((tally.done, types, settings), (2, [1], [0]));
//! # Ok::<(), rulefile::Refused>(())
//! ```
//!
//! Every refusal of a file names its line.

#![deny(missing_docs)]

mod accepted;
mod foreign;
mod letters;
mod query;
mod refusal;

pub use accepted::{Accepted, Converted};
pub use letters::{Letters, NoLetters};
pub use query::{Direction, Query};
pub use refusal::{Refusal, Refused, Witness, Witnessed};

use std::fmt;

/// The version of this crate, which is that of the library: the build holds the archive to it.
pub const VERSION: &str = env!("CARGO_PKG_VERSION");

/// The least length of a table area, in numbers of 16 bits: five for each of 4,096 lines.
pub const TABLE_LENGTH: usize = 20_480;
/// The least length of a work area, in bytes.
pub const WORK_LENGTH: usize = 65_536;
/// The least length of a result area, in bytes.
pub const RESULT_LENGTH: usize = 127;
/// The least length of the area that a pair list is exported into, in bytes.
pub const LIST_LENGTH: usize = 40_960;
/// The most bytes of a file, and the least length of the area that one is imported into.
pub const MAX_FILE_LENGTH: usize = 65_536;

/// The numbers that a sheet needs for each of its queries: number, count and length.
pub const NUMBERS_A_QUERY: usize = 3;
/// The most queries of a sheet.
pub const MAX_QUERIES: usize = 600;
/// The most units of a play.
pub const MAX_UNITS: usize = 1_000;

/// A run that was not refused, its letters in the result area.
#[derive(Clone, Copy, Debug, PartialEq, Eq)]
pub struct Ran {
    /// The applications made.
    pub count: u32,
    /// The letters written to the result area.
    pub length: usize,
}

/// A run that was not refused, with its letters.
#[derive(Clone, PartialEq, Eq)]
pub struct Value {
    /// The applications made.
    pub count: u32,
    /// The letters of what came out.
    pub letters: Vec<u8>,
}

impl fmt::Debug for Value {
    fn fmt(&self, f: &mut fmt::Formatter) -> fmt::Result {
        let mut shown = f.debug_struct("Value");
        let letters = letters::Text(&self.letters);
        shown.field("count", &self.count).field("letters", &letters);
        shown.finish()
    }
}

/// Two patterns compared.
#[derive(Clone, Copy, Debug, PartialEq, Eq)]
pub struct Overlap {
    /// Whether a left stands against a right.
    pub clash: bool,
    /// The node pairs compared, the clash included.
    pub pairs: u32,
}

/// What the runs of an iso count: at least `least` and, where `greatest_over` is false, at most `greatest`. Of a
/// number above 4,294,967,295 that is given, with its flag set.
#[derive(Clone, Copy, Debug, PartialEq, Eq)]
pub struct Bounds {
    /// No run counts less.
    pub least: u32,
    /// No run counts more, unless flagged.
    pub greatest: u32,
    /// Whether the least is above 4,294,967,295.
    pub least_over: bool,
    /// Whether the greatest is.
    pub greatest_over: bool,
}

/// What came of the visits of a play, counted from 0 in each.
#[repr(C)]
#[derive(Clone, Copy, Debug, Default, PartialEq, Eq)]
pub struct Tally {
    /// The visits after which the unit holds what the run gave.
    pub done: u32,
    /// The visits to a unit of another type than the iso begins at; they leave it.
    pub skipped: u32,
    /// The visits whose run would pass the budget; they leave the unit.
    pub spent: u32,
}

/// Checks a file.
pub fn check(file: &[u8], table: &mut [u16], work: &mut [u8]) -> Result<(), Refused> {
    let answer = foreign::check(file, table, work);
    Refused::unless_0(answer.number, answer.line)
}

/// Checks a file and writes it turned; gives the number of bytes written.
pub fn turn(
    file: &[u8],
    table: &mut [u16],
    work: &mut [u8],
    output: &mut [u8],
) -> Result<usize, Refused> {
    let answer = foreign::turn(file, table, work, output);
    Refused::unless_0(answer.number, answer.line).map(|()| answer.length)
}

/// What a number says that comes without a line. Where the file is refused, Check names the line, and leaves table
/// and work area as they are then: cleared.
fn lined(number: u32, file: &[u8], table: &mut [u16], work: &mut [u8]) -> Result<(), Refused> {
    match number {
        3..=14 | 21 | 23 => check(file, table, work).and(Refused::unless_0(number, 0)),
        _ => Refused::unless_0(number, 0),
    }
}

/// Checks a file and runs one of its isos.
pub fn run(
    file: &[u8],
    table: &mut [u16],
    work: &mut [u8],
    query: Query,
    result: &mut [u8],
) -> Result<Ran, Refused> {
    let answer = foreign::run(file, table, work, query, result);
    lined(answer.number, file, table, work).map(|()| Ran {
        count: answer.count,
        length: answer.length,
    })
}

/// Checks a file once and answers a list of query lines; gives how many there are. Query k has its number,
/// count and length from `numbers[3 * k]` on and its letters from `letters[127 * k]` on.
pub fn sheet(
    file: &[u8],
    table: &mut [u16],
    work: &mut [u8],
    queries: &[u8],
    numbers: &mut [u32],
    letters: &mut [u8],
) -> Result<usize, Refused> {
    let answer = foreign::sheet(file, table, work, queries, numbers, letters);
    Refused::unless_0(answer.number, answer.line).map(|()| answer.queries)
}

/// Checks a file and gives the number of a setting, a value of its T line number `ty`, counted from 0. The
/// numbers of the settings of one T line begin with 0 and rise as their letters do in byte order.
///
/// Refused, in this order: what [`check`] refuses, an absent T line (15), one of over 4,294,967,295 values
/// (18), letters that are not exactly one of its values (16).
pub fn number_of(
    file: &[u8],
    table: &mut [u16],
    work: &mut [u8],
    ty: u32,
    letters: &[u8],
) -> Result<u32, Refused> {
    let answer = foreign::number_of(file, table, work, ty, letters);
    lined(answer.number, file, table, work).map(|()| answer.setting)
}

/// Checks a file and writes the letters of the value of its T line number `ty` that has a number; gives how
/// many they are. It undoes [`number_of`].
///
/// Refused, in this order: what [`check`] refuses, of which 1 also for a result area of less than 127 bytes,
/// an absent T line (15), one of over 4,294,967,295 values (18), a number that is not below its count of
/// values (19). The result area is then as it was.
pub fn setting_of(
    file: &[u8],
    table: &mut [u16],
    work: &mut [u8],
    ty: u32,
    setting: u32,
    result: &mut [u8],
) -> Result<usize, Refused> {
    let answer = foreign::setting_of(file, table, work, ty, setting, result);
    lined(answer.number, file, table, work).map(|()| answer.length)
}

/// Checks a file and compares its P lines number `left` and `right`, counted from 0, node with node in prefix
/// order, nothing below a variable, up to the first left against a right.
///
/// Refused, in this order: what [`check`] refuses, a P line that is absent on either side (15).
pub fn overlap(
    file: &[u8],
    table: &mut [u16],
    work: &mut [u8],
    left: u32,
    right: u32,
) -> Result<Overlap, Refused> {
    let answer = foreign::overlap(file, table, work, left, right);
    let overlap = Overlap {
        clash: answer.clash,
        pairs: answer.pairs,
    };
    Refused::unless_0(answer.number, answer.line).map(|()| overlap)
}

/// Checks a file and bounds the count of any run of its iso number `iso`, there and back, without a run. A run
/// with a budget of at least a greatest that is not flagged is never refused 17.
///
/// Refused, in this order: what [`check`] refuses, an absent iso (15), a list in a type of the iso or of one that it
/// reaches (18).
pub fn bounds(
    file: &[u8],
    table: &mut [u16],
    work: &mut [u8],
    iso: u32,
) -> Result<Bounds, Refused> {
    let answer = foreign::bounds(file, table, work, iso);
    lined(answer.number, file, table, work).map(|()| Bounds {
        least: answer.least,
        greatest: answer.greatest,
        least_over: answer.least_over,
        greatest_over: answer.greatest_over,
    })
}

/// Checks a file and, where it is refused with 11 to 14, writes a setting that shows the fault: a value of the
/// refused iso's from-type (11, 13) or to-type (12, 14) that two or more patterns of that side match (11, 12), or
/// that none does (13, 14); the one with the fewest letters, of several such the first in byte order.
///
/// Refused as [`check`] refuses, with 24 at line 0 in place of 11 to 14 where the setting has over 127 letters, and with
/// 1 also for a result area of less than 127 bytes. Behind the letters the
/// result area is as it was; with any other refusal, or none, all of it is.
pub fn witness(
    file: &[u8],
    table: &mut [u16],
    work: &mut [u8],
    result: &mut [u8],
) -> Result<(), Witnessed> {
    let answer = foreign::witness(file, table, work, result);
    let length = answer.length;
    let given = Refused::unless_0(answer.number, answer.line);
    given.map_err(|refused| Witnessed { refused, length })
}

/// Checks a file and plays a script of visits, lines `S,unit,iso,direction`, on units: unit k holds the setting with
/// number `settings[k]` of T line `types[k]`. Each visit has the budget for itself. One that is done leaves in the
/// unit the T line that the iso's I line names at the other end, and the number of what the run gives; the tally
/// then says how many were done, skipped and spent. If none was skipped or spent, a play of the script last line
/// first with directions exchanged, under the same budget, restores each unit's type tree and number.
///
/// Refused, in this order: what [`check`] refuses, of which 1 also for unit areas of unequal length and 2 also for
/// over 1,000 units or 4,096 lines; for the units in order an absent T line (15), a type of over 4,294,967,295
/// values (18), a number that is not below their count (19); for the lines of the script in order one of another form,
/// or that names an absent unit or iso (22), and one whose iso, or one that it reaches, has a type that holds a list
/// (18). All of this is tested before the first visit. Units and tally are then as they were.
#[allow(clippy::too_many_arguments)]
pub fn play(
    file: &[u8],
    table: &mut [u16],
    work: &mut [u8],
    types: &mut [u32],
    settings: &mut [u32],
    script: &[u8],
    budget: u32,
    tally: &mut Tally,
) -> Result<(), Refused> {
    let answer = foreign::play(file, table, work, types, settings, script, budget, tally);
    Refused::unless_0(answer.number, answer.line)
}

/// Checks a file and writes its iso number `iso` as a pair list, a line `from,to` of setting numbers for each
/// setting of the from-type, from 0 upwards; gives the number of bytes written. Each run has the budget for
/// itself.
///
/// Refused, in this order: what [`check`] refuses, of which 1 also for an output area of less than 40,960 bytes,
/// an absent iso (15), a from-type of over 4,096 values (18), a run that passes the budget (17). The output area
/// is then as it was.
pub fn export(
    file: &[u8],
    table: &mut [u16],
    work: &mut [u8],
    iso: u32,
    budget: u32,
    output: &mut [u8],
) -> Result<usize, Refused> {
    let answer = foreign::export(file, table, work, iso, budget, output);
    Refused::unless_0(answer.number, answer.line).map(|()| answer.length)
}

/// Checks a file and writes another one with a single iso, from the first of two of its T lines to the second, out
/// of a pair list, with a clause for each line; gives the number of bytes written. [`export`] of that file gives
/// the list again, without its carriage returns.
///
/// Refused, in this order: what [`check`] refuses, of which 1 also for an output area of less than 65,536 bytes,
/// an absent T line (15), one of over 4,096 values (18), a list of over 128 lines (7), one whose lines are not
/// `0,to`, `1,to` and so on up to the counts of both types with each to once (20), a file of over 1,024 P lines
/// or with a value of over 40 left and right nodes (7). The output area is then as it was.
pub fn import(
    file: &[u8],
    table: &mut [u16],
    work: &mut [u8],
    types: [u32; 2],
    list: &[u8],
    output: &mut [u8],
) -> Result<usize, Refused> {
    let answer = foreign::import(file, table, work, types, list, output);
    Refused::unless_0(answer.number, answer.line).map(|()| answer.length)
}

/// The areas of the services, for callers who do not keep their own.
#[derive(Clone, Debug)]
pub struct Desk {
    table: Vec<u16>,
    work: Vec<u8>,
}

impl Default for Desk {
    fn default() -> Self {
        Desk::new()
    }
}

impl Desk {
    /// Areas of the lengths that every service needs.
    pub fn new() -> Self {
        Desk {
            table: vec![0; TABLE_LENGTH],
            work: vec![0; WORK_LENGTH],
        }
    }

    /// Checks a file.
    pub fn check(&mut self, file: &[u8]) -> Result<(), Refused> {
        check(file, &mut self.table, &mut self.work)
    }

    /// Checks a file and gives it as an accepted one, which alone can be asked without the file being refused.
    pub fn open<'a>(&'a mut self, file: &'a [u8]) -> Result<Accepted<'a>, Refused> {
        self.check(file)?;
        Ok(Accepted::on(self, file))
    }

    /// The file turned.
    pub fn turn(&mut self, file: &[u8]) -> Result<Vec<u8>, Refused> {
        let mut output = vec![0; file.len()];
        let length = turn(file, &mut self.table, &mut self.work, &mut output)?;
        output.truncate(length);
        Ok(output)
    }

    /// What an iso of the file makes of a value.
    pub fn run(&mut self, file: &[u8], query: Query) -> Result<Value, Refused> {
        let mut result = [0; RESULT_LENGTH];
        let ran = run(file, &mut self.table, &mut self.work, query, &mut result)?;
        Ok(Value {
            count: ran.count,
            letters: result[..ran.length].to_vec(),
        })
    }

    /// What each line of a list of queries is answered.
    pub fn sheet(
        &mut self,
        file: &[u8],
        queries: &[u8],
    ) -> Result<Vec<Result<Value, Refusal>>, Refused> {
        let most = queries.split_inclusive(|byte| *byte == b'\n').count();
        let mut numbers = vec![0; most * NUMBERS_A_QUERY];
        let mut letters = vec![0; most * RESULT_LENGTH];
        let (table, work) = (&mut self.table, &mut self.work);
        let answered = sheet(file, table, work, queries, &mut numbers, &mut letters)?;
        Ok(query::answers(&numbers, &letters, answered))
    }

    /// What each of these queries is answered: what [`Desk::run`] answers to it alone, with the file checked once.
    pub fn sheet_of(
        &mut self,
        file: &[u8],
        queries: &[Query],
    ) -> Result<Vec<Result<Value, Refusal>>, Refused> {
        let lines: Vec<u8> = queries.iter().flat_map(Query::line).collect();
        self.sheet(file, &lines)
    }

    /// The number of a setting, a value of T line number `ty` of the file.
    pub fn number_of(&mut self, file: &[u8], ty: u32, letters: &[u8]) -> Result<u32, Refused> {
        number_of(file, &mut self.table, &mut self.work, ty, letters)
    }

    /// The letters of the value of T line number `ty` of the file that has a number.
    pub fn setting_of(&mut self, file: &[u8], ty: u32, setting: u32) -> Result<Vec<u8>, Refused> {
        let mut result = [0; RESULT_LENGTH];
        let (table, work) = (&mut self.table, &mut self.work);
        let length = setting_of(file, table, work, ty, setting, &mut result)?;
        Ok(result[..length].to_vec())
    }

    /// P lines number `left` and `right` of the file compared.
    pub fn overlap(&mut self, file: &[u8], left: u32, right: u32) -> Result<Overlap, Refused> {
        overlap(file, &mut self.table, &mut self.work, left, right)
    }

    /// What the runs of iso number `iso` of the file count, at the least and at the most.
    pub fn bounds(&mut self, file: &[u8], iso: u32) -> Result<Bounds, Refused> {
        bounds(file, &mut self.table, &mut self.work, iso)
    }

    /// Checks a file; where it is refused with 11 to 14, the setting that shows the fault comes with the refusal.
    pub fn witness(&mut self, file: &[u8]) -> Result<(), Witness> {
        let mut result = [0; RESULT_LENGTH];
        let given = witness(file, &mut self.table, &mut self.work, &mut result);
        given.map_err(|Witnessed { refused, length }| Witness {
            refused,
            letters: result[..length].to_vec(),
        })
    }

    /// Plays a script of visits on units, each a T line and a setting number, and gives the tally.
    pub fn play(
        &mut self,
        file: &[u8],
        types: &mut [u32],
        settings: &mut [u32],
        script: &[u8],
        budget: u32,
    ) -> Result<Tally, Refused> {
        let mut tally = Tally::default();
        let (table, work) = (&mut self.table, &mut self.work);
        play(
            file, table, work, types, settings, script, budget, &mut tally,
        )?;
        Ok(tally)
    }

    /// Iso number `iso` of the file as a pair list.
    pub fn export(&mut self, file: &[u8], iso: u32, budget: u32) -> Result<Vec<u8>, Refused> {
        let mut output = vec![0; LIST_LENGTH];
        let (table, work) = (&mut self.table, &mut self.work);
        let length = export(file, table, work, iso, budget, &mut output)?;
        output.truncate(length);
        Ok(output)
    }

    /// A file with one iso from T line number `from` of the file to T line number `to`, out of a pair list.
    pub fn import(
        &mut self,
        file: &[u8],
        from: u32,
        to: u32,
        list: &[u8],
    ) -> Result<Vec<u8>, Refused> {
        let mut output = vec![0; MAX_FILE_LENGTH];
        let (table, work) = (&mut self.table, &mut self.work);
        let length = import(file, table, work, [from, to], list, &mut output)?;
        output.truncate(length);
        Ok(output)
    }

    /// The table as the last call left it: five numbers a line of the file that was accepted, the letter's code, the
    /// fields, and the size of a T or P line.
    pub fn table(&self) -> &[u16] {
        &self.table
    }
}
