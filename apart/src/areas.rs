//! The three services with lent areas.

use crate::lines::LISTS;
use crate::{check_with, run_rules, turn_rules, Refusal, Rules};

/// "a table area of at least 16,384 numbers of 16 bits"; request 10: "what 01
/// says of 16,384 holds for 20,480".
pub const TABLE: usize = 20_480;
/// "a work area of at least 65,536 bytes".
pub const WORK: usize = 65_536;
/// "its result area must have 127 bytes".
pub const RESULT: usize = 127;

/// What Check gives.
#[derive(Debug, PartialEq, Eq, Clone, Copy)]
pub struct Checked {
    pub number: u8,
    pub line: usize,
}

/// What Turn gives.
#[derive(Debug, PartialEq, Eq, Clone, Copy)]
pub struct Turned {
    pub number: u8,
    pub line: usize,
    pub length: usize,
}

/// What Run gives: "a number, a count and the result's length".
#[derive(Debug, PartialEq, Eq, Clone, Copy)]
pub struct Ran {
    pub number: u8,
    pub count: u64,
    pub length: usize,
}

/// The four things a query names.
#[derive(Debug, PartialEq, Eq, Clone, Copy)]
pub struct Query<'a> {
    pub iso: u16,
    pub back: bool,
    pub budget: u32,
    pub value: &'a [u8],
}

/// A file with what its check gives, for several calls on one file.
pub struct Known<'a> {
    pub file: &'a [u8],
    pub checked: Result<Rules, Refusal>,
}

impl<'a> Known<'a> {
    pub fn of(file: &'a [u8]) -> Known<'a> {
        Known::with(file, LISTS)
    }

    /// The same, with the lines of request 14 or without them.
    pub fn with(file: &'a [u8], lists: bool) -> Known<'a> {
        let checked = check_with(file, lists);
        Known { file, checked }
    }

    /// Refusal 1, "a lent area is shorter than stated", line 0; then what the
    /// check of the file gives, with the two areas left as document 01 says.
    pub fn enter(
        &self,
        short: bool,
        table: &mut [u16],
        work: &mut [u8],
    ) -> Result<&Rules, Refusal> {
        if short || table.len() < TABLE || work.len() < WORK {
            return Err(Refusal { number: 1, line: 0 });
        }
        let checked = self.checked.as_ref().map_err(|refusal| *refusal);
        // "Refusals 1 and 2 change nothing."
        if matches!(checked, Err(refusal) if refusal.number == 2) {
            return checked;
        }
        // "zeros fill the rest of the first 16,384. On refusals 3 to 14 those
        // are all zero. The first 65,536 bytes of the work area are zero."
        table[..TABLE].fill(0);
        work[..WORK].fill(0);
        // "the table holds, if the file is accepted, four numbers a line: the
        // letter's ASCII code, then the fields, padded with 0"; request 10: "A
        // table line becomes five numbers, the fifth the unfolded size of a T
        // or P line and 0 for other letters".
        if let Ok(rules) = checked {
            let types = rules.types.iter().map(|tree| tree.nodes());
            let patterns = rules.patterns.iter().map(|tree| tree.nodes());
            let sizes = types.chain(patterns).chain(std::iter::repeat(0));
            for ((five, row), size) in table.chunks_mut(5).zip(&rules.rows).zip(sizes) {
                five[0] = u16::from(row.letter);
                five[1..4].copy_from_slice(&row.fields);
                five[4] = size as u16;
            }
        }
        checked
    }

    /// Check with lent areas.
    pub fn check(&self, table: &mut [u16], work: &mut [u8]) -> Checked {
        match self.enter(false, table, work) {
            Ok(_) => Checked { number: 0, line: 0 },
            Err(Refusal { number, line }) => Checked { number, line },
        }
    }

    /// Turn with lent areas: "Its area must be as long as the file."
    pub fn turn(&self, table: &mut [u16], work: &mut [u8], output: &mut [u8]) -> Turned {
        match self.enter(output.len() < self.file.len(), table, work) {
            Ok(rules) => {
                let written = turn_rules(rules);
                output[..written.len()].copy_from_slice(&written);
                Turned {
                    number: 0,
                    line: 0,
                    length: written.len(),
                }
            }
            // "Any refusal gives count 0, length 0, and leaves the output area
            // untouched."
            Err(Refusal { number, line }) => Turned {
                number,
                line,
                length: 0,
            },
        }
    }

    /// Run with lent areas.
    pub fn run(&self, table: &mut [u16], work: &mut [u8], query: Query, result: &mut [u8]) -> Ran {
        let ran = self
            .enter(result.len() < RESULT, table, work)
            .and_then(|rules| run_rules(rules, query.iso, query.back, query.budget, query.value));
        match ran {
            Ok((count, letters)) => {
                result[..letters.len()].copy_from_slice(&letters);
                Ran {
                    number: 0,
                    count,
                    length: letters.len(),
                }
            }
            Err(Refusal { number, .. }) => Ran {
                number,
                count: 0,
                length: 0,
            },
        }
    }
}

/// Check of a file with lent areas.
pub fn check_areas(file: &[u8], table: &mut [u16], work: &mut [u8]) -> Checked {
    Known::of(file).check(table, work)
}

/// Turn of a file with lent areas.
pub fn turn_areas(file: &[u8], table: &mut [u16], work: &mut [u8], output: &mut [u8]) -> Turned {
    Known::of(file).turn(table, work, output)
}

/// Run of a file with lent areas.
pub fn run_areas(
    file: &[u8],
    table: &mut [u16],
    work: &mut [u8],
    query: Query,
    result: &mut [u8],
) -> Ran {
    Known::of(file).run(table, work, query, result)
}
