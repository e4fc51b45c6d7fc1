//! Request 01, "Whole sheet in one call": a file and a list of query lines.

use crate::areas::{Known, RESULT, TABLE, WORK};
use crate::desk::query;
use crate::lines::split;
use crate::{run_rules, Refusal, Rules};

/// "over 600 queries is 2".
pub const QUERIES: usize = 600;
/// "three numbers of 32 bits".
pub const NUMBERS: usize = 3;

/// What a sheet gives: number and line of the file, and how many queries were
/// answered.
#[derive(Debug, PartialEq, Eq, Clone, Copy)]
pub struct Sheet {
    pub number: u8,
    pub line: usize,
    pub queries: usize,
}

/// The areas lent for a sheet.
pub struct Lent<'a> {
    pub table: &'a mut [u16],
    pub work: &'a mut [u8],
    pub numbers: &'a mut [u32],
    pub letters: &'a mut [u8],
}

/// "A list of query lines goes in with the file and is checked against it in
/// one pass; the file is checked once."
pub fn sheet(known: &Known, queries: &[u8], lent: Lent) -> Sheet {
    let lines = split(queries);
    let refused = |Refusal { number, line }| Sheet {
        number,
        line,
        queries: 0,
    };
    // "A lent area too short for the queries given is 1, and over 600 queries
    // is 2."
    let short = lent.numbers.len() < lines.len() * NUMBERS
        || lent.letters.len() < lines.len() * RESULT
        || lent.table.len() < TABLE
        || lent.work.len() < WORK;
    if !short && lines.len() > QUERIES {
        return refused(Refusal { number: 2, line: 0 });
    }
    // "A refused file refuses the whole call."
    let rules = match known.enter(short, lent.table, lent.work) {
        Err(refusal) => return refused(refusal),
        Ok(rules) => rules,
    };
    let threes = lent.numbers.chunks_mut(NUMBERS);
    let places = threes.zip(lent.letters.chunks_mut(RESULT));
    for (line, (three, place)) in lines.iter().zip(places) {
        three.copy_from_slice(&answer(rules, line, place));
    }
    Sheet {
        number: 0,
        line: 0,
        queries: lines.len(),
    }
}

/// "For each query come back number, count and length"; "A refused query
/// leaves its 127 bytes unchanged".
fn answer(rules: &Rules, line: &[u8], place: &mut [u8]) -> [u32; NUMBERS] {
    let Some(query) = query(line) else {
        return [3, 0, 0];
    };
    match run_rules(rules, query.iso, query.back, query.budget, query.value) {
        Ok((count, letters)) => {
            place[..letters.len()].copy_from_slice(&letters);
            [0, count as u32, letters.len() as u32]
        }
        Err(refusal) => [refusal.number.into(), 0, 0],
    }
}
