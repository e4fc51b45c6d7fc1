//! What a run is asked, and how it is said as a line.

use crate::letters::Text;
use crate::{Refusal, Refused, Value, NUMBERS_A_QUERY, RESULT_LENGTH};
use std::fmt;

/// Which way an iso is run.
#[derive(Clone, Copy, Debug, PartialEq, Eq)]
pub enum Direction {
    /// From the from-type to the to-type.
    Forward,
    /// From the to-type to the from-type: a run forward of the turned file.
    Back,
}

/// What a run is asked.
#[derive(Clone, Copy, PartialEq, Eq)]
pub struct Query<'a> {
    /// The iso's number; the I lines are numbered from 0.
    pub iso: u32,
    /// Which way it is run.
    pub direction: Direction,
    /// The most applications that the run may make.
    pub budget: u32,
    /// The value, in prefix order with the letters U, L, R, P, N and K.
    pub letters: &'a [u8],
}

impl<'a> Query<'a> {
    /// A query of these parts.
    pub fn new(iso: u32, direction: Direction, budget: u32, letters: &'a [u8]) -> Self {
        Query {
            iso,
            direction,
            budget,
            letters,
        }
    }

    /// The line that asks the same of every file. An iso number of over 16 bits, which no line can say, is said
    /// as 65535, which no file has either; letters that no value has are said as none.
    pub(crate) fn line(&self) -> Vec<u8> {
        let fits = self.letters.len() <= RESULT_LENGTH;
        let is_value = fits && self.letters.iter().all(u8::is_ascii_uppercase);
        let query = Query {
            iso: self.iso.min(u32::from(u16::MAX)),
            letters: if is_value { self.letters } else { b"" },
            ..*self
        };
        format!("{query}\n").into_bytes()
    }
}

/// The letters are shown as text.
impl fmt::Debug for Query<'_> {
    fn fmt(&self, f: &mut fmt::Formatter) -> fmt::Result {
        f.debug_struct("Query")
            .field("iso", &self.iso)
            .field("direction", &self.direction)
            .field("budget", &self.budget)
            .field("letters", &Text(self.letters))
            .finish()
    }
}

/// The line of a query, as sheets and the desk program read it, without its ending.
impl fmt::Display for Query<'_> {
    fn fmt(&self, f: &mut fmt::Formatter) -> fmt::Result {
        let direction = match self.direction {
            Direction::Forward => 0,
            Direction::Back => 1,
        };
        let letters = String::from_utf8_lossy(self.letters);
        write!(f, "Q,{},{direction},{},{letters}", self.iso, self.budget)
    }
}

/// The answers of a sheet, from its numbers and its letters.
pub(crate) fn answers(
    numbers: &[u32],
    letters: &[u8],
    answered: usize,
) -> Vec<Result<Value, Refusal>> {
    let threes = numbers.chunks(NUMBERS_A_QUERY);
    let answers = threes.zip(letters.chunks(RESULT_LENGTH));
    answers.take(answered).map(answer).collect()
}

/// A query's answer, from its three numbers and its 127 bytes.
fn answer((numbers, letters): (&[u32], &[u8])) -> Result<Value, Refusal> {
    let refused = |refused: Refused| refused.refusal;
    Refused::unless_0(numbers[0], 0).map_err(refused)?;
    Ok(Value {
        count: numbers[1],
        letters: letters[..numbers[2] as usize].to_vec(),
    })
}
