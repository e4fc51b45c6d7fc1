//! There and back: a run forward, and the runs that undo it.

use crate::service::{Answer, Ask};
use apart::generate::query;
use apart::generate::random::Random;
use apart::{run_rules, Rules};

/// What one iso makes of a value, and with which count.
#[derive(Debug, Clone, PartialEq, Eq)]
pub struct Trip {
    pub iso: u16,
    pub value: Vec<u8>,
    pub given: Vec<u8>,
    pub count: u32,
}

/// One run of a trip and what it has to give: the letters, or nothing where
/// the budget is below the count.
#[derive(Debug, Clone, Copy, PartialEq, Eq)]
pub struct Step<'a> {
    pub ask: Ask<'a>,
    pub count: u32,
    pub given: Option<&'a [u8]>,
    /// The row and column of its budget in the tally.
    pub place: (usize, usize),
}

impl Trip {
    /// A trip through an iso, if its count is not above the longest.
    pub fn new(random: &mut Random, rules: &Rules, iso: u16, longest: u32) -> Option<Trip> {
        let mut value = Vec::new();
        query::sample(random, &rules.isos[usize::from(iso)].from, &mut value);
        let (count, given) = run_rules(rules, iso, false, longest, &value).ok()?;
        Some(Trip {
            iso,
            value,
            given,
            count: count as u32,
        })
    }

    /// The runs of the file, or of the turned file, in both directions, with
    /// budgets one below, at and one above the count. "A run back is a run
    /// forward of the turned file."
    pub fn steps(&self, turned: bool) -> Vec<Step<'_>> {
        let mut steps = Vec::new();
        for back in [false, true] {
            let (letters, given) = if back == turned {
                (&self.value, &self.given)
            } else {
                (&self.given, &self.value)
            };
            for near in 0..3 {
                let ask = Ask {
                    iso: self.iso.into(),
                    back,
                    budget: self.count - 1 + near,
                    letters,
                };
                steps.push(Step {
                    ask,
                    count: self.count,
                    given: (near > 0).then_some(given),
                    place: (2 * usize::from(turned) + usize::from(back), near as usize),
                });
            }
        }
        steps
    }
}

impl Step<'_> {
    /// The query line.
    pub fn query(&self) -> Vec<u8> {
        let Ask {
            iso,
            back,
            budget,
            letters,
        } = self.ask;
        query::line(iso as usize, back, budget, letters)
    }

    /// How an answer and the letters written differ from what they have to be.
    pub fn difference(&self, answer: &Answer, written: &[u8]) -> Option<String> {
        let wanted = match self.given {
            Some(letters) => Answer {
                count: self.count.into(),
                length: letters.len(),
                ..Answer::default()
            },
            None => Answer {
                number: 17,
                ..Answer::default()
            },
        };
        if *answer == wanted && written == self.given.unwrap_or_default() {
            return None;
        }
        let letters = String::from_utf8_lossy(written);
        Some(format!(
            "there and back has to give {wanted:?}, there {answer:?} and {letters}"
        ))
    }

    /// The line that `rules` has to print.
    pub fn printed(&self) -> Vec<u8> {
        match self.given {
            Some(letters) => {
                let head = format!("0,{},", self.count);
                [head.as_bytes(), letters, b"\n"].concat()
            }
            None => b"17,0,\n".to_vec(),
        }
    }
}
