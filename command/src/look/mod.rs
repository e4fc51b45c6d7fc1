//! "look here": what exactly is at fault where the library refuses. The library judges; here is only looked for what a
//! person can name and mend. A file's lines are read only as far as the library has found them in order.

pub mod asked;
mod clauses;
mod large;
mod lines;
mod lists;
mod recursion;

use crate::form;
use crate::rules::Rules;
use rulefile::{Refusal, Refused};

pub use clauses::meeting;

/// What is at fault in a refused file, in a sentence.
pub fn here(file: &[u8], refused: Refused) -> Option<String> {
    match refused.refusal {
        Refusal::TooLong => Some(lines::too_long(file)),
        Refusal::BadLine => form::fault(&form::RULES, file, refused.line),
        Refusal::Misplaced | Refusal::BadField | Refusal::BadName | Refusal::Ceiling => {
            lines::fault(file, refused)
        }
        Refusal::Variable | Refusal::LetShape | Refusal::Type => {
            // of lefts, rights and sums is spoken as the lines have them
            let letters = Rules {
                letters: true,
                ..Rules::of(file)
            };
            clauses::fault(&letters, refused)
        }
        Refusal::Recursion => {
            let letters = Rules {
                letters: true,
                ..Rules::of(file)
            };
            recursion::fault(&letters, refused)
        }
        _ => None,
    }
}

/// A number of lines and what they are called: `no T line`, `1 T line, T0`, `7 T lines, T0 to T6`.
fn numbered(count: usize, what: &str, name: &str) -> String {
    match count {
        0 => format!("no {what}"),
        1 => format!("1 {what}, {name}0"),
        _ => format!("{count} {what}s, {name}0 to {name}{}", count - 1),
    }
}
