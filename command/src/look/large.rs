//! Refusal 24 of a run: what is too large, found by running the iso over the file's lines as the command reads them. That
//! it is refused is the library's to say.

use super::clauses::past;
use crate::rules::{Clause, Rules};
use crate::run::counted;
use crate::settings::MOST_LETTERS;
use rulefile::Direction;

/// The deepest that conversions call each other; the first is 1.
const DEEPEST: usize = 40;

/// The most steps that are made to find what is too large.
const STEPS: u32 = 100_000;

/// The letters that the variables of a clause stand for.
type Bound = [Vec<u8>; 32];

/// Why a run goes no further.
enum Stop {
    /// What is too large, in words.
    Large(String),
    /// More steps than are made, or lines that do not fit each other.
    Other,
}

/// A run, and the steps that are left.
struct Walk<'a> {
    rules: &'a Rules,
    back: bool,
    left: u32,
}

/// What is too large in a run that the library refuses with 24.
pub fn fault(rules: &Rules, iso: u32, direction: Direction, letters: &[u8]) -> Option<String> {
    let mut walk = Walk {
        rules,
        back: direction == Direction::Back,
        left: STEPS,
    };
    match walk.apply(iso as usize, letters, 1) {
        Err(Stop::Large(said)) => Some(said),
        _ => None,
    }
}

/// What is said of too many letters.
fn letters_of(what: String, letters: &[u8]) -> Stop {
    let count = counted(letters.len() as u128, "letter");
    Stop::Large(format!(
        "{what} has {count}; at most {MOST_LETTERS} are allowed"
    ))
}

impl Walk<'_> {
    /// What an iso makes of a setting: counted, then its argument and depth measured, its result when it is there.
    fn apply(&mut self, iso: usize, letters: &[u8], depth: usize) -> Result<Vec<u8>, Stop> {
        self.left = self.left.checked_sub(1).ok_or(Stop::Other)?;
        if letters.len() > MOST_LETTERS {
            let what = match depth {
                1 => "the setting that was given".to_string(),
                _ => format!("what iso {iso} is called with, {depth} deep,"),
            };
            return Err(letters_of(what, letters));
        }
        if depth > DEEPEST {
            let why = format!("iso {iso} is called {depth} deep, the first call being 1");
            return Err(Stop::Large(format!("{why}; at most {DEEPEST} are allowed")));
        }
        let result = self.clauses(iso, letters, depth)?;
        match result.len() > MOST_LETTERS {
            true => Err(letters_of(
                format!("what iso {iso} gives, {depth} deep,"),
                &result,
            )),
            false => Ok(result),
        }
    }

    /// The clause that matches, with its let steps.
    fn clauses(&mut self, iso: usize, letters: &[u8], depth: usize) -> Result<Vec<u8>, Stop> {
        let rules = self.rules;
        let clauses = &rules.isos.get(iso).ok_or(Stop::Other)?.clauses;
        for clause in clauses {
            let (left, right) = self.sides(clause);
            let mut bound = Bound::default();
            if bind(rules, left, letters, &mut bound).is_some_and(<[u8]>::is_empty) {
                self.lets(clause, &mut bound, depth)?;
                let mut result = Vec::new();
                build(rules, right, &bound, &mut result);
                return Ok(result);
            }
        }
        Err(Stop::Other)
    }

    fn sides(&self, clause: &Clause) -> (usize, usize) {
        match self.back {
            false => (clause.left, clause.right),
            true => (clause.right, clause.left),
        }
    }

    fn lets(&mut self, clause: &Clause, bound: &mut Bound, depth: usize) -> Result<(), Stop> {
        let count = clause.lets.len();
        for place in 0..count {
            let step = match self.back {
                false => clause.lets[place],
                true => clause.lets[count - 1 - place],
            };
            let (p, q) = match self.back {
                false => (step.p, step.q),
                true => (step.q, step.p),
            };
            let mut argument = Vec::new();
            build(self.rules, q, bound, &mut argument);
            let result = self.apply(step.iso, &argument, depth + 1)?;
            let rest = bind(self.rules, p, &result, bound);
            rest.filter(|rest| rest.is_empty()).ok_or(Stop::Other)?;
        }
        Ok(())
    }
}

/// Binds the variables of a pattern to what stands in front of letters; the letters behind, where it matches.
fn bind<'a>(
    rules: &Rules,
    pattern: usize,
    letters: &'a [u8],
    bound: &mut Bound,
) -> Option<&'a [u8]> {
    let row = rules.patterns[pattern];
    if row.kind == 1 {
        let rest = past(letters)?;
        *bound.get_mut(row.a)? = letters[..letters.len() - rest.len()].to_vec();
        return Some(rest);
    }
    let (first, mut rest) = letters.split_first()?;
    let letter = *b"U?LRPNK".get(row.kind)?;
    if *first != letter {
        return None;
    }
    for part in rules.below(pattern) {
        rest = bind(rules, part, rest, bound)?;
    }
    Some(rest)
}

/// The letters of a pattern with what its variables stand for.
fn build(rules: &Rules, pattern: usize, bound: &Bound, letters: &mut Vec<u8>) {
    let row = rules.patterns[pattern];
    match row.kind {
        1 => letters.extend(bound.get(row.a).into_iter().flatten()),
        kind => {
            letters.extend(b"U?LRPNK".get(kind));
            for part in rules.below(pattern) {
                build(rules, part, bound, letters);
            }
        }
    }
}
