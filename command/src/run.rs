//! `run` and `bounds`: one setting sent through an iso, and how many steps that can take.

use crate::arguments::{number, Given};
use crate::look::asked;
use crate::rules::Rules;
use crate::show::tree;
use crate::{check, names, output, progress, words, Failure, Outcome, Status};
use rulefile::{Bounds, Desk, Direction, Query, Refusal, Refused, Value};
use std::ffi::OsStr;
use std::os::unix::ffi::OsStrExt;

/// The most steps that are made, in all, where no budget is given.
const UNASKED: u32 = 100_000_000;

/// How to go on where they are not enough.
const GO_ON: &str = "to go on, say how many may be made: --budget N, at most 4294967295";

/// The steps of each of so many runs of an iso, where no budget is given.
pub struct Unasked {
    /// The budget: enough for every run, up to its part of the most; 0 where every run takes more than that, so that
    /// none is begun.
    pub budget: u32,
    /// The part of the most that each run has.
    pub most: u32,
    /// The bound, and how to go on, said where the budget is passed.
    words: Option<[String; 2]>,
}

impl Unasked {
    /// For so many runs of an iso.
    pub fn of(desk: &mut Desk, file: &[u8], iso: u32, runs: u32) -> Unasked {
        let most = UNASKED / runs.max(1);
        let bounds = match desk.bounds(file, iso) {
            Ok(bounds) => bounds,
            Err(refused) if refused.refusal == Refusal::TooMany => {
                return Unasked::endless(iso, most)
            }
            // the library says what is wrong, whatever the budget
            Err(_) => {
                return Unasked {
                    budget: 0,
                    most,
                    words: None,
                }
            }
        };
        let steps = in_words(bounds);
        progress::tell(format!("iso {iso} takes {steps}"));
        let bound = format!(
            "a run of iso {iso} takes {steps}; without --budget no more than {most} are made"
        );
        Unasked {
            budget: match bounds.least > most {
                true => 0,
                false => bounds.greatest.min(most),
            },
            most,
            words: Some([bound, GO_ON.to_string()]),
        }
    }

    /// For an iso that has to do with lists: how many steps it takes has no bound, and each run gets its part of the
    /// most.
    fn endless(iso: u32, most: u32) -> Unasked {
        let bound = format!(
            "a run of iso {iso} has no bound, since lists are of any length; without --budget no more than {most} steps are made"
        );
        Unasked {
            budget: most,
            most,
            words: Some([bound, GO_ON.to_string()]),
        }
    }

    /// An answer; where it is that the budget was passed, the bound is said.
    pub fn told<T>(&self, answer: Result<T, Refused>) -> Result<T, Refused> {
        let spent = |refused: &Refused| refused.refusal == Refusal::Spent;
        if answer.as_ref().is_err_and(spent) {
            self.words
                .iter()
                .flatten()
                .for_each(|line| output::say(line));
        }
        answer
    }
}

/// The budget that was given.
pub fn budget(given: &Given) -> Result<Option<u32>, Failure> {
    let budget = given.value("--budget");
    let budget = budget.map(|word| number(word, "", "the budget"));
    budget.transpose()
}

/// A count, and what it counts.
pub fn counted(count: u128, what: &str) -> String {
    let plural = if count == 1 { "" } else { "s" };
    format!("{count} {what}{plural}")
}

/// The iso that a word says: by its number or, in an accepted file, by its name.
fn iso_of(rules: &Rules, word: &OsStr) -> Result<u32, Failure> {
    let name = word.to_str().and_then(|name| rules.names.iso_of(name));
    name.map_or_else(|| number(word, "", "ISO"), |iso| Ok(iso as u32))
}

/// The T lines that an iso leads from and to, one way.
fn ends(rules: &Rules, iso: u32, direction: Direction) -> Option<(usize, usize)> {
    let iso = rules.isos.get(iso as usize)?;
    match direction {
        Direction::Forward => Some((iso.from, iso.to)),
        Direction::Back => Some((iso.to, iso.from)),
    }
}

/// Whether a text was meant as letters: it begins like them, or is nothing else but for their size.
fn meant_as_letters(rules: &Rules, text: &str) -> bool {
    let all = names::letters(rules);
    let letter = |c: char| all.contains(c);
    let begins = text.chars().count() > 1 && text.chars().take(2).all(letter);
    begins || text.chars().all(|c| letter(c.to_ascii_uppercase()))
}

/// The letters of a setting of a T line that a word says. Where it says none, the word stays as it is, for the library
/// to refuse, and why it is none is told, unless it was meant as letters.
pub fn letters(rules: &Rules, ty: Option<usize>, word: &OsStr) -> (Vec<u8>, Option<String>) {
    let bytes = word.as_bytes().to_vec();
    let (Some(ty), Some(text)) = (ty, word.to_str()) else {
        return (bytes, None);
    };
    match words::read(rules, ty, text) {
        Ok(letters) => (letters, None),
        Err(_) if meant_as_letters(rules, text) => (bytes, None),
        Err(why) => (bytes, Some(why)),
    }
}

/// Runs an iso on a setting.
pub fn run(given: &Given) -> Outcome {
    let budget = budget(given)?;
    let direction = match given.flag("--back") {
        false => Direction::Forward,
        true => Direction::Back,
    };
    let mut desk = Desk::new();
    let Some(file) = check::read_accepted(&mut desk, given)? else {
        return Ok(Status::Refused);
    };
    let mut rules = names::rules(given.word(0), &file.bytes);
    rules.letters = given.flag("--letters");
    let iso = iso_of(&rules, given.word(1))?;
    let ends = ends(&rules, iso, direction);
    let (letters, why) = letters(&rules, ends.map(|ends| ends.0), given.word(2));
    let unasked = Unasked::of(&mut desk, &file.bytes, iso, 1);
    let query = |budget| Query::new(iso, direction, budget, &letters);
    let value = match budget {
        Some(budget) => desk.run(&file.bytes, query(budget)),
        None => unasked.told(desk.run(&file.bytes, query(unasked.budget))),
    };
    let answer = value.map(|value| became(&rules, ends, &letters, &value));
    let asked = (iso, direction, budget.unwrap_or(unasked.most));
    let told = |refused| asked::run(&mut desk, &file.bytes, asked, &letters, refused).or(why);
    check::answer("0,", answer.map_err(told))
}

/// What became of a setting: the line for programs, and words.
fn became(rules: &Rules, ends: Option<(usize, usize)>, letters: &[u8], value: &Value) -> String {
    let (from, to) = ends.unwrap_or_default();
    let from = tree::setting(rules, from, letters);
    let becomes = tree::setting(rules, to, &value.letters);
    let (count, steps) = (value.count, counted(value.count.into(), "step"));
    let to = String::from_utf8_lossy(&value.letters);
    format!("0,{count},{to}\n{from} becomes {becomes}, in {steps}\n")
}

/// The steps that the runs of an iso take, in words.
pub fn in_words(bounds: Bounds) -> String {
    let over = |number: u32, over: bool| match over {
        true => "over 4294967295".to_string(),
        false => number.to_string(),
    };
    let least = over(bounds.least, bounds.least_over);
    let greatest = over(bounds.greatest, bounds.greatest_over);
    match (least == greatest, bounds.greatest) {
        (true, 1) => "1 step".to_string(),
        (true, _) => format!("{greatest} steps"),
        (false, _) => format!("{least} to {greatest} steps"),
    }
}

/// Bounds the steps of an iso.
pub fn bounds(given: &Given) -> Outcome {
    let iso = number(given.word(1), "", "ISO")?;
    check::ask(given, "0,0", |desk, file| {
        let bounds = desk.bounds(file, iso);
        let bounds = bounds.map_err(|refused| asked::iso(file, iso, refused))?;
        let (least, greatest) = (bounds.least, bounds.greatest);
        let words = in_words(bounds);
        Ok(format!(
            "0,{least},{greatest}\niso {iso}: {words}, there and back\n"
        ))
    })
}
