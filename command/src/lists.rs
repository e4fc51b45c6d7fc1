//! `export` and `import`: conversions as pair lists.

use crate::arguments::{number, Given};
use crate::look::asked::{self, Told};
use crate::rules::Rules;
use crate::run::{self, Unasked};
use crate::{check, input, output, turn, Failure, Outcome, Status};
use rulefile::{Desk, Refusal};

/// Writes what an accepted file gives, alone; on refusal nothing is written.
fn write(
    given: &Given,
    question: impl FnOnce(&mut Desk, &[u8]) -> Result<Vec<u8>, Told>,
) -> Outcome {
    turn::require_other(given.word(0), given.value("-o"))?;
    let target = output::target(given)?;
    let mut desk = Desk::new();
    let Some(file) = check::read_accepted(&mut desk, given)? else {
        return Ok(Status::Refused);
    };
    match question(&mut desk, &file.bytes) {
        Ok(written) => target.give(&written).map(|()| Status::Done),
        Err(told) => Ok(check::say_refused(&told)),
    }
}

/// How many settings an iso of an accepted file has.
fn settings(file: &[u8], iso: u32) -> u32 {
    let rules = Rules::of(file);
    let from = rules.isos.get(iso as usize).map(|iso| iso.from);
    let count = from.and_then(|from| rules.settings.get(from));
    count.map_or(0, |count| u32::try_from(*count).unwrap_or(u32::MAX))
}

/// Writes an iso as a pair list.
pub fn export(given: &Given) -> Outcome {
    let iso = number(given.word(1), "", "ISO")?;
    let budget = run::budget(given)?;
    write(given, |desk, file| {
        let unasked = Unasked::of(desk, file, iso, settings(file, iso));
        let list = match budget {
            Some(budget) => desk.export(file, iso, budget),
            None => unasked.told(desk.export(file, iso, unasked.budget)),
        };
        list.map_err(|refused| match (budget, refused.refusal) {
            // the bound is said, and nothing is run to say more
            (None, Refusal::Spent) => Told::from(refused),
            (budget, _) => {
                let budget = budget.unwrap_or(unasked.budget);
                asked::export(desk, file, iso, budget, refused)
            }
        })
    })
}

/// Writes a file out of a pair list.
pub fn import(given: &Given) -> Outcome {
    let from = number(given.word(1), "T", "FROM")?;
    let to = number(given.word(2), "T", "TO")?;
    if given.word(0) == "-" && given.word(3) == "-" {
        let why = "FILE and LIST cannot both be standard input";
        return Err(Failure(why.to_string()));
    }
    turn::require_other(given.word(3), given.value("-o"))?;
    let list = input::read_list(given.word(3), "pair list")?;
    write(given, |desk, file| {
        let written = desk.import(file, from, to, &list);
        written.map_err(|refused| asked::import(file, [from, to], &list, refused))
    })
}
