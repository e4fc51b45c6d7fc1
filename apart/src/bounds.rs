//! Request 05, "Steps known beforehand": bounds on the count of any run of an
//! iso, without a run.
//!
//! They are found depth by depth, in exact numbers: where no call is made at
//! all nothing is needed, and what is needed with calls nested one deeper
//! follows from that, for all isos at once, until no number changes any more.
//! An L line names an earlier iso, so that this is so after as many depths as
//! there are isos; the order of the isos is not used otherwise. Isos that have to
//! do with lists are left out (request 14): they may call themselves.

use crate::areas::Known;
use crate::lines::{Clause, Iso};
use crate::recursion::has_lists;
use crate::{Refusal, Rules};

/// "Both stop at 4,294,967,295".
pub const LIMIT: u128 = 4_294_967_295;

/// The numbers as they are reckoned: below 9 to the 32nd, since a clause has at
/// most 8 let steps and a file at most 32 isos.
#[derive(Debug, PartialEq, Eq, Clone, Copy)]
pub struct Exact {
    pub least: u128,
    pub greatest: u128,
}

/// What the service gives: "a refusal gives 0 for both, unflagged".
#[derive(Debug, Default, PartialEq, Eq, Clone, Copy)]
pub struct Bounded {
    pub number: u8,
    pub least: u32,
    pub greatest: u32,
    pub least_over: bool,
    pub greatest_over: bool,
}

/// "A clause needs 1 plus the sum over its let steps".
fn needs(clause: &Clause, of: impl Fn(usize) -> u128) -> u128 {
    let steps: u128 = clause.lets.iter().map(|step| of(step.iso)).sum();
    1 + steps
}

/// "the iso takes the least and greatest over its clauses".
fn over_clauses(iso: &Iso, below: &[Exact]) -> Exact {
    let clauses = || iso.clauses.iter();
    let least = clauses().map(|clause| needs(clause, |iso| below[iso].least));
    let greatest = clauses().map(|clause| needs(clause, |iso| below[iso].greatest));
    Exact {
        least: least.min().expect("an accepted iso has a clause"),
        greatest: greatest.max().expect("an accepted iso has a clause"),
    }
}

/// The numbers of all isos of an accepted file; 0 where lists are reached.
pub fn exact(isos: &[Iso]) -> Vec<Exact> {
    let with_lists = |iso: usize| has_lists(isos, iso);
    let left_out: Vec<bool> = (0..isos.len()).map(with_lists).collect();
    let nothing = Exact {
        least: 0,
        greatest: 0,
    };
    let mut numbers = vec![nothing; isos.len()];
    loop {
        let deepened = |(iso, left_out): (&Iso, &bool)| match left_out {
            true => nothing,
            false => over_clauses(iso, &numbers),
        };
        let deeper: Vec<Exact> = isos.iter().zip(&left_out).map(deepened).collect();
        if deeper == numbers {
            return numbers;
        }
        numbers = deeper;
    }
}

/// "Both stop at 4,294,967,295, and a flag for each says when the number so
/// reckoned is above that."
fn told(number: u128) -> (u32, bool) {
    match u32::try_from(number) {
        Ok(number) => (number, false),
        Err(_) => (u32::MAX, true),
    }
}

/// The bounds of an iso of an accepted file: "15 if absent", then 18 where lists
/// are reached (request 14).
pub fn bounds_rules(rules: &Rules, iso: u32) -> Result<Bounded, Refusal> {
    let refused = |number| Refusal { number, line: 0 };
    let numbers = exact(&rules.isos);
    let place = usize::try_from(iso).unwrap_or(usize::MAX);
    let exact = numbers.get(place).ok_or(refused(15))?;
    if has_lists(&rules.isos, place) {
        return Err(refused(18));
    }
    let (least, least_over) = told(exact.least);
    let (greatest, greatest_over) = told(exact.greatest);
    Ok(Bounded {
        number: 0,
        least,
        greatest,
        least_over,
        greatest_over,
    })
}

/// The bounds of an iso, with lent areas.
pub fn bounds(known: &Known, table: &mut [u16], work: &mut [u8], iso: u32) -> Bounded {
    let given = known
        .enter(false, table, work)
        .and_then(|rules| bounds_rules(rules, iso));
    given.unwrap_or_else(|Refusal { number, .. }| Bounded {
        number,
        ..Bounded::default()
    })
}
