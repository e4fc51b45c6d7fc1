//! Request 13: isos of as many clauses as only the new ceiling admits, accepted
//! or with one fault.

use super::counted;
use super::plan::{permuted, small, wide_of};
use super::random::Random;
use super::scribe;
use super::shape::{closed, refined, Sketch};
use super::shown::{around, spoiled};
use crate::lines::{Clause, Iso, Let, CLAUSES, SIDES};
use crate::tree::Pattern;
use std::rc::Rc;

/// Clauses around the old ceiling and the new one.
pub const COUNTS: [usize; 4] = [32, 33, 127, CLAUSES];

/// Patterns whose weights only many clauses reach.
#[derive(Debug, Clone, Copy, PartialEq, Eq)]
pub enum Weight {
    /// Seven left and right nodes in each.
    Even,
    /// Forty in one.
    Forty,
}

/// What is given for such an iso: 0, or one of 8 to 14.
pub const NUMBERS: [u8; 8] = [0, 8, 9, 10, 11, 12, 13, 14];

/// The isos before the one in question: one of the unit type, and one that
/// exchanges two values.
const UNIT: usize = 0;
const SWAP: usize = 1;

/// A file whose last iso has so many clauses, and for which the number is given.
pub fn file(random: &mut Random, number: u8, count: usize) -> Vec<u8> {
    let made = |random: &mut Random, earlier: &[Iso]| iso(random, earlier, number, count);
    given(random, number, made)
}

/// A file whose last iso has patterns of these weights, and which is accepted or
/// refused for a gap, on the right for even ones alone.
pub fn weighed(random: &mut Random, weight: Weight, number: u8) -> Vec<u8> {
    let made = |random: &mut Random, _: &[Iso]| match (weight, number) {
        (Weight::Even, 0) => Some(even(random)),
        (Weight::Even, _) => Some(uneven(random, number)),
        (Weight::Forty, _) => {
            let count = 42 + random.below(CLAUSES - 41);
            let mut iso = forty(random, count)?;
            let gone = iso
                .clauses
                .iter()
                .position(|clause| clause.left.sides() < SIDES);
            if number > 0 {
                iso.clauses.remove(gone?);
            }
            Some(iso)
        }
    };
    given(random, number, made)
}

/// A file with an iso that is made behind two others, and for which the number is
/// given.
fn given(
    random: &mut Random,
    number: u8,
    made: impl Fn(&mut Random, &[Iso]) -> Option<Iso>,
) -> Vec<u8> {
    loop {
        let mut isos = vec![small(), wide_of(random, 2)];
        let Some(iso) = made(random, &isos) else {
            continue;
        };
        isos.push(iso);
        let file = scribe::file(random, &isos);
        let given = random
            .check(&file)
            .err()
            .map_or(0, |refusal| refusal.number);
        if given == number {
            return file;
        }
    }
}

fn iso(random: &mut Random, earlier: &[Iso], number: u8, count: usize) -> Option<Iso> {
    let special = random.chance(50);
    match number {
        11 if special => {
            let mut iso = standing(random, earlier, count - 1)?;
            let again = random.pick(&iso.clauses).clone();
            iso.clauses.insert(random.below(count), again);
            Some(iso)
        }
        13 | 14 if special && count + 1 == CLAUSES => Some(uneven(random, number)),
        13 if special => {
            let mut iso = standing(random, earlier, count + 1)?;
            iso.clauses.remove(random.below(count + 1));
            Some(iso)
        }
        11..=14 => {
            let iso = wide_of(random, count);
            Some(spoiled(random, iso, number))
        }
        _ => {
            let mut iso = standing(random, earlier, count)?;
            if number > 0 {
                let place = random.below(count);
                let place = *random.pick(&[0, 31, count.min(33) - 1, count - 1, place]);
                spoil(random, &mut iso.clauses[place], number);
            }
            Some(iso)
        }
    }
}

/// An accepted iso of so many clauses: closed values, 128 values of as many left
/// and right nodes, holes opened one by one, or cases around a value of forty
/// left and right nodes.
fn standing(random: &mut Random, earlier: &[Iso], count: usize) -> Option<Iso> {
    match random.below(4) {
        0 => return Some(wide_of(random, count)),
        1 if count == CLAUSES => return Some(even(random)),
        2 if count > 41 => return forty(random, count),
        _ => {}
    }
    let built = *random.pick(&["2^8", "2^12", "3^6", "2^3 (2^6)", "2^4 3^5"]);
    let ty = counted::of(random, built);
    let hole = Sketch::Hole(Rc::clone(&ty));
    let mut cases = refined(random, vec![hole], count)?;
    random.shuffle(&mut cases);
    permuted(random, &ty, &cases, earlier)
}

/// An iso that gives each value back, with the same pattern on both sides: its
/// lines would be too many otherwise.
fn forty(random: &mut Random, count: usize) -> Option<Iso> {
    let ty = counted::of(random, "3^20");
    let cases = around(random, &ty, true);
    let mut cases = refined(random, cases, count)?;
    random.shuffle(&mut cases);
    let clause = |case: &Sketch| {
        let mut numbers = 0..32;
        let pattern = case.pattern(&mut |_| numbers.next().unwrap_or(0));
        Clause {
            line: 0,
            left: Rc::clone(&pattern),
            right: pattern,
            lets: Vec::new(),
        }
    };
    Some(Iso {
        line: 0,
        from: Rc::clone(&ty),
        clauses: cases.iter().map(clause).collect(),
        to: ty,
    })
}

/// Each of 128 values of seven left and right nodes: no fewer patterns of so
/// little weight cover a type.
fn even(random: &mut Random) -> Iso {
    let ty = counted::of(random, "2^7");
    let mut cases = closed(&ty);
    random.shuffle(&mut cases);
    permuted(random, &ty, &cases, &[]).expect("no holes")
}

/// The same without one of them, on both sides for 13, on the right for 14.
fn uneven(random: &mut Random, number: u8) -> Iso {
    let mut iso = even(random);
    iso.clauses.pop();
    if number == 14 {
        let other = wide_of(random, iso.clauses.len());
        iso.from = other.from;
        for (clause, other) in iso.clauses.iter_mut().zip(other.clauses) {
            clause.left = other.left;
        }
    }
    iso
}

/// Makes a clause break 8, 9 or 10.
fn spoil(random: &mut Random, clause: &mut Clause, number: u8) {
    let unit = || Rc::new(Pattern::Unit);
    let variable = || Rc::new(Pattern::Variable(31));
    let side = || Rc::new(Pattern::Left(unit()));
    let pair = |one, two| Rc::new(Pattern::Pair(one, two));
    let mut step = |p, iso, q| clause.lets.push(Let { p, iso, q });
    match (number, random.below(3)) {
        (8, 0) => step(variable(), UNIT, unit()),
        (8, 1) => step(unit(), UNIT, variable()),
        (8, _) => clause.right = variable(),
        (9, 0) => step(side(), SWAP, unit()),
        (9, 1) => step(unit(), SWAP, side()),
        (9, _) => step(unit(), UNIT, pair(unit(), side())),
        (_, 0) => step(pair(unit(), unit()), UNIT, unit()),
        (_, 1) => clause.left = pair(Rc::clone(&clause.left), unit()),
        _ => clause.right = Rc::new(Pattern::Right(Rc::clone(&clause.right))),
    }
}
