//! Towers of 32 isos whose greatest count lies at the limit of request 05, or
//! far above it.

use super::plan::two;
use super::random::Random;
use super::scribe;
use crate::lines::{Clause, Iso, Let, ISOS, LETS};
use crate::tree::{Pattern, Type};
use std::rc::Rc;

/// What iso 31 needs at the most, and the isos that it calls. Of the isos below
/// it the first has no let steps and each other calls the one before it twice,
/// so that iso k needs 2 to the power of k + 1, less 1.
pub const NEEDS: [(u128, &[usize]); 4] = [
    (4_294_967_294, &[30, 29, 29]),
    (4_294_967_295, &[30, 30]),
    (4_294_967_296, &[30, 30, 0]),
    (4_294_967_297, &[30, 30, 0, 0]),
];

/// The iso of these files that stands at the limit.
pub const TOP: u32 = ISOS as u32 - 1;

/// A file of these; where `both` does not hold, iso 31 has a clause without let
/// steps too, so that its least is 1.
pub fn file(random: &mut Random, place: usize, both: bool) -> Vec<u8> {
    let mut isos = vec![storey(random, &[], true)];
    for below in 0..ISOS - 2 {
        isos.push(storey(random, &[below, below], true));
    }
    isos.push(storey(random, NEEDS[place].1, both));
    scribe::file(random, &isos)
}

/// What iso 31 of a `deep` file needs: 1 and 8 and so on up to 8 to the 31st.
pub const DEEP: u128 = ((1 << 96) - 1) / 7;

/// A file in which each iso calls the one below it eight times.
pub fn deep(random: &mut Random) -> Vec<u8> {
    let mut isos = vec![storey(random, &[], true)];
    for below in 0..ISOS - 1 {
        isos.push(storey(random, &[below; LETS], true));
    }
    scribe::file(random, &isos)
}

/// An iso that calls these, all of the unit type; or one of the type of two
/// values, of which one clause calls them and the other does not.
fn storey(random: &mut Random, calls: &[usize], both: bool) -> Iso {
    if both {
        let ty = Rc::new(Type::Unit);
        return iso(&ty, vec![clause(random, calls, |part| part)]);
    }
    let mut clauses = vec![
        clause(random, calls, |part| Rc::new(Pattern::Left(part))),
        clause(random, &[], |part| Rc::new(Pattern::Right(part))),
    ];
    random.shuffle(&mut clauses);
    iso(&two(), clauses)
}

fn iso(ty: &Rc<Type>, clauses: Vec<Clause>) -> Iso {
    Iso {
        line: 0,
        from: Rc::clone(ty),
        to: Rc::clone(ty),
        clauses,
    }
}

/// A clause that sends a unit through the isos called, as itself or as one
/// variable after the other.
fn clause(random: &mut Random, calls: &[usize], side: fn(Rc<Pattern>) -> Rc<Pattern>) -> Clause {
    let mut numbers: Vec<u16> = (0..32).collect();
    random.shuffle(&mut numbers);
    let plain = random.chance(50);
    let held = |place: usize| {
        Rc::new(if plain {
            Pattern::Unit
        } else {
            Pattern::Variable(numbers[place])
        })
    };
    let step = |(place, iso): (usize, &usize)| Let {
        p: held(place + 1),
        iso: *iso,
        q: held(place),
    };
    Clause {
        line: 0,
        left: side(held(0)),
        right: side(held(calls.len())),
        lets: calls.iter().enumerate().map(step).collect(),
    }
}
