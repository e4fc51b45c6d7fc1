//! Towers: isos that send their value through the ones below, for long runs,
//! and files of the longest values.

use super::plan::{cover, fits, one_of, open, permuted, some_type, take_back, two, variable, Open};
use super::random::Random;
use super::scribe;
use super::shape::{longest_type, Sketch};
use crate::lines::{Clause, Iso, Let, ISOS, LETS};
use crate::tree::{Pattern, Type};
use std::rc::Rc;

/// A tower: each iso sends its value through the one below several times, so
/// that the count grows by that factor with each storey.
pub fn tower(random: &mut Random) -> Vec<u8> {
    let base = loop {
        let ty = some_type(random, &[]);
        if let Some(iso) = flat(random, &ty) {
            break iso;
        }
    };
    let mut isos = vec![base];
    let height = match random.below(10) {
        0..=1 => ISOS - 1,
        2..=4 => 9 + random.below(9),
        _ => 1 + random.below(8),
    };
    for below in 0..height {
        let calls = calls(random, below);
        add_storey(random, &mut isos, &calls);
    }
    scribe::file(random, &isos)
}

/// Most often two calls of the iso below.
fn calls(random: &mut Random, below: usize) -> Vec<usize> {
    let times = if random.chance(80) {
        2
    } else {
        1 + random.below(8)
    };
    let call = |_| {
        if random.chance(90) {
            below
        } else {
            random.below(below + 1)
        }
    };
    (0..times).map(call).collect()
}

/// A tower of 32 isos on values of 127 letters: each calls the one below once
/// and the lowest seven times, so that all 32 are open at once and the calls
/// before have left their letters.
pub fn stack(random: &mut Random) -> Vec<u8> {
    let base = loop {
        let ty = longest_type(random);
        if let Some(iso) = flat(random, &ty) {
            break iso;
        }
    };
    let mut isos = vec![base];
    let place = *random.pick(&[0, LETS - 1]);
    for below in 0..ISOS - 1 {
        let mut calls = [0; LETS];
        calls[place] = below;
        add_storey(random, &mut isos, &calls);
    }
    scribe::file(random, &isos)
}

/// The isos of a `long` file whose counts are 65,535, 65,536, 65,537 and
/// 1,048,575.
pub const LONG_ISOS: [u16; 4] = [15, 20, 21, 19];

/// Iso k calls the one below twice and has the count 2^(k + 1) - 1, up to iso
/// 19; iso 20 calls iso 15 alone, iso 21 also iso 0.
pub fn long(random: &mut Random) -> Vec<u8> {
    let pair = Rc::new(Type::Product(two(), two()));
    let ty = Rc::clone(random.pick(&[two(), pair]));
    let mut isos = vec![flat(random, &ty).expect("few cases and no ceiling")];
    for below in 0..19 {
        add_storey(random, &mut isos, &[below, below]);
    }
    add_storey(random, &mut isos, &[15]);
    add_storey(random, &mut isos, &[15, 0]);
    scribe::file(random, &isos)
}

/// An iso of the type without let steps.
fn flat(random: &mut Random, ty: &Rc<Type>) -> Option<Iso> {
    let cases = cover(random, ty);
    permuted(random, ty, &cases, &[]).filter(fits)
}

/// Adds an iso that sends its value through the isos called, in this order.
fn add_storey(random: &mut Random, isos: &mut Vec<Iso>, calls: &[usize]) {
    let ty = Rc::clone(&isos[0].from);
    let mut clause = open(random, &Sketch::Hole(Rc::clone(&ty))).expect("one variable");
    for iso in calls {
        let q = one_of(random, &ty, &mut clause.held).expect("one is held");
        take_back(random, &mut clause, &q);
        let p = variable(&mut clause, &ty);
        clause.lets.push(Let { p, iso: *iso, q });
    }
    isos.push(closed_storey(&ty, clause));
}

fn closed_storey(ty: &Rc<Type>, clause: Open) -> Iso {
    let right = Rc::new(Pattern::Variable(clause.held[0].0));
    let clauses = vec![Clause {
        line: 0,
        left: clause.left,
        right,
        lets: clause.lets,
    }];
    Iso {
        line: 0,
        from: Rc::clone(ty),
        to: Rc::clone(ty),
        clauses,
    }
}

/// An iso on values of 127 letters.
pub fn longest_value(random: &mut Random) -> Vec<u8> {
    loop {
        let ty = longest_type(random);
        if let Some(iso) = flat(random, &ty) {
            return scribe::file(random, &[iso]);
        }
    }
}
