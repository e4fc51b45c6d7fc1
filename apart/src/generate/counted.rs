//! Files with types of many values, for the limit of request 02.

use super::plan::{self, two};
use super::random::Random;
use super::scribe;
use crate::lines::{Clause, Iso};
use crate::tree::{Pattern, Type};
use std::rc::Rc;

/// Counts of values and how types of 127 nodes at most come to them: the
/// product of what is listed, `3^5` five times a type of three values, brackets
/// one value more than what they hold. The first ones can be numbered, and of
/// these the second one is the highest that a type can have; the first of the
/// others passes the limit by one, and the next one is the lowest behind it.
pub const COUNTS: [(u64, &str); 12] = [
    (2_147_483_648, "2^31"),
    (4_294_943_352, "2 3^5 (2 3) (2^6 3^2) (3^7)"),
    (4_294_914_435, "3^6 (2 3) (2^5 3^3) (2^2 3^5)"),
    (4_294_358_208, "1 2^6 3^9 (2 3) (2 3^5)"),
    (3_486_784_402, "(3^20)"),
    (4_294_967_296, "2^32"),
    (4_294_988_064, "2^5 3^10 (2^2 (3^4 (2 3)))"),
    (4_295_106_162, "2 3^14 (2^6 (2 3))"),
    (4_295_106_162, "1 2 3^14 (2^6 (2 3))"),
    (4_295_106_163, "(2 3^14 (2^6 (2 3)))"),
    (10_460_353_203, "3^21"),
    (13_947_137_604, "2^2 3^20"),
];

/// An accepted file with a type of one of the counts, by its place, and with
/// others now and then.
pub fn file(random: &mut Random, place: usize) -> Vec<u8> {
    loop {
        let mut isos = Vec::new();
        if random.chance(50) {
            isos = plan::isos(random);
            isos.truncate(3);
        }
        if random.chance(50) {
            let ty = factors(random);
            isos.push(same(random, &ty));
        }
        let ty = of(random, COUNTS[place].1);
        isos.push(same(random, &ty));
        let file = scribe::file(random, &isos);
        if random.check(&file).is_ok() {
            return file;
        }
    }
}

/// A type of factors of two and three.
fn factors(random: &mut Random) -> Rc<Type> {
    let threes = random.below(22);
    let twos = (63 - 3 * threes) / 2;
    of(random, &format!("1 2^{twos} 3^{threes}"))
}

/// A type of the count that is built so; how its parts stand is left to
/// chance.
pub fn of(random: &mut Random, built: &str) -> Rc<Type> {
    let spaced = built.replace('(', "( ").replace(')', " )");
    product(random, &mut spaced.split_whitespace())
}

/// The product of the words up to the end of the bracket.
fn product<'a>(random: &mut Random, words: &mut impl Iterator<Item = &'a str>) -> Rc<Type> {
    let mut factors = Vec::new();
    while let Some(word) = words.next() {
        let (base, times) = word.split_once('^').unwrap_or((word, "1"));
        let times: usize = times.parse().expect("a number of times");
        match base {
            ")" => break,
            "(" => {
                let within = product(random, words);
                factors.push(one_more(random, within));
            }
            base => factors.extend((0..times).map(|_| small(random, base))),
        }
    }
    joined(random, factors)
}

fn small(random: &mut Random, base: &str) -> Rc<Type> {
    match base {
        "1" => Rc::new(Type::Unit),
        "2" => two(),
        _ => one_more(random, two()),
    }
}

/// One value more, on either side.
fn one_more(random: &mut Random, ty: Rc<Type>) -> Rc<Type> {
    let unit = Rc::new(Type::Unit);
    Rc::new(if random.chance(50) {
        Type::Sum(unit, ty)
    } else {
        Type::Sum(ty, unit)
    })
}

/// The product in any order: a chain to either side, or neighbours joined one
/// after the other.
fn joined(random: &mut Random, mut factors: Vec<Rc<Type>>) -> Rc<Type> {
    random.shuffle(&mut factors);
    let way = random.below(3);
    while factors.len() > 1 {
        let place = match way {
            0 => 0,
            1 => factors.len() - 2,
            _ => random.below(factors.len() - 1),
        };
        let second = factors.remove(place + 1);
        let first = Rc::clone(&factors[place]);
        factors[place] = Rc::new(Type::Product(first, second));
    }
    factors.pop().expect("at least one factor")
}

/// The iso that gives each value back.
fn same(random: &mut Random, ty: &Rc<Type>) -> Iso {
    let variable = Rc::new(Pattern::Variable(random.below(32) as u16));
    let clause = Clause {
        line: 0,
        left: Rc::clone(&variable),
        right: variable,
        lets: Vec::new(),
    };
    Iso {
        line: 0,
        from: Rc::clone(ty),
        to: Rc::clone(ty),
        clauses: vec![clause],
    }
}
