//! Request 14: runs that end at a ceiling of 24 or one below it, with what they
//! have to give.

use super::plan::two;
use super::random::Random;
use super::scribe;
use super::zoned::{
    clause, each, element, empty, iso, list, pair, product, sent_on, step, unit, variables,
};
use crate::lines::Iso;
use crate::tree::{Pattern, Type};
use std::rc::Rc;

/// "An argument or result of over 127 letters, or calls nested deeper than 40 (the
/// outermost is 1)".
#[derive(Debug, Clone, Copy, PartialEq, Eq)]
pub enum Cause {
    /// The value handed in.
    Start,
    /// The argument of a let step.
    Argument,
    Result,
    Depth,
    /// Calls without an end, back from a value that is never reached.
    Endless,
}

pub const CAUSES: [Cause; 5] = [
    Cause::Start,
    Cause::Argument,
    Cause::Result,
    Cause::Depth,
    Cause::Endless,
];

/// The sizes that a cause is made with: letters, or calls nested.
pub fn sizes(cause: Cause) -> &'static [usize] {
    match cause {
        Cause::Depth => &[39, 40, 41],
        Cause::Endless => &[41],
        _ => &[126, 127, 128],
    }
}

/// A file, a run of it, and what that comes to: the applications made when it
/// ends or stops, and the letters given, none where it is 24.
pub struct Large {
    pub file: Vec<u8>,
    pub iso: u16,
    pub back: bool,
    pub letters: Vec<u8>,
    pub count: u32,
    pub given: Option<Vec<u8>>,
}

/// Isos of which the last one is run on letters, and the result.
struct Run {
    isos: Vec<Iso>,
    back: bool,
    letters: Vec<u8>,
    count: u32,
    given: Vec<u8>,
    large: bool,
}

/// A run that comes to the size.
pub fn made(random: &mut Random, cause: Cause, size: usize) -> Large {
    let before = random.below(3);
    let run = match cause {
        Cause::Start => start(random, size),
        Cause::Argument => {
            let run = argument(random, size);
            wrapped(random, run, before)
        }
        Cause::Result => {
            let run = match random.chance(50) && size == 127 {
                true => elements(random),
                false => result(random, size),
            };
            wrapped(random, run, before)
        }
        Cause::Depth => {
            let mut run = depth(random, size - before);
            run.large = size > 40;
            wrapped(random, run, before)
        }
        Cause::Endless => endless(random),
    };
    Large {
        file: scribe::file(random, &run.isos),
        iso: run.isos.len() as u16 - 1,
        back: run.back,
        letters: run.letters,
        count: run.count,
        given: (!run.large).then_some(run.given),
    }
}

/// Isos more, each of which sends its value through the one below. What stops the
/// run below is met one application later for each.
fn wrapped(random: &mut Random, mut run: Run, times: usize) -> Run {
    for _ in 0..times {
        let called = run.isos.len() - 1;
        let (from, to) = (&run.isos[called].from, &run.isos[called].to);
        let [value, given] = variables(random, &[]);
        let lets = vec![step(&given, called, &value)];
        let outer = iso(from, to, vec![clause(value, given, lets)]);
        run.isos.push(outer);
        run.count += 1;
    }
    run
}

/// Lists of units beside lists of two values: of any number of letters above 4.
fn two_lists() -> Rc<Type> {
    product(&list(&unit()), &list(&two()))
}

/// The letters of the first list and of the second.
fn both(random: &mut Random, size: usize) -> [Vec<u8>; 2] {
    let left = size - 3;
    let bits = left % 2 + 2 * random.below(left / 6);
    let bit = |_| match random.chance(50) {
        true => *b"KLU",
        false => *b"KRU",
    };
    let seconds: Vec<u8> = (0..bits).flat_map(bit).collect();
    let firsts = b"KU".repeat((left - 3 * bits) / 2);
    [
        [&firsts, &b"N"[..]].concat(),
        [&seconds, &b"N"[..]].concat(),
    ]
}

fn value(random: &mut Random, size: usize) -> Vec<u8> {
    let [first, second] = both(random, size);
    [b"P", &first[..], &second[..]].concat()
}

/// The value as it is, or its parts exchanged.
fn start(random: &mut Random, size: usize) -> Run {
    let [first, second] = both(random, size);
    let [one, two] = variables(random, &[]);
    let (from, to) = (
        two_lists(),
        product(&list(&super::plan::two()), &list(&unit())),
    );
    let exchange = random.chance(50);
    let letters = [b"P", &first[..], &second[..]].concat();
    let (made, given) = if exchange {
        let exchanged = clause(pair(&one, &two), pair(&two, &one), Vec::new());
        let given = [b"P", &second[..], &first[..]].concat();
        (iso(&from, &to, vec![exchanged]), given)
    } else {
        let same = clause(Rc::clone(&one), one, Vec::new());
        (iso(&from, &from, vec![same]), letters.clone())
    };
    Run {
        isos: vec![made],
        back: false,
        letters,
        count: 1,
        given,
        large: size > 127,
    }
}

/// Two letters more as an argument: beside a unit, through an iso that gives both
/// back.
fn argument(random: &mut Random, size: usize) -> Run {
    let ty = two_lists();
    let wide = product(&ty, &unit());
    let [all, value_of, given] = variables(random, &[]);
    let u = Rc::new(Pattern::Unit);
    let same = iso(&wide, &wide, vec![clause(Rc::clone(&all), all, Vec::new())]);
    let lets = vec![step(&pair(&given, &u), 0, &pair(&value_of, &u))];
    let outer = iso(&ty, &ty, vec![clause(value_of, given, lets)]);
    let letters = value(random, size - 2);
    Run {
        isos: vec![same, outer],
        back: false,
        letters: letters.clone(),
        count: 2,
        given: letters,
        large: size > 127,
    }
}

/// Two letters more as a result: a unit before the value or behind it.
fn result(random: &mut Random, size: usize) -> Run {
    let ty = two_lists();
    let [one] = variables(random, &[]);
    let u = Rc::new(Pattern::Unit);
    let letters = value(random, size - 2);
    let (to, right, given) = match random.chance(50) {
        true => (
            product(&unit(), &ty),
            pair(&u, &one),
            [b"PU", &letters[..]].concat(),
        ),
        false => {
            let given = [b"P", &letters[..], b"U"].concat();
            (product(&ty, &unit()), pair(&one, &u), given)
        }
    };
    Run {
        isos: vec![iso(&ty, &to, vec![clause(one, right, Vec::new())])],
        back: false,
        letters,
        count: 1,
        given,
        large: size > 127,
    }
}

/// Elements of one letter that become five: 21 of them 127 letters, and with one
/// more it is the last result that is too large.
fn elements(random: &mut Random) -> Run {
    let large = random.chance(50);
    let count = 21 + usize::from(large);
    let three = product(&unit(), &product(&unit(), &unit()));
    let u = Rc::new(Pattern::Unit);
    let grown = clause(Rc::clone(&u), pair(&u, &pair(&u, &u)), Vec::new());
    let of = iso(&unit(), &three, vec![grown]);
    Run {
        isos: vec![each(random, 0, &of)],
        back: false,
        letters: [&b"KU".repeat(count)[..], b"N"].concat(),
        count: count as u32 + 1,
        given: [&b"KPUPUU".repeat(count)[..], b"N"].concat(),
        large,
    }
}

/// A list of which each element and the end is an application more.
fn depth(random: &mut Random, size: usize) -> Run {
    let [head, tail, rest] = variables(random, &[]);
    let lets = vec![step(&rest, 0, &tail)];
    let mut clauses = vec![
        clause(empty(), empty(), Vec::new()),
        clause(element(&head, &tail), element(&head, &rest), lets),
    ];
    random.shuffle(&mut clauses);
    let (ty, bits): (_, &[u8]) = match random.chance(50) {
        true => (unit(), b"KU"),
        false if random.chance(50) => (two(), b"KLU"),
        false => (two(), b"KRU"),
    };
    let lists = list(&ty);
    let letters = [&bits.repeat(size - 1)[..], b"N"].concat();
    Run {
        isos: vec![iso(&lists, &lists, clauses)],
        back: false,
        letters: letters.clone(),
        count: size as u32,
        given: letters,
        large: false,
    }
}

/// With 0 and 1 exchanged behind each call, 1 is never reached: back from it each
/// application calls two more, one below the other, and the 80th is 41 deep.
fn endless(random: &mut Random) -> Run {
    let u = Rc::new(Pattern::Unit);
    let [tail] = variables(random, &[]);
    let one = element(&u, &empty());
    let more = element(&u, &element(&u, &tail));
    let mut clauses = vec![
        clause(empty(), Rc::clone(&one), Vec::new()),
        clause(one, empty(), Vec::new()),
        clause(Rc::clone(&more), more, Vec::new()),
    ];
    random.shuffle(&mut clauses);
    let lists = list(&unit());
    let exchange = iso(&lists, &lists, clauses);
    Run {
        isos: vec![exchange, sent_on(random, 1, &unit(), 0)],
        back: true,
        letters: b"KUN".to_vec(),
        count: 80,
        given: Vec::new(),
        large: true,
    }
}
