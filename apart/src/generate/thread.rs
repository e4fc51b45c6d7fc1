//! Clauses with unit parts on both sides and in let steps of their own, where
//! any variable may stand or none: whatever stands there fits and covers, so
//! that rule 8 alone decides.

use super::life::{agains, slips, Slip};
use super::plan::{self, fits, two};
use super::random::Random;
use super::scribe;
use crate::lines::{read_with, Clause, Iso, Let, LETS};
use crate::tree::{Pattern, Type};
use std::rc::Rc;

/// A file that is accepted but for one clause, which breaks rule 8 in this way
/// and in no other, and the line of the clause.
pub fn slip(random: &mut Random, wanted: Slip) -> (Vec<u8>, usize) {
    made(random, &|clause, _, _| slips(clause) == [wanted])
}

/// An accepted file with a clause that binds a number again.
pub fn again(random: &mut Random) -> Vec<u8> {
    let reuses = |clause: &Clause, iso: &Iso, isos: &[Iso]| {
        slips(clause).is_empty() && !agains(clause, iso, isos).is_empty()
    };
    loop {
        // A number that the clause holds already may get another's place.
        let (file, _) = made(random, &reuses);
        if random.check(&file).is_ok() {
            return file;
        }
    }
}

type Wanted<'a> = &'a dyn Fn(&Clause, &Iso, &[Iso]) -> bool;

/// A file of which one clause is as wanted, and the line of the clause.
fn made(random: &mut Random, wanted: Wanted) -> (Vec<u8>, usize) {
    loop {
        let mut isos = plan::isos(random);
        isos.truncate(5);
        let wide = widened(random, &isos);
        isos.push(exchange(random));
        if !fits(&wide) || wide.clauses.is_empty() {
            continue;
        }
        let place = random.below(wide.clauses.len());
        let Some(clause) = threaded(random, &wide, place, &isos, wanted) else {
            continue;
        };
        isos.push(wide.clone());
        // Without the variables put in the file is accepted.
        let plain = scribe::file(random, &isos);
        if random.check(&plain).is_err() {
            continue;
        }
        let last = isos.len() - 1;
        isos[last].clauses[place] = clause;
        let file = scribe::file(random, &isos);
        if let Ok(reader) = read_with(&file, random.lists) {
            return (file, reader.isos[last].clauses[place].line);
        }
    }
}

fn units() -> (Rc<Type>, Rc<Pattern>) {
    let ty = Rc::new(Type::Unit);
    let unit = Rc::new(Pattern::Unit);
    (
        Rc::new(Type::Product(Rc::clone(&ty), ty)),
        Rc::new(Pattern::Pair(Rc::clone(&unit), unit)),
    )
}

/// The iso of two units, which are exchanged or left as they are.
fn exchange(random: &mut Random) -> Iso {
    let (ty, pattern) = units();
    let variable = |number| Rc::new(Pattern::Variable(number));
    let (left, right) = if random.chance(50) {
        (Rc::clone(&pattern), pattern)
    } else {
        (
            Rc::new(Pattern::Pair(variable(3), variable(5))),
            Rc::new(Pattern::Pair(variable(5), variable(3))),
        )
    };
    one_clause(Rc::clone(&ty), ty, [left, right], Vec::new())
}

/// One of the isos, or the smallest, with a pair of units beside each side.
fn widened(random: &mut Random, isos: &[Iso]) -> Iso {
    let mut iso = if random.chance(70) {
        random.pick(isos).clone()
    } else {
        plan::small()
    };
    let (ty, pattern) = units();
    for end in [&mut iso.from, &mut iso.to] {
        *end = Rc::new(Type::Product(Rc::clone(end), Rc::clone(&ty)));
    }
    for clause in &mut iso.clauses {
        for side in [&mut clause.left, &mut clause.right] {
            *side = Rc::new(Pattern::Pair(Rc::clone(side), Rc::clone(&pattern)));
        }
    }
    iso
}

/// The clause with let steps of two units put in, and variables for some of
/// the units, until it is as wanted. The last of the isos is that of the steps.
fn threaded(
    random: &mut Random,
    iso: &Iso,
    place: usize,
    isos: &[Iso],
    wanted: Wanted,
) -> Option<Clause> {
    let own = &iso.clauses[place];
    let room = LETS - own.lets.len();
    for _ in 0..400 {
        let mut clause = own.clone();
        for _ in 0..room.min(1 + random.below(3)) {
            let at = random.below(clause.lets.len() + 1);
            let (p, q) = (units().1, units().1);
            let iso = isos.len() - 1;
            clause.lets.insert(at, Let { p, iso, q });
        }
        let numbers = some_numbers(random, &clause);
        fill(random, &mut clause, isos.len() - 1, &numbers);
        if wanted(&clause, iso, isos) {
            return Some(clause);
        }
    }
    None
}

/// Two numbers for the units, now and then one that the clause holds already.
fn some_numbers(random: &mut Random, clause: &Clause) -> Vec<u16> {
    let mut numbers = vec![random.below(32) as u16, random.below(32) as u16];
    let held = clause.left.variables();
    if !held.is_empty() && random.chance(30) {
        numbers.push(*random.pick(&held));
    }
    numbers
}

/// Puts numbers in place of some units of the pairs that were added.
fn fill(random: &mut Random, clause: &mut Clause, iso: usize, numbers: &[u16]) {
    for side in [&mut clause.left, &mut clause.right] {
        if let Pattern::Pair(inner, _) = &**side {
            *side = Rc::new(Pattern::Pair(Rc::clone(inner), slots(random, numbers)));
        }
    }
    for step in clause.lets.iter_mut().filter(|step| step.iso == iso) {
        (step.p, step.q) = (slots(random, numbers), slots(random, numbers));
    }
}

fn slots(random: &mut Random, numbers: &[u16]) -> Rc<Pattern> {
    let mut slot = || {
        Rc::new(if random.chance(65) {
            Pattern::Unit
        } else {
            Pattern::Variable(*random.pick(numbers))
        })
    };
    Rc::new(Pattern::Pair(slot(), slot()))
}

/// A file that is accepted but for one clause, in which a variable is used with
/// the type of a binding that is used up, and the line of the clause.
pub fn mistyped(random: &mut Random) -> (Vec<u8>, usize) {
    loop {
        let mut isos = plan::isos(random);
        isos.truncate(5);
        isos.push(grown());
        let unlike = (0..isos.len()).filter(|place| isos[*place].from != isos[*place].to);
        let called = *random.pick(&unlike.collect::<Vec<_>>());
        // One step, and the right pattern of the from-type; or another step
        // that wants the from-type again.
        let twice = random.chance(50);
        let (from, to) = (Rc::clone(&isos[called].from), Rc::clone(&isos[called].to));
        let end = if twice { to } else { Rc::clone(&from) };
        let variable = Rc::new(Pattern::Variable(random.below(32) as u16));
        let step = Let {
            p: Rc::clone(&variable),
            iso: called,
            q: Rc::clone(&variable),
        };
        let lets = vec![step; 1 + usize::from(twice)];
        isos.push(one_clause(
            from,
            end,
            [Rc::clone(&variable), variable],
            lets,
        ));
        let file = scribe::file(random, &isos);
        if let Ok(reader) = read_with(&file, random.lists) {
            return (file, reader.isos[isos.len() - 1].clauses[0].line);
        }
    }
}

/// The iso that puts the unit before a value of two units.
fn grown() -> Iso {
    let variable = Rc::new(Pattern::Variable(0));
    let pair = Pattern::Pair(Rc::new(Pattern::Unit), Rc::clone(&variable));
    let to = Type::Product(Rc::new(Type::Unit), two());
    one_clause(two(), Rc::new(to), [variable, Rc::new(pair)], Vec::new())
}

fn one_clause(
    from: Rc<Type>,
    to: Rc<Type>,
    [left, right]: [Rc<Pattern>; 2],
    lets: Vec<Let>,
) -> Iso {
    let clauses = vec![Clause {
        line: 0,
        left,
        right,
        lets,
    }];
    Iso {
        line: 0,
        from,
        to,
        clauses,
    }
}

/// A file whose second iso holds 32 variables at once, so that a let step can
/// bind only what its own q has used.
pub fn crowded(random: &mut Random) -> Vec<u8> {
    let bit = |left: fn(Rc<Pattern>) -> Pattern, right: fn(Rc<Pattern>) -> Pattern| Clause {
        line: 0,
        left: Rc::new(left(Rc::new(Pattern::Unit))),
        right: Rc::new(right(Rc::new(Pattern::Unit))),
        lets: Vec::new(),
    };
    let clauses = vec![
        bit(Pattern::Left, Pattern::Right),
        bit(Pattern::Right, Pattern::Left),
    ];
    let flip = Iso {
        line: 0,
        from: two(),
        to: two(),
        clauses,
    };
    let mut numbers: Vec<u16> = (0..32).collect();
    random.shuffle(&mut numbers);
    let (ty, left) = row(&numbers);
    let lets = (0..1 + random.below(LETS)).map(|_| {
        let number = Rc::new(Pattern::Variable(*random.pick(&numbers)));
        let (p, q) = (Rc::clone(&number), number);
        Let { p, iso: 0, q }
    });
    let lets = lets.collect();
    random.shuffle(&mut numbers);
    let right = row(&numbers).1;
    let full = one_clause(Rc::clone(&ty), ty, [left, right], lets);
    scribe::file(random, &[flip, full])
}

/// Bits in a row, and the pattern of the numbers for them.
fn row(numbers: &[u16]) -> (Rc<Type>, Rc<Pattern>) {
    let (first, others) = numbers.split_first().expect("some number");
    let variable = Rc::new(Pattern::Variable(*first));
    if others.is_empty() {
        return (two(), variable);
    }
    let (ty, pattern) = row(others);
    (
        Rc::new(Type::Product(two(), ty)),
        Rc::new(Pattern::Pair(variable, pattern)),
    )
}
