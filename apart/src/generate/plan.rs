//! Plans of isos as trees.
//!
//! A clause is opened by its left pattern and then holds typed variables; let
//! steps send some of them through earlier isos; in the end the variables that
//! are held go into the right pattern.

use super::random::Random;
use super::scribe;
use super::shape::{closed, exact_type, one_case, random_type, scattered, split, Sketch};
use super::zoned;
use crate::cover::covers;
use crate::lines::{Clause, Iso, Let, CLAUSES, LETS, NODES, SIDES};
use crate::reduce::turned;
use crate::tree::{Pattern, Type};
use std::rc::Rc;

/// Typed variables.
pub(super) type Held = Vec<(u16, Rc<Type>)>;

/// A clause whose right pattern is not made yet.
pub(super) struct Open {
    pub left: Rc<Pattern>,
    pub lets: Vec<Let>,
    pub held: Held,
    /// The numbers to be bound, the next one last.
    fresh: Vec<u16>,
    again: Again,
}

/// When a number that a let step has used is bound again.
#[derive(Clone, Copy)]
enum Again {
    Never,
    /// At the next chance.
    Next,
    /// At any later one.
    Later,
}

fn unit() -> Rc<Type> {
    Rc::new(Type::Unit)
}

pub(super) fn two() -> Rc<Type> {
    Rc::new(Type::Sum(unit(), unit()))
}

/// Isos in a row, each one fit to be called by the later ones.
pub fn isos(random: &mut Random) -> Vec<Iso> {
    let wanted = match random.below(10) {
        0..=5 => 1 + random.below(4),
        6..=8 => 1 + random.below(10),
        _ => 1 + random.below(32),
    };
    let mut isos: Vec<Iso> = Vec::new();
    while isos.len() < wanted {
        let Some(iso) = one_iso(random, &isos) else {
            continue;
        };
        if fits(&iso) {
            // A let step calls an iso one way only, so that an iso with let
            // steps is not turned alone.
            let plain = iso.clauses.iter().all(|clause| clause.lets.is_empty());
            let turn = plain && random.chance(50);
            isos.push(if turn { turned(&iso) } else { iso });
        }
    }
    isos
}

/// The ceilings of trees and clauses.
pub(super) fn fits(iso: &Iso) -> bool {
    let types = [&iso.from, &iso.to];
    let small = |pattern: &Pattern| pattern.nodes() <= NODES && pattern.sides() <= SIDES;
    types.iter().all(|ty| ty.nodes() <= NODES)
        && iso.clauses.len() <= CLAUSES
        && iso
            .clauses
            .iter()
            .all(|clause| small(&clause.left) && small(&clause.right))
        && iso
            .clauses
            .iter()
            .flat_map(|clause| &clause.lets)
            .all(|step| small(&step.p) && small(&step.q))
}

fn one_iso(random: &mut Random, earlier: &[Iso]) -> Option<Iso> {
    if random.lists && random.chance(20) {
        return Some(zoned::one_iso(random, earlier));
    }
    match random.below(10) {
        0..=2 => by_split(random, earlier),
        3..=5 => by_lists(random, earlier),
        6..=7 => by_permutation(random, earlier),
        _ => by_chain(random, earlier),
    }
}

/// Types for leaves and holes: small ones and those of earlier isos.
fn pool(random: &Random, earlier: &[Iso]) -> Vec<Rc<Type>> {
    let mut types = vec![unit(), unit(), two(), two()];
    types.push(Rc::new(Type::Product(two(), two())));
    if random.lists {
        types.push(Rc::new(Type::List(unit())));
        types.push(Rc::new(Type::List(two())));
    }
    for iso in earlier.iter().rev().take(6) {
        types.push(Rc::clone(&iso.from));
        types.push(Rc::clone(&iso.to));
    }
    types.retain(|ty| ty.nodes() < 40);
    types
}

pub(super) fn some_type(random: &mut Random, earlier: &[Iso]) -> Rc<Type> {
    match random.below(12) {
        0 => exact_type(random, 127),
        1 => {
            let nodes = 1 + 2 * random.below(64);
            exact_type(random, nodes)
        }
        2..=4 if !earlier.is_empty() => {
            let iso = random.pick(earlier);
            Rc::clone(if random.below(2) == 0 {
                &iso.from
            } else {
                &iso.to
            })
        }
        _ => {
            let depth = 1 + random.below(5);
            let pool = pool(random, earlier);
            let ty = random_type(random, depth, &pool);
            if ty.nodes() > NODES {
                return two();
            }
            ty
        }
    }
}

/// Cases that cover the type, no two of which match one value.
pub(super) fn cover(random: &mut Random, ty: &Rc<Type>) -> Vec<Sketch> {
    let most = if random.chance(20) {
        CLAUSES
    } else {
        1 + random.below(12)
    };
    let stop = *random.pick(&[0, 5, 15, 30]);
    let mut cases = split(random, ty, most, stop);
    if random.chance(35) {
        let others = scattered(random, ty, CLAUSES);
        let patterns: Vec<Rc<Pattern>> =
            others.iter().map(|case| case.pattern(&mut |_| 0)).collect();
        let patterns: Vec<&Pattern> = patterns.iter().map(|pattern| &**pattern).collect();
        if covers(ty, &patterns) {
            cases = others;
        }
    }
    random.shuffle(&mut cases);
    cases
}

/// Numbers for the variables of one clause, in order or mixed.
fn numbers(random: &mut Random) -> Vec<u16> {
    let mut numbers: Vec<u16> = (0..32).rev().collect();
    if random.chance(25) {
        random.shuffle(&mut numbers);
    }
    numbers
}

fn again(random: &mut Random) -> Again {
    *random.pick(&[Again::Never, Again::Next, Again::Next, Again::Later])
}

/// Opens a clause by its left pattern; `None` when 32 variables do not do.
pub(super) fn open(random: &mut Random, case: &Sketch) -> Option<Open> {
    if case.holes().len() > 32 {
        return None;
    }
    let mut fresh = numbers(random);
    let mut held = Held::new();
    let left = case.pattern(&mut |ty| {
        let number = fresh.pop().expect("at most 32 variables");
        held.push((number, Rc::clone(ty)));
        number
    });
    Some(Open {
        left,
        lets: Vec::new(),
        held,
        fresh,
        again: again(random),
    })
}

/// The from-type is split; the to-type is made of what the clauses hold.
fn by_split(random: &mut Random, earlier: &[Iso]) -> Option<Iso> {
    let from = some_type(random, earlier);
    let cases = cover(random, &from);
    let mut clauses = Vec::new();
    for case in &cases {
        let mut clause = open(random, case)?;
        add_lets(random, &mut clause, earlier, false);
        clauses.push(clause);
    }
    Some(closed_by_merge(random, from, clauses))
}

/// Both types are made of what the clauses hold.
fn by_lists(random: &mut Random, earlier: &[Iso]) -> Option<Iso> {
    let count = match random.below(10) {
        0 => 1 + random.below(32),
        _ => 1 + random.below(6),
    };
    let all = pool(random, earlier);
    let kinds: Vec<Rc<Type>> = (0..1 + random.below(3))
        .map(|_| Rc::clone(random.pick(&all)))
        .collect();
    let mut clauses = Vec::new();
    for _ in 0..count {
        let mut fresh = numbers(random);
        let mut held = Held::new();
        for _ in 0..random.below(5) {
            held.push((fresh.pop()?, Rc::clone(random.pick(&kinds))));
        }
        clauses.push(Open {
            left: Rc::new(Pattern::Unit),
            lets: Vec::new(),
            held,
            fresh,
            again: again(random),
        });
    }
    let (from, lefts) = merged(random, &clauses);
    for (clause, left) in clauses.iter_mut().zip(lefts) {
        clause.left = left;
        add_lets(random, clause, earlier, false);
    }
    Some(closed_by_merge(random, from, clauses))
}

/// One type on both sides.
fn by_permutation(random: &mut Random, earlier: &[Iso]) -> Option<Iso> {
    let ty = some_type(random, earlier);
    let cases = cover(random, &ty);
    permuted(random, &ty, &cases, earlier)
}

/// The cases are permuted among those whose holes have the same types, and
/// the variables among those of one type.
pub(super) fn permuted(
    random: &mut Random,
    ty: &Rc<Type>,
    cases: &[Sketch],
    earlier: &[Iso],
) -> Option<Iso> {
    let mut free: Vec<&Sketch> = cases.iter().collect();
    random.shuffle(&mut free);
    let mut clauses = Vec::new();
    for case in cases {
        let place = free.iter().position(|other| same_holes(case, other))?;
        let target = free.remove(place);
        let mut clause = open(random, case)?;
        add_lets(random, &mut clause, earlier, true);
        random.shuffle(&mut clause.held);
        let right = target.pattern(&mut |ty| {
            let place = clause.held.iter().position(|(_, other)| other == ty);
            clause
                .held
                .remove(place.expect("the holes have the same types"))
                .0
        });
        clauses.push(Clause {
            line: 0,
            left: clause.left,
            right,
            lets: clause.lets,
        });
    }
    Some(Iso {
        line: 0,
        from: Rc::clone(ty),
        to: Rc::clone(ty),
        clauses,
    })
}

fn same_holes(one: &Sketch, two: &Sketch) -> bool {
    let mut others = two.holes();
    let all = one.holes().iter().all(|ty| {
        let place = others.iter().position(|other| other == ty);
        place.map(|place| others.remove(place)).is_some()
    });
    all && others.is_empty()
}

/// One variable, or a pair of them, sent through earlier isos one after the
/// other.
fn by_chain(random: &mut Random, earlier: &[Iso]) -> Option<Iso> {
    if earlier.is_empty() {
        return by_permutation(random, earlier);
    }
    let mut from = Rc::clone(&random.pick(earlier).from);
    let mut case = Sketch::Hole(Rc::clone(&from));
    if random.chance(40) {
        let other = Rc::clone(&random.pick(earlier).from);
        let second = Sketch::Hole(Rc::clone(&other));
        case = Sketch::Pair(Box::new(case), Box::new(second));
        from = Rc::new(Type::Product(from, other));
    }
    let mut clause = open(random, &case)?;
    for _ in 0..3 {
        add_lets(random, &mut clause, earlier, false);
    }
    Some(closed_by_merge(random, from, vec![clause]))
}

/// Adds let steps up to eight; with `same` only such as keep the types held.
fn add_lets(random: &mut Random, clause: &mut Open, earlier: &[Iso], same: bool) {
    if earlier.is_empty() || random.chance(40) {
        return;
    }
    let wanted = match random.below(8) {
        0 => 8,
        _ => random.below(4),
    };
    let most = LETS.min(clause.lets.len() + wanted);
    for _ in 0..wanted * 2 {
        let iso = random.below(earlier.len());
        let called = &earlier[iso];
        if clause.lets.len() == most || (same && called.from != called.to) {
            continue;
        }
        let before = (clause.held.clone(), clause.fresh.clone());
        let q = if same {
            one_of(random, &called.from, &mut clause.held)
        } else {
            gather(random, &called.from, &mut clause.held)
        };
        let q = q.inspect(|q| take_back(random, clause, q));
        let Some(q) = q.filter(|_| !clause.fresh.is_empty()) else {
            (clause.held, clause.fresh) = before;
            continue;
        };
        let p = if same {
            variable(clause, &called.to)
        } else {
            spread(random, &called.to, clause, 0)
        };
        clause.lets.push(Let { p, iso, q });
    }
}

/// Takes back the numbers that a let step uses, if they are bound again.
pub(super) fn take_back(random: &mut Random, clause: &mut Open, q: &Pattern) {
    for number in q.variables() {
        let places = clause.fresh.len();
        match clause.again {
            Again::Never => {}
            Again::Next => clause.fresh.push(number),
            Again::Later => clause.fresh.insert(random.below(places + 1), number),
        }
    }
}

/// A held variable of the type, taken out.
pub(super) fn one_of(random: &mut Random, ty: &Rc<Type>, held: &mut Held) -> Option<Rc<Pattern>> {
    let equal: Vec<usize> = (0..held.len())
        .filter(|place| held[*place].1 == *ty)
        .collect();
    if equal.is_empty() {
        return None;
    }
    let (number, _) = held.remove(*random.pick(&equal));
    Some(Rc::new(Pattern::Variable(number)))
}

/// A let pattern of the type out of held variables.
fn gather(random: &mut Random, ty: &Rc<Type>, held: &mut Held) -> Option<Rc<Pattern>> {
    if random.chance(75) {
        if let Some(pattern) = one_of(random, ty, held) {
            return Some(pattern);
        }
    }
    match &**ty {
        Type::Unit => Some(Rc::new(Pattern::Unit)),
        Type::Sum(..) | Type::List(_) => one_of(random, ty, held),
        Type::Product(a, b) => {
            let one = gather(random, a, held)?;
            Some(Rc::new(Pattern::Pair(one, gather(random, b, held)?)))
        }
    }
}

/// A new variable of the type.
pub(super) fn variable(clause: &mut Open, ty: &Rc<Type>) -> Rc<Pattern> {
    let number = clause.fresh.pop().expect("a number is left");
    clause.held.push((number, Rc::clone(ty)));
    Rc::new(Pattern::Variable(number))
}

/// A let pattern of the type with new variables, leaving a number for each of
/// the parts that wait.
fn spread(random: &mut Random, ty: &Rc<Type>, clause: &mut Open, waiting: usize) -> Rc<Pattern> {
    let room = clause.fresh.len() >= waiting + 2;
    match &**ty {
        Type::Unit if random.chance(60) => Rc::new(Pattern::Unit),
        Type::Product(a, b) if room && random.chance(60) => {
            let one = spread(random, a, clause, waiting + 1);
            Rc::new(Pattern::Pair(one, spread(random, b, clause, waiting)))
        }
        _ => variable(clause, ty),
    }
}

pub(super) fn closed_by_merge(random: &mut Random, from: Rc<Type>, clauses: Vec<Open>) -> Iso {
    let (to, rights) = merged(random, &clauses);
    let close = |(clause, right): (Open, Rc<Pattern>)| Clause {
        line: 0,
        left: clause.left,
        right,
        lets: clause.lets,
    };
    let clauses = clauses.into_iter().zip(rights).map(close).collect();
    Iso {
        line: 0,
        from,
        to,
        clauses,
    }
}

/// A type and, for each clause, a pattern that holds exactly its variables;
/// the patterns cover the type and no two of them match one value.
fn merged(random: &mut Random, clauses: &[Open]) -> (Rc<Type>, Vec<Rc<Pattern>>) {
    let all = clauses.iter().map(|clause| clause.held.clone()).enumerate();
    let (ty, mut patterns) = merge(random, all.collect());
    patterns.sort_by_key(|(place, _)| *place);
    (
        ty,
        patterns.into_iter().map(|(_, pattern)| pattern).collect(),
    )
}

/// Parts a group of clauses by a sum, or takes one variable of a type that
/// all of them hold into a pair before the rest.
fn merge(
    random: &mut Random,
    mut group: Vec<(usize, Held)>,
) -> (Rc<Type>, Vec<(usize, Rc<Pattern>)>) {
    if group.len() == 1 {
        let (place, held) = group.remove(0);
        let (ty, pattern) = arranged(random, held);
        return (ty, vec![(place, pattern)]);
    }
    if random.chance(70) {
        if let Some(ty) = common(random, &group) {
            return factored(random, group, ty);
        }
    }
    random.shuffle(&mut group);
    let rest = group.split_off(1 + random.below(group.len() - 1));
    let (a, ones) = merge(random, group);
    let (b, twos) = merge(random, rest);
    let ones = ones
        .into_iter()
        .map(|(place, one)| (place, Rc::new(Pattern::Left(one))));
    let twos = twos
        .into_iter()
        .map(|(place, two)| (place, Rc::new(Pattern::Right(two))));
    (Rc::new(Type::Sum(a, b)), ones.chain(twos).collect())
}

/// A type of which every clause of the group holds a variable.
fn common(random: &mut Random, group: &[(usize, Held)]) -> Option<Rc<Type>> {
    let everywhere = |ty: &Rc<Type>| {
        let holds = |held: &Held| held.iter().any(|(_, other)| other == ty);
        group.iter().all(|(_, held)| holds(held))
    };
    let types = group[0]
        .1
        .iter()
        .map(|(_, ty)| ty)
        .filter(|ty| everywhere(ty));
    let types: Vec<&Rc<Type>> = types.collect();
    if types.is_empty() {
        return None;
    }
    let place = random.below(types.len());
    Some(Rc::clone(types[place]))
}

fn factored(
    random: &mut Random,
    mut group: Vec<(usize, Held)>,
    ty: Rc<Type>,
) -> (Rc<Type>, Vec<(usize, Rc<Pattern>)>) {
    let mut taken = Vec::new();
    for (place, held) in &mut group {
        taken.push((*place, one_of(random, &ty, held).expect("held by all")));
    }
    let (rest, patterns) = merge(random, group);
    let flip = random.chance(50);
    let join = |(place, pattern): (usize, Rc<Pattern>)| {
        let own = taken.iter().find(|(other, _)| *other == place);
        let own = Rc::clone(&own.expect("one for each clause").1);
        let pair = if flip {
            Pattern::Pair(pattern, own)
        } else {
            Pattern::Pair(own, pattern)
        };
        (place, Rc::new(pair))
    };
    let patterns = patterns.into_iter().map(join).collect();
    let whole = if flip {
        Type::Product(rest, ty)
    } else {
        Type::Product(ty, rest)
    };
    (Rc::new(whole), patterns)
}

/// The variables of one clause in a tree of pairs, with a unit now and then.
fn arranged(random: &mut Random, mut held: Held) -> (Rc<Type>, Rc<Pattern>) {
    if held.is_empty() {
        return (unit(), Rc::new(Pattern::Unit));
    }
    if held.len() == 1 && random.chance(85) {
        let (number, ty) = held.remove(0);
        return (ty, Rc::new(Pattern::Variable(number)));
    }
    random.shuffle(&mut held);
    let place = match held.len() {
        1 => random.below(2),
        count => 1 + random.below(count - 1),
    };
    let rest = held.split_off(place);
    let (a, one) = arranged(random, held);
    let (b, two) = arranged(random, rest);
    (
        Rc::new(Type::Product(a, b)),
        Rc::new(Pattern::Pair(one, two)),
    )
}

/// A type of 128 values, its closed values exchanged: 128 clauses.
pub fn wide(random: &mut Random) -> Iso {
    wide_of(random, CLAUSES)
}

/// An iso of so many clauses of closed values.
pub fn wide_of(random: &mut Random, count: usize) -> Iso {
    if count > 30 && count.is_multiple_of(2) {
        let half = wide_of(random, count / 2).from;
        let parts = if random.chance(50) {
            (half, two())
        } else {
            (two(), half)
        };
        let ty = Rc::new(Type::Product(parts.0, parts.1));
        let cases = closed(&ty);
        return permuted(random, &ty, &cases, &[]).expect("no holes");
    }
    if count > 30 {
        let most = wide_of(random, count - 1).from;
        let ty = Rc::new(Type::Sum(most, unit()));
        let cases = closed(&ty);
        return permuted(random, &ty, &cases, &[]).expect("no holes");
    }
    let mut parts: Vec<Rc<Type>> = (0..count).map(|_| unit()).collect();
    while parts.len() > 1 {
        let a = parts.remove(random.below(parts.len()));
        let b = parts.remove(random.below(parts.len()));
        parts.push(Rc::new(Type::Sum(a, b)));
    }
    let cases = closed(&parts[0]);
    permuted(random, &parts[0], &cases, &[]).expect("no holes")
}

/// The iso of the unit type.
pub fn small() -> Iso {
    let (left, right) = (Rc::new(Pattern::Unit), Rc::new(Pattern::Unit));
    let clauses = vec![Clause {
        line: 0,
        left,
        right,
        lets: Vec::new(),
    }];
    Iso {
        line: 0,
        from: unit(),
        to: unit(),
        clauses,
    }
}

/// A file whose last iso has one side that may overlap or leave a gap, while
/// the other side is made to stand.
pub fn one_bad_side(random: &mut Random) -> Vec<u8> {
    let mut all = isos(random);
    all.truncate(4);
    let ty = some_type(random, &all);
    let mut cases = match random.below(3) {
        0 => scattered(random, &ty, CLAUSES),
        _ => cover(random, &ty),
    };
    match random.below(3) {
        0 => {
            let gone = random.below(cases.len().max(1));
            cases.splice(gone..(gone + 1).min(cases.len()), []);
        }
        1 => cases.push(one_case(random, &ty, 30)),
        _ => {
            let changed = random.below(cases.len().max(1));
            let other = one_case(random, &ty, 30);
            cases.splice(changed..(changed + 1).min(cases.len()), [other]);
        }
    }
    let clauses: Option<Vec<Open>> = cases.iter().map(|case| open(random, case)).collect();
    if let Some(clauses) = clauses.filter(|clauses| !clauses.is_empty()) {
        let iso = closed_by_merge(random, ty, clauses);
        all.push(if random.chance(50) { turned(&iso) } else { iso });
    }
    scribe::file(random, &all)
}
