//! Request 14, "Zoned boards": isos on lists that call themselves.

use super::plan::{closed_by_merge, cover, fits, open, permuted, two, Open};
use super::random::Random;
use super::scribe;
use super::shape::split;
use crate::lines::{Clause, Iso, Let};
use crate::reduce::turned;
use crate::tree::{Pattern, Type};
use std::rc::Rc;

/// In which directions the iso in question meets the rule, and all that it
/// reaches.
#[derive(Debug, Clone, Copy, PartialEq, Eq)]
pub enum Ending {
    Both,
    Written,
    Turned,
    Neither,
}

pub const ENDINGS: [Ending; 4] = [
    Ending::Both,
    Ending::Written,
    Ending::Turned,
    Ending::Neither,
];

pub(super) fn unit() -> Rc<Type> {
    Rc::new(Type::Unit)
}

pub(super) fn list(ty: &Rc<Type>) -> Rc<Type> {
    Rc::new(Type::List(Rc::clone(ty)))
}

pub(super) fn product(a: &Rc<Type>, b: &Rc<Type>) -> Rc<Type> {
    Rc::new(Type::Product(Rc::clone(a), Rc::clone(b)))
}

pub(super) fn empty() -> Rc<Pattern> {
    Rc::new(Pattern::Empty)
}

pub(super) fn element(one: &Rc<Pattern>, two: &Rc<Pattern>) -> Rc<Pattern> {
    Rc::new(Pattern::Element(Rc::clone(one), Rc::clone(two)))
}

pub(super) fn pair(one: &Rc<Pattern>, two: &Rc<Pattern>) -> Rc<Pattern> {
    Rc::new(Pattern::Pair(Rc::clone(one), Rc::clone(two)))
}

pub(super) fn clause(left: Rc<Pattern>, right: Rc<Pattern>, lets: Vec<Let>) -> Clause {
    Clause {
        line: 0,
        left,
        right,
        lets,
    }
}

pub(super) fn iso(from: &Rc<Type>, to: &Rc<Type>, clauses: Vec<Clause>) -> Iso {
    Iso {
        line: 0,
        from: Rc::clone(from),
        to: Rc::clone(to),
        clauses,
    }
}

pub(super) fn step(p: &Rc<Pattern>, iso: usize, q: &Rc<Pattern>) -> Let {
    Let {
        p: Rc::clone(p),
        iso,
        q: Rc::clone(q),
    }
}

/// Variables of numbers that the pattern does not hold, in any order.
pub(super) fn variables<const N: usize>(
    random: &mut Random,
    held: &[&Pattern],
) -> [Rc<Pattern>; N] {
    let held: Vec<u16> = held.iter().flat_map(|one| one.variables()).collect();
    let mut numbers: Vec<u16> = (0..32).filter(|number| !held.contains(number)).collect();
    random.shuffle(&mut numbers);
    let mut numbers = numbers.into_iter();
    [0; N].map(|_| Rc::new(Pattern::Variable(numbers.next().expect("32 are enough"))))
}

/// A type of a few values, for elements and what stands beside a list.
pub(super) fn small_type(random: &mut Random) -> Rc<Type> {
    let three = Rc::new(Type::Sum(two(), unit()));
    let pair = product(&two(), &unit());
    let lists = list(&two());
    let all = [unit(), unit(), two(), two(), three, pair, lists];
    Rc::clone(random.pick(&all))
}

/// An iso without let steps of a type of a few values, to that or to another.
pub(super) fn conversion(random: &mut Random, ty: &Rc<Type>, same: bool) -> Iso {
    loop {
        let most = 1 + random.below(4);
        let mut cases = split(random, ty, most, 20);
        random.shuffle(&mut cases);
        let made = if same || random.chance(40) {
            permuted(random, ty, &cases, &[])
        } else {
            let clauses: Option<Vec<Open>> = cases.iter().map(|case| open(random, case)).collect();
            clauses.map(|clauses| closed_by_merge(random, Rc::clone(ty), clauses))
        };
        let few = |iso: &Iso| {
            let patterns = iso.clauses.iter().flat_map(|one| [&one.left, &one.right]);
            patterns.map(|one| one.variables().len()).max() < Some(9)
        };
        if let Some(iso) = made.filter(fits).filter(few) {
            return iso;
        }
    }
}

/// The iso of lists that sends each element through an iso without let steps, as
/// the clauses of that one have it. Its own number is given; where both types are
/// the same some clauses leave the elements behind theirs as they are.
pub(super) fn each(random: &mut Random, own: usize, of: &Iso) -> Iso {
    let mut clauses = vec![clause(empty(), empty(), Vec::new())];
    for one in &of.clauses {
        let [tail, given] = variables(random, &[&one.left]);
        let stays = of.from == of.to && random.chance(15);
        let (lets, rest) = if stays {
            (Vec::new(), &tail)
        } else {
            (vec![step(&given, own, &tail)], &given)
        };
        let sides = (element(&one.left, &tail), element(&one.right, rest));
        clauses.push(clause(sides.0, sides.1, lets));
    }
    random.shuffle(&mut clauses);
    iso(&list(&of.from), &list(&of.to), clauses)
}

/// The same by calls of that iso, which has a number.
fn each_called(random: &mut Random, own: usize, (called, of): (usize, &Iso)) -> Iso {
    let [head, tail, one, rest] = variables(random, &[]);
    let mut lets = vec![step(&one, called, &head), step(&rest, own, &tail)];
    random.shuffle(&mut lets);
    let mut clauses = vec![
        clause(empty(), empty(), Vec::new()),
        clause(element(&head, &tail), element(&one, &rest), lets),
    ];
    random.shuffle(&mut clauses);
    iso(&list(&of.from), &list(&of.to), clauses)
}

/// The iso that leaves a list as it is and has a value of another type beside it,
/// which goes through an iso in the last application. With `flip` the list stands
/// behind it on the right.
fn each_beside(random: &mut Random, own: usize, ty: &Rc<Type>, other: &Iso, flip: bool) -> Iso {
    let [head, tail, rest, beside, given] = variables(random, &[]);
    let turn = |one: &Rc<Pattern>, two: &Rc<Pattern>| match flip {
        true => pair(two, one),
        false => pair(one, two),
    };
    let mut clauses = Vec::new();
    for one in &other.clauses {
        let (left, right) = (pair(&empty(), &one.left), turn(&empty(), &one.right));
        clauses.push(clause(left, right, Vec::new()));
    }
    let call = step(&turn(&rest, &given), own, &pair(&tail, &beside));
    let left = pair(&element(&head, &tail), &beside);
    let right = turn(&element(&head, &rest), &given);
    clauses.push(clause(left, right, vec![call]));
    random.shuffle(&mut clauses);
    let lists = list(ty);
    let to = match flip {
        true => product(&other.to, &lists),
        false => product(&lists, &other.to),
    };
    iso(&product(&lists, &other.from), &to, clauses)
}

/// The elements up to the first right, and what is behind it: of a list of sums
/// with a unit on the right.
pub(super) fn parted(random: &mut Random, own: usize, ty: &Rc<Type>) -> Iso {
    let [head, tail, ones, rest] = variables(random, &[]);
    let right = |part: &Rc<Pattern>| Rc::new(Pattern::Right(Rc::clone(part)));
    let left = |part: &Rc<Pattern>| Rc::new(Pattern::Left(Rc::clone(part)));
    let none = left(&Rc::new(Pattern::Unit));
    let stop = right(&Rc::new(Pattern::Unit));
    let call = step(&pair(&ones, &rest), own, &tail);
    let mut clauses = vec![
        clause(empty(), pair(&empty(), &none), Vec::new()),
        clause(
            element(&stop, &tail),
            pair(&empty(), &right(&tail)),
            Vec::new(),
        ),
        clause(
            element(&left(&head), &tail),
            pair(&element(&head, &ones), &rest),
            vec![call],
        ),
    ];
    random.shuffle(&mut clauses);
    let marked = list(&Rc::new(Type::Sum(Rc::clone(ty), unit())));
    let rest = Rc::new(Type::Sum(unit(), Rc::clone(&marked)));
    iso(&marked, &product(&list(ty), &rest), clauses)
}

/// The iso of lists that sends each tail through itself and then through another
/// one of the same type: as turned it does not meet the rule.
pub(super) fn sent_on(random: &mut Random, own: usize, ty: &Rc<Type>, after: usize) -> Iso {
    let [head, tail, given, rest] = variables(random, &[]);
    let lets = vec![step(&given, own, &tail), step(&rest, after, &given)];
    let mut clauses = vec![
        clause(empty(), empty(), Vec::new()),
        clause(element(&head, &tail), element(&head, &rest), lets),
    ];
    random.shuffle(&mut clauses);
    iso(&list(ty), &list(ty), clauses)
}

/// An iso of lists of a type without let steps, to the same.
pub(super) fn rearranged(random: &mut Random, ty: &Rc<Type>) -> Iso {
    let lists = list(ty);
    loop {
        let cases = cover(random, &lists);
        let made = permuted(random, &lists, &cases, &[]);
        let moves = |iso: &Iso| iso.clauses.len() > 1 && iso.clauses.len() < 10;
        if let Some(iso) = made.filter(fits).filter(moves) {
            return iso;
        }
    }
}

/// An iso that calls itself, behind others.
pub(super) fn one_iso(random: &mut Random, earlier: &[Iso]) -> Iso {
    let own = earlier.len();
    let ty = small_type(random);
    let lists = |iso: &Iso| match &*iso.from {
        Type::List(ty) if iso.from == iso.to => Some(Rc::clone(ty)),
        _ => None,
    };
    let after: Vec<usize> = (0..own)
        .filter(|at| lists(&earlier[*at]).is_some())
        .collect();
    match random.below(6) {
        0 if !after.is_empty() => {
            let after = *random.pick(&after);
            let ty = lists(&earlier[after]).expect("one of lists");
            sent_on(random, own, &ty, after)
        }
        1 if own > 0 => {
            let called = random.below(own);
            each_called(random, own, (called, &earlier[called]))
        }
        2 => parted(random, own, &ty),
        3 => {
            let other = small_type(random);
            let other = conversion(random, &other, false);
            let flip = random.chance(30);
            each_beside(random, own, &ty, &other, flip)
        }
        _ => {
            let of = conversion(random, &ty, false);
            each(random, own, &of)
        }
    }
}

/// Isos of which the last one has to do with lists, and meets the rule so.
pub fn isos(random: &mut Random, ending: Ending) -> Vec<Iso> {
    let mut isos = match ending {
        Ending::Both => both(random),
        Ending::Written => written(random),
        Ending::Turned => written(random).iter().map(turned).collect(),
        Ending::Neither => neither(random),
    };
    if random.chance(40) {
        let last = isos.len() - 1;
        isos.push(calling(random, &isos, last));
    }
    isos
}

fn both(random: &mut Random) -> Vec<Iso> {
    let ty = small_type(random);
    let of = conversion(random, &ty, false);
    match random.below(4) {
        0 => vec![of.clone(), each_called(random, 1, (0, &of))],
        1 => vec![parted(random, 0, &ty)],
        2 => {
            let other = small_type(random);
            let other = conversion(random, &other, false);
            vec![each_beside(random, 0, &ty, &other, false)]
        }
        _ => vec![each(random, 0, &of)],
    }
}

fn written(random: &mut Random) -> Vec<Iso> {
    let ty = small_type(random);
    if random.chance(30) {
        let other = conversion(random, &two(), false);
        return vec![each_beside(random, 0, &ty, &other, true)];
    }
    let after = rearranged(random, &ty);
    vec![after, sent_on(random, 1, &ty, 0)]
}

/// One that meets the rule as written, the same turned, and one that calls both.
fn neither(random: &mut Random) -> Vec<Iso> {
    let ty = small_type(random);
    let after = rearranged(random, &ty);
    let one = sent_on(random, 1, &ty, 0);
    let mut other = turned(&one);
    for step in other.clauses.iter_mut().flat_map(|one| &mut one.lets) {
        step.iso += 2;
    }
    let back = turned(&after);
    let [first, between, last] = variables(random, &[]);
    let lets = vec![step(&between, 1, &first), step(&last, 3, &between)];
    let both = iso(&one.from, &one.from, vec![clause(first, last, lets)]);
    vec![after, one, back, other, both]
}

/// An iso that calls another one.
fn calling(random: &mut Random, isos: &[Iso], called: usize) -> Iso {
    let [value, given] = variables(random, &[]);
    let lets = vec![step(&given, called, &value)];
    let (from, to) = (&isos[called].from, &isos[called].to);
    iso(from, to, vec![clause(value, given, lets)])
}

/// An accepted file of such isos.
pub fn file(random: &mut Random, ending: Ending) -> Vec<u8> {
    loop {
        let isos = isos(random, ending);
        let file = scribe::file(random, &isos);
        if isos.iter().all(fits) && random.check(&file).is_ok() {
            return file;
        }
    }
}
