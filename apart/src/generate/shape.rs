//! Types, and sets of patterns for a type.

use super::random::Random;
use crate::cover::orthogonal;
use crate::lines::{NODES, SIDES};
use crate::tree::{Pattern, Type};
use std::rc::Rc;

/// A pattern whose variables have types but no numbers yet.
#[derive(Clone)]
pub enum Sketch {
    Hole(Rc<Type>),
    Unit,
    Left(Box<Sketch>),
    Right(Box<Sketch>),
    Pair(Box<Sketch>, Box<Sketch>),
    Empty,
    Element(Box<Sketch>, Box<Sketch>),
}

fn element(one: Sketch, two: Sketch) -> Sketch {
    Sketch::Element(Box::new(one), Box::new(two))
}

fn pair(one: Sketch, two: Sketch) -> Sketch {
    Sketch::Pair(Box::new(one), Box::new(two))
}

fn left(one: Sketch) -> Sketch {
    Sketch::Left(Box::new(one))
}

fn right(one: Sketch) -> Sketch {
    Sketch::Right(Box::new(one))
}

impl Sketch {
    /// The pattern, each hole handed to `variable` for its number.
    pub fn pattern(&self, variable: &mut dyn FnMut(&Rc<Type>) -> u16) -> Rc<Pattern> {
        Rc::new(match self {
            Sketch::Hole(ty) => Pattern::Variable(variable(ty)),
            Sketch::Unit => Pattern::Unit,
            Sketch::Left(a) => Pattern::Left(a.pattern(variable)),
            Sketch::Right(a) => Pattern::Right(a.pattern(variable)),
            Sketch::Pair(a, b) => Pattern::Pair(a.pattern(variable), b.pattern(variable)),
            Sketch::Empty => Pattern::Empty,
            Sketch::Element(a, b) => Pattern::Element(a.pattern(variable), b.pattern(variable)),
        })
    }

    /// The types of the holes from left to right.
    pub fn holes(&self) -> Vec<Rc<Type>> {
        let mut types = Vec::new();
        self.pattern(&mut |ty| {
            types.push(Rc::clone(ty));
            0
        });
        types
    }

    pub fn clashes(&self, other: &Sketch) -> bool {
        orthogonal(&self.pattern(&mut |_| 0), &other.pattern(&mut |_| 0))
    }

    /// The cases that come of looking into one hole: two where it is a sum or a
    /// list.
    pub(super) fn opened(&self, random: &mut Random) -> Vec<Sketch> {
        let hole = |ty: &Rc<Type>| Sketch::Hole(Rc::clone(ty));
        match self {
            Sketch::Unit | Sketch::Empty => vec![self.clone()],
            Sketch::Hole(ty) => match &**ty {
                Type::Unit => vec![Sketch::Unit],
                Type::Sum(a, b) => vec![left(hole(a)), right(hole(b))],
                Type::Product(a, b) => vec![pair(hole(a), hole(b))],
                Type::List(a) => vec![Sketch::Empty, element(hole(a), hole(ty))],
            },
            Sketch::Left(a) => a.opened(random).into_iter().map(left).collect(),
            Sketch::Right(a) => a.opened(random).into_iter().map(right).collect(),
            Sketch::Pair(a, b) => opened_parts(random, [a, b], pair),
            Sketch::Element(a, b) => opened_parts(random, [a, b], element),
        }
    }
}

/// The cases that come of looking into one hole of two parts.
fn opened_parts(
    random: &mut Random,
    [a, b]: [&Sketch; 2],
    join: fn(Sketch, Sketch) -> Sketch,
) -> Vec<Sketch> {
    let [first, second] = [a, b].map(|part| !part.holes().is_empty());
    if first && (!second || random.chance(50)) {
        let parts = a.opened(random).into_iter();
        parts.map(|part| join(part, b.clone())).collect()
    } else {
        let parts = b.opened(random).into_iter();
        parts.map(|part| join(a.clone(), part)).collect()
    }
}

/// Holes of the cases opened, of two cases in the smaller one, until there are
/// so many cases, which match the same values; `None` where that does not come
/// about.
pub fn refined(random: &mut Random, mut cases: Vec<Sketch>, count: usize) -> Option<Vec<Sketch>> {
    for _ in 0..20 * count {
        if cases.len() >= count {
            break;
        }
        let two = [0; 2].map(|_| random.below(cases.len()));
        let pattern = |place: usize| cases[place].pattern(&mut |_| 0);
        let [one, other] = two.map(|place| pattern(place).nodes());
        let place = two[usize::from(other < one)];
        if pattern(place).sides() < SIDES {
            let opened = cases[place].opened(random);
            cases.splice(place..=place, opened);
        }
    }
    (cases.len() == count).then_some(cases)
}

/// The most left and right nodes of a closed value of the type, far above all
/// where it holds a list.
pub fn most_sides(ty: &Type) -> usize {
    match ty {
        Type::Unit => 0,
        Type::Sum(a, b) => 1 + most_sides(a).max(most_sides(b)),
        Type::Product(a, b) => most_sides(a) + most_sides(b),
        Type::List(_) => 1_000,
    }
}

/// A type with leaves from the pool.
pub fn random_type(random: &mut Random, depth: usize, pool: &[Rc<Type>]) -> Rc<Type> {
    if depth == 0 || random.chance(20) {
        return Rc::clone(random.pick(pool));
    }
    if random.lists && random.chance(12) {
        return Rc::new(Type::List(random_type(random, depth - 1, pool)));
    }
    let a = random_type(random, depth - 1, pool);
    let b = random_type(random, depth - 1, pool);
    Rc::new(if random.chance(50) {
        Type::Sum(a, b)
    } else {
        Type::Product(a, b)
    })
}

/// A type with exactly so many nodes, an odd number.
pub fn exact_type(random: &mut Random, nodes: usize) -> Rc<Type> {
    grown(random, nodes, 40)
}

/// A type of products and units alone, with 127 nodes: its closed value has
/// 127 letters.
pub fn longest_type(random: &mut Random) -> Rc<Type> {
    products(random, NODES)
}

/// A type of products and units alone with exactly so many nodes, an odd number.
pub fn products(random: &mut Random, nodes: usize) -> Rc<Type> {
    grown(random, nodes, 0)
}

/// A type with exactly so many nodes, of which so many of a hundred are sums.
fn grown(random: &mut Random, nodes: usize, sums: usize) -> Rc<Type> {
    if nodes == 1 {
        return Rc::new(Type::Unit);
    }
    let first = 1 + 2 * random.below((nodes - 1) / 2);
    let a = grown(random, first, sums);
    let b = grown(random, nodes - 1 - first, sums);
    Rc::new(if random.chance(sums) {
        Type::Sum(a, b)
    } else {
        Type::Product(a, b)
    })
}

/// Splits the type into at most so many cases that cover it, no two of which
/// match one value. In so many of a hundred places a variable ends the split.
pub fn split(random: &mut Random, ty: &Rc<Type>, most: usize, stop: usize) -> Vec<Sketch> {
    if random.chance(stop) {
        return vec![Sketch::Hole(Rc::clone(ty))];
    }
    match &**ty {
        Type::Unit => vec![Sketch::Unit],
        Type::Sum(a, b) if most >= 2 => {
            let share = 1 + random.below(most - 1);
            let mut cases: Vec<Sketch> = Vec::new();
            cases.extend(split(random, a, share, stop).into_iter().map(left));
            let rest = most - cases.len();
            cases.extend(split(random, b, rest, stop).into_iter().map(right));
            cases
        }
        Type::Product(a, b) => split_product(random, [a, b], most, stop),
        Type::List(a) if most >= 2 && random.chance(75) => {
            // The empty list, and what comes of an element and a list.
            let share = 1 + random.below(most - 1);
            let cases = split_parts(random, [a, ty], share, stop, element);
            [vec![Sketch::Empty], cases].concat()
        }
        Type::Sum(..) | Type::List(_) => vec![Sketch::Hole(Rc::clone(ty))],
    }
}

fn split_product(
    random: &mut Random,
    parts: [&Rc<Type>; 2],
    most: usize,
    stop: usize,
) -> Vec<Sketch> {
    if most >= 5 && random.chance(60) {
        if let Some(cases) = cyclic(parts[0], parts[1]) {
            return cases;
        }
    }
    split_parts(random, parts, most, stop, pair)
}

/// Splits one part, and the other in each case of that.
fn split_parts(
    random: &mut Random,
    [a, b]: [&Rc<Type>; 2],
    most: usize,
    stop: usize,
    join: fn(Sketch, Sketch) -> Sketch,
) -> Vec<Sketch> {
    let flip = random.chance(50);
    let (first, second) = if flip { (b, a) } else { (a, b) };
    let outer = split(random, first, most, stop);
    let mut spare = most - outer.len();
    let mut cases = Vec::new();
    for case in outer {
        let room = 1 + random.below(spare + 1);
        let inner = split(random, second, room, stop);
        spare -= inner.len() - 1;
        for other in inner {
            cases.push(if flip {
                join(other, case.clone())
            } else {
                join(case.clone(), other)
            });
        }
    }
    cases
}

/// For three sums the five cases that no split of one part alone gives:
/// (L, R, x), (x, L, R), (R, x, L), (L, L, L), (R, R, R).
fn cyclic(a: &Rc<Type>, b: &Rc<Type>) -> Option<Vec<Sketch>> {
    let (Type::Sum(..), Type::Product(c, d)) = (&**a, &**b) else {
        return None;
    };
    let sides = |ty: &Rc<Type>| match &**ty {
        Type::Sum(x, y) => Some([
            left(Sketch::Hole(Rc::clone(x))),
            right(Sketch::Hole(Rc::clone(y))),
            Sketch::Hole(Rc::clone(ty)),
        ]),
        _ => None,
    };
    let (one, two, three) = (sides(a)?, sides(c)?, sides(d)?);
    let of =
        |x: usize, y: usize, z: usize| pair(one[x].clone(), pair(two[y].clone(), three[z].clone()));
    Some(vec![
        of(0, 1, 2),
        of(2, 0, 1),
        of(1, 2, 0),
        of(0, 0, 0),
        of(1, 1, 1),
    ])
}

/// One case of the type, at random.
pub fn one_case(random: &mut Random, ty: &Rc<Type>, holes: usize) -> Sketch {
    if random.chance(holes) {
        return Sketch::Hole(Rc::clone(ty));
    }
    match &**ty {
        Type::Unit => Sketch::Unit,
        Type::Sum(a, b) => {
            if random.chance(50) {
                left(one_case(random, a, holes))
            } else {
                right(one_case(random, b, holes))
            }
        }
        Type::Product(a, b) => {
            let one = one_case(random, a, holes);
            pair(one, one_case(random, b, holes))
        }
        Type::List(_) if random.chance(50) => Sketch::Empty,
        Type::List(a) => {
            let one = one_case(random, a, holes);
            element(one, one_case(random, ty, holes))
        }
    }
}

/// Orthogonal cases drawn at random, then the closed values that are left over
/// where there are few; whether they cover is not promised.
pub fn scattered(random: &mut Random, ty: &Rc<Type>, most: usize) -> Vec<Sketch> {
    let mut cases: Vec<Sketch> = Vec::new();
    let drawn: Vec<Sketch> = (0..40).map(|_| one_case(random, ty, 30)).collect();
    let left_over = if closed_count(ty) <= 64 {
        closed(ty)
    } else {
        Vec::new()
    };
    for case in drawn.into_iter().skip(1).chain(left_over) {
        let root = matches!(case, Sketch::Hole(_));
        if !root && cases.len() < most && cases.iter().all(|other| case.clashes(other)) {
            cases.push(case);
        }
    }
    cases
}

/// How many closed values a type has, up to a bound far above any use.
pub fn closed_count(ty: &Type) -> u64 {
    match ty {
        Type::Unit => 1,
        Type::Sum(a, b) => closed_count(a).saturating_add(closed_count(b)),
        Type::Product(a, b) => closed_count(a).saturating_mul(closed_count(b)),
        Type::List(_) => u64::MAX,
    }
}

/// Every closed value of a type that has few.
pub fn closed(ty: &Type) -> Vec<Sketch> {
    match ty {
        Type::Unit => vec![Sketch::Unit],
        Type::Sum(a, b) => {
            let lefts = closed(a).into_iter().map(left);
            lefts.chain(closed(b).into_iter().map(right)).collect()
        }
        Type::Product(a, b) => {
            let (ones, twos) = (closed(a), closed(b));
            let with = |one: &Sketch| -> Vec<Sketch> {
                let both = twos.iter().map(|two| pair(one.clone(), two.clone()));
                both.collect()
            };
            ones.iter().flat_map(with).collect()
        }
        Type::List(_) => unreachable!("a type of few values holds no list"),
    }
}
