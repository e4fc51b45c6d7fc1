//! Requests 07 and 13: files with types of few values and with types around
//! their limits, pair lists, and lists with a flaw.

use super::ending::resaved;
use super::random::Random;
use super::scribe;
use super::shape::{closed, most_sides};
use crate::lines::{Clause, Iso, Let, CLAUSES, NODES, PATTERNS, SIDES};
use crate::numbering::values;
use crate::pair_lists::settings;
use crate::tree::{Pattern, Type};
use std::collections::BTreeSet;
use std::rc::Rc;

/// Counts of values around the limits: one, those of a list, those of 18.
pub const COUNTS: [u64; 12] = [1, 2, 3, 31, 32, 33, 127, 128, 129, 4_095, 4_096, 4_097];

/// P lines that an import from a type of 32 values to itself takes: the first
/// two may be written, the others pass the ceiling.
pub const LINES: [usize; 4] = [1_023, 1_024, 1_025, 1_055];

/// The values of those types.
pub const SUMMED: usize = 32;

/// Left and right nodes that the values of a type have at the most: with over 40
/// no file can be written.
pub const DEPTHS: [usize; 3] = [40, 41, 63];

/// What the types of a file are made for.
#[derive(Debug, Clone, Copy, PartialEq, Eq)]
pub enum Limit {
    /// So many values.
    Values(u64),
    /// So many P lines for 32 values.
    Lines(usize),
    /// So many values with too many P lines.
    Long(u64),
    /// So many left and right nodes in a value, and none with more.
    Sides(usize),
    /// So many values, and more than 40 left and right nodes in one of them.
    Deep(u64),
}

/// All limits that files are made for.
pub fn limits() -> Vec<Limit> {
    let mut limits: Vec<Limit> = COUNTS.into_iter().map(Limit::Values).collect();
    limits.extend(LINES.map(Limit::Lines));
    limits.extend([33, 127, 128].map(Limit::Long));
    limits.extend(DEPTHS.map(Limit::Sides));
    limits.extend([127, 128].map(Limit::Deep));
    limits
}

impl Limit {
    /// How many values the types have.
    pub fn values(self) -> u64 {
        match self {
            Limit::Values(count) | Limit::Long(count) | Limit::Deep(count) => count,
            Limit::Lines(_) => SUMMED as u64,
            Limit::Sides(sides) => sides as u64 + 1,
        }
    }
}

fn unit() -> Rc<Type> {
    Rc::new(Type::Unit)
}

/// A product with a unit, on either side.
fn with_unit(random: &mut Random, ty: Rc<Type>) -> Rc<Type> {
    Rc::new(if random.chance(50) {
        Type::Product(unit(), ty)
    } else {
        Type::Product(ty, unit())
    })
}

/// A type of so many values, of sums, products and units in any shape.
pub fn of(random: &mut Random, count: u64) -> Rc<Type> {
    loop {
        let ty = grown(random, count);
        if ty.nodes() <= NODES {
            return ty;
        }
    }
}

fn grown(random: &mut Random, count: u64) -> Rc<Type> {
    if random.chance(6) {
        let ty = grown(random, count);
        return with_unit(random, ty);
    }
    if count == 1 {
        return unit();
    }
    let factors: Vec<u64> = (2..count)
        .filter(|one| count.is_multiple_of(*one))
        .collect();
    if !factors.is_empty() && (count > 60 || random.chance(60)) {
        let one = *random.pick(&factors);
        let (first, second) = (grown(random, one), grown(random, count / one));
        return Rc::new(Type::Product(first, second));
    }
    let any = 1 + random.below(count as usize - 1) as u64;
    let left = *random.pick(&[1, count - 1, any]);
    let (left, right) = (grown(random, left), grown(random, count - left));
    Rc::new(Type::Sum(left, right))
}

/// A sum of so many units, in any shape.
fn sum(random: &mut Random, count: usize) -> Rc<Type> {
    if count == 1 {
        return unit();
    }
    let any = 1 + random.below(count - 1);
    let left = *random.pick(&[1, 1, count - 1, any]);
    let (left, right) = (sum(random, left), sum(random, count - left));
    Rc::new(Type::Sum(left, right))
}

/// A type of 32 values whose settings take so many P lines: a line for each
/// different tail of the letters of a sum, and 32 for each product with a unit.
pub fn with_lines(random: &mut Random, lines: usize) -> Rc<Type> {
    loop {
        let mut ty = sum(random, SUMMED);
        let all = settings(&ty);
        let tails = |letters| (0..Vec::len(letters)).map(|start| &letters[start..]);
        let own = all.iter().flat_map(tails).collect::<BTreeSet<_>>().len();
        let products = lines.saturating_sub(own) / SUMMED;
        if own + products * SUMMED != lines || ty.nodes() + 2 * products > NODES {
            continue;
        }
        for _ in 0..products {
            ty = with_unit(random, ty);
        }
        return ty;
    }
}

/// P lines that the settings of a type take, in a file that has no line twice.
fn lines_of(ty: &Type) -> usize {
    let all = settings(ty);
    let tree = |letters: &[u8]| {
        let mut due = 1;
        let ends = |letter: &u8| {
            due = due + usize::from(*letter == b'P') - usize::from(*letter == b'U');
            due == 0
        };
        letters.iter().position(ends).expect("a whole tree") + 1
    };
    let parts = |letters| {
        let starts = 0..Vec::len(letters);
        starts.map(|start| &letters[start..start + tree(&letters[start..])])
    };
    all.iter().flat_map(parts).collect::<BTreeSet<_>>().len()
}

/// A type of so many values whose settings take over 1,024 P lines.
fn long(random: &mut Random, count: u64) -> Rc<Type> {
    loop {
        let mut ty = of(random, count);
        while ty.nodes() + 2 <= NODES && lines_of(&ty) <= PATTERNS {
            ty = with_unit(random, ty);
        }
        if lines_of(&ty) > PATTERNS {
            return ty;
        }
    }
}

/// Sums one below the other, a unit beside each, most often on one side; not too
/// many P lines for its values.
fn nested(random: &mut Random, sums: usize) -> Rc<Type> {
    loop {
        let share = *random.pick(&[0, 5, 50, 95, 100]);
        let mut ty = unit();
        for _ in 0..sums {
            ty = Rc::new(if random.chance(share) {
                Type::Sum(unit(), ty)
            } else {
                Type::Sum(ty, unit())
            });
        }
        if lines_of(&ty) < PATTERNS / 2 {
            return ty;
        }
    }
}

/// A type of so many values, over 82, one of which has over 40 left and right
/// nodes.
fn deep(random: &mut Random, count: u64) -> Rc<Type> {
    loop {
        let (sums, two) = (nested(random, 40), nested(random, 1));
        let pairs = Rc::new(Type::Product(sums, two));
        let others = of(random, count - values(&pairs));
        let ty = if random.chance(50) {
            Type::Sum(pairs, others)
        } else {
            Type::Sum(others, pairs)
        };
        if ty.nodes() <= NODES {
            return Rc::new(ty);
        }
    }
}

/// A type of so many values with at most 40 left and right nodes in each.
fn flat(random: &mut Random, count: u64) -> Rc<Type> {
    loop {
        let ty = of(random, count);
        if most_sides(&ty) <= SIDES {
            return ty;
        }
    }
}

/// An accepted file with isos on types of a limit.
pub fn file(random: &mut Random, limit: Limit) -> Vec<u8> {
    loop {
        let (from, to) = types(random, limit);
        let mut isos = vec![same(random, &unit())];
        for _ in 0..random.below(3) {
            let count = 1 + random.below(8) as u64;
            let (from, to) = (of(random, count), of(random, count));
            isos.push(conversion(random, &from, &to));
        }
        if matches!(limit, Limit::Values(_) | Limit::Lines(_)) {
            isos.push(conversion(random, &from, &to));
            if random.chance(50) {
                let called = calling(isos.len() - 1, &from, &to);
                isos.push(called);
            }
        } else {
            isos.extend([&from, &to].map(|ty| same(random, ty)));
        }
        let file = scribe::file(random, &isos);
        if random.check(&file).is_ok() {
            return if random.chance(25) {
                resaved(random, &file)
            } else {
                file
            };
        }
    }
}

/// An accepted file of five isos: one on a unit, one on types of a few values,
/// one on a type of over 4,096, one on a type whose import passes the ceiling of
/// P lines, and one on a type whose import passes that of left and right nodes.
pub fn mixed(random: &mut Random) -> Vec<u8> {
    loop {
        let count = 2 + random.below(7) as u64;
        let (from, to) = (of(random, count), of(random, count));
        let many = *random.pick(&[4_097, 4_098, 8_192, 65_536]);
        let many = of(random, many);
        let lines = LINES[2 + random.below(2)];
        let long = with_lines(random, lines);
        let sums = SIDES + 1 + random.below(20);
        let deep = nested(random, sums);
        let isos = [
            same(random, &unit()),
            conversion(random, &from, &to),
            same(random, &many),
            same(random, &long),
            same(random, &deep),
        ];
        let file = scribe::file(random, &isos);
        if random.check(&file).is_ok() {
            return file;
        }
    }
}

/// The from-type and the to-type of a limit, equal or not.
fn types(random: &mut Random, limit: Limit) -> (Rc<Type>, Rc<Type>) {
    let from = match limit {
        Limit::Values(count) => of(random, count),
        Limit::Lines(lines) => with_lines(random, lines),
        Limit::Long(count) => long(random, count),
        Limit::Sides(sides) => nested(random, sides),
        Limit::Deep(count) => deep(random, count),
    };
    let count = limit.values();
    let equal = match limit {
        Limit::Lines(_) => 100,
        _ if count > CLAUSES as u64 => 100,
        Limit::Values(_) => 40,
        _ => 15,
    };
    let to = match limit {
        _ if random.chance(equal) => Rc::clone(&from),
        Limit::Values(_) => of(random, count),
        _ => flat(random, count),
    };
    (from, to)
}

/// An iso with a clause of closed values for each pair, in any order, one of
/// them with a let step; where that makes too many lines, one that gives each
/// value back.
fn conversion(random: &mut Random, from: &Rc<Type>, to: &Rc<Type>) -> Iso {
    if values(from) > CLAUSES as u64 || from.nodes() > 70 && from == to {
        return same(random, from);
    }
    let patterns = |ty| -> Vec<Rc<Pattern>> {
        let all = closed(ty).into_iter();
        all.map(|value| value.pattern(&mut |_| 0)).collect()
    };
    let lefts = patterns(from);
    let mut rights = patterns(to);
    random.shuffle(&mut rights);
    let clause = |(left, right)| Clause {
        line: 0,
        left,
        right,
        lets: Vec::new(),
    };
    let mut clauses: Vec<Clause> = lefts.into_iter().zip(rights).map(clause).collect();
    let unit = Rc::new(Pattern::Unit);
    let longer = *random.pick(&[0, clauses.len() - 1]);
    clauses[longer].lets.push(Let {
        p: Rc::clone(&unit),
        iso: 0,
        q: unit,
    });
    random.shuffle(&mut clauses);
    Iso {
        line: 0,
        from: Rc::clone(from),
        to: Rc::clone(to),
        clauses,
    }
}

/// An iso that gives each value back.
fn same(random: &mut Random, ty: &Rc<Type>) -> Iso {
    let variable = Rc::new(Pattern::Variable(random.below(32) as u16));
    Iso {
        line: 0,
        from: Rc::clone(ty),
        to: Rc::clone(ty),
        clauses: vec![Clause {
            line: 0,
            left: Rc::clone(&variable),
            right: variable,
            lets: Vec::new(),
        }],
    }
}

/// An iso that gives what another one gives.
fn calling(iso: usize, from: &Rc<Type>, to: &Rc<Type>) -> Iso {
    let [value, given] = [0, 1].map(|number| Rc::new(Pattern::Variable(number)));
    Iso {
        line: 0,
        from: Rc::clone(from),
        to: Rc::clone(to),
        clauses: vec![Clause {
            line: 0,
            left: Rc::clone(&value),
            right: Rc::clone(&given),
            lets: vec![Let {
                p: given,
                iso,
                q: value,
            }],
        }],
    }
}

/// The lines of a good list of so many pairs, without their endings.
fn texts(random: &mut Random, count: usize) -> Vec<String> {
    let mut tos: Vec<usize> = (0..count).collect();
    random.shuffle(&mut tos);
    let line = |(from, to): (usize, usize)| format!("{from},{to}");
    tos.into_iter().enumerate().map(line).collect()
}

fn fed(texts: &[String]) -> Vec<u8> {
    let lines: Vec<String> = texts.iter().map(|text| format!("{text}\n")).collect();
    lines.concat().into_bytes()
}

/// A good list of so many pairs, with any endings.
pub fn list(random: &mut Random, count: usize) -> Vec<u8> {
    let list = fed(&texts(random, count));
    resaved(random, &list)
}

/// What may be wrong with a list.
#[derive(Debug, Clone, Copy, PartialEq, Eq)]
pub enum Flaw {
    /// A line that is not two numbers with a comma between them.
    Form,
    /// A number with a zero before it.
    Zero,
    /// A number that would be the right one with fewer bits.
    Wide,
    /// A carriage return that is no part of an ending.
    Return,
    /// No line feed behind the last line.
    NoFeed,
    /// A from that is not its line's place.
    From,
    Fewer,
    More,
    Repeated,
    High,
    Empty,
    /// One byte changed, put in or taken out; the list may still be good.
    Damaged,
    /// Bytes of any kind.
    Noise,
}

use Flaw::*;

pub const FLAWS: [Flaw; 13] = [
    Form, Zero, Wide, Return, NoFeed, From, Fewer, More, Repeated, High, Empty, Damaged, Noise,
];

/// A list of so many pairs with a flaw, where it is in one line in that of a
/// place.
pub fn flawed(random: &mut Random, count: usize, flaw: Flaw, place: usize) -> Vec<u8> {
    let mut texts = texts(random, count);
    let text = texts[place].clone();
    let (from, to) = text.split_once(',').expect("two numbers");
    let other = (place + 1 + random.below(count.max(2) - 1)) % count;
    match flaw {
        Form => texts[place] = other_form(random, from, to),
        Zero => {
            texts[place] = random
                .pick(&[format!("0{text}"), format!("{from},0{to}")])
                .clone()
        }
        Wide => texts[place] = wide(random, from, to),
        Return => {
            let place_in = random.below(text.len());
            texts[place].insert(place_in, '\r');
        }
        From if other != place && random.chance(50) => texts.swap(place, other),
        From => texts[place] = format!("{},{to}", place + 1 + random.below(3)),
        Fewer => texts.truncate(random.below(count)),
        More => texts.push(format!("{count},{}", random.below(count + 1))),
        Repeated if other != place => {
            let (_, again) = texts[other].split_once(',').expect("two numbers");
            texts[place] = format!("{from},{again}");
        }
        Repeated | High => texts[place] = format!("{from},{}", too_high(random, count)),
        Empty => texts.clear(),
        Damaged | NoFeed | Noise => {}
    }
    let list = fed(&texts);
    let mut list = resaved(random, &list);
    match flaw {
        NoFeed => {
            list.pop();
        }
        Damaged => damage(random, &mut list),
        Noise => {
            let bytes = *random.pick(&[&b"0123,\r\n"[..], b"0,\n", b"\0\xff,\n1"]);
            list = (0..random.below(60)).map(|_| *random.pick(bytes)).collect();
        }
        _ => {}
    }
    list
}

fn other_form(random: &mut Random, from: &str, to: &str) -> String {
    let forms = [
        String::new(),
        from.to_string(),
        format!("{from},"),
        format!(",{to}"),
        format!("{from},{to},"),
        format!("{from},{to},0"),
        format!("{from};{to}"),
        format!("{from}, {to}"),
        format!(" {from},{to}"),
        format!("{from},+{to}"),
        format!("-{from},{to}"),
        format!("C,{from},{to}"),
        format!("{from},{to}\0"),
    ];
    random.pick(&forms).clone()
}

fn wide(random: &mut Random, from: &str, to: &str) -> String {
    let more = *random.pick(&[256, 65_536, 1 << 31, 1 << 32, 1 << 63]);
    let wider = |text: &str| more + text.parse::<u128>().expect("a number");
    if random.chance(50) {
        format!("{},{to}", wider(from))
    } else {
        format!("{from},{}", wider(to))
    }
}

fn too_high(random: &mut Random, count: usize) -> usize {
    *random.pick(&[count, count, count + 1, 255, 65_535, 4_294_967_295])
}

fn damage(random: &mut Random, list: &mut Vec<u8>) {
    let place = random.below(list.len());
    let byte = *random.pick(b"0123456789,,\r\n\n \0\xff");
    match random.below(3) {
        0 => list[place] = byte,
        1 => list.insert(place, byte),
        _ => {
            list.remove(place);
        }
    }
}
