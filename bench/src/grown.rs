//! The calls whose cost is followed while one measure of their input doubles.

use crate::call::Call;
use crate::draft::{Draft, PAIR, PRODUCT, VARIABLE};
use crate::inputs::{self, bit_types, closed_patterns};
use crate::long::long;
use crate::service::Asked;
use apart::overlap::overlap_rules;
use rulefile::Overlap;

/// An iso that undoes itself, the last but for a tower of isos of which each applies the one before it twice; a
/// value of its type with its number, and the applications that it takes.
pub struct Base {
    file: Vec<u8>,
    ty: u32,
    iso: u16,
    value: Vec<u8>,
    number: u32,
    applications: u32,
}

impl Base {
    fn asked(&self) -> Asked {
        Asked {
            iso: self.iso,
            value: self.value.clone(),
            budget: self.applications,
        }
    }

    pub fn into_file(self) -> Vec<u8> {
        self.file
    }
}

/// The isos of a tower. The base is used up to 2^TOWER times in a run.
const TOWER: u32 = 6;

/// The draft of a base, which has a tower or none.
struct Drafted {
    draft: Draft,
    ty: usize,
    tower: Option<[usize; 3]>,
}

impl Drafted {
    /// Once the types are written: the variables of the tower come before the other P lines.
    fn new(mut draft: Draft, ty: usize, has_tower: bool) -> Self {
        let variable = |number| draft.pattern(VARIABLE, number, 0);
        let tower = has_tower.then(|| [0, 1, 2].map(variable));
        Drafted { draft, ty, tower }
    }

    /// Once the base itself is written.
    fn base(mut self, letters: String, number: u32, applications: u32) -> Base {
        let iso = self.draft.isos() - 1;
        for [a, b, c] in std::iter::repeat_n(self.tower, TOWER as usize).flatten() {
            let below = self.draft.isos() - 1;
            self.draft.iso(self.ty, self.ty);
            self.draft.clause(a, c);
            self.draft.step(b, below, a);
            self.draft.step(c, below, b);
        }
        Base {
            file: self.draft.into_bytes(),
            ty: self.ty as u32,
            iso: iso as u16,
            value: letters.into_bytes(),
            number,
            applications,
        }
    }
}

/// A base of so many clauses on seven bits: the first bits closed, a variable for each of the others. The value is
/// the last clause's.
pub fn of_clauses(clauses: usize, has_tower: bool) -> Base {
    let mut draft = Draft::default();
    let ty = bit_types(&mut draft, 7);
    let mut base = Drafted::new(draft, ty, has_tower);
    let sides = sides(&mut base.draft, clauses.ilog2() as usize);
    base.draft.iso(ty, ty);
    for (place, side) in sides.iter().enumerate() {
        base.draft.clause(*side, sides[place ^ 1]);
    }
    base.base("P".repeat(6) + &"RU".repeat(7), 127, 1)
}

/// The patterns of seven bits, of which so many are closed.
fn sides(draft: &mut Draft, closed: usize) -> Vec<usize> {
    let mut sides = closed_patterns(draft, closed);
    for number in closed..7 {
        let variable = draft.pattern(VARIABLE, number, 0);
        let pair = |front: &usize| draft.pattern(PAIR, *front, variable);
        sides = sides.iter().map(pair).collect();
    }
    sides
}

/// A base of one clause whose sides are a tree of so many nodes, units and pairs deep to the left.
pub fn of_nodes(nodes: usize, has_tower: bool) -> Base {
    let mut draft = Draft::default();
    let ty = units(&mut draft, nodes);
    let mut base = Drafted::new(draft, ty, has_tower);
    let tree = unit_patterns(&mut base.draft, nodes);
    base.draft.iso(ty, ty);
    base.draft.clause(tree, tree);
    base.base(letters_of(nodes), 0, 1)
}

/// A type of so many nodes, units and products deep to the left; its one value has as many letters.
fn units(draft: &mut Draft, nodes: usize) -> usize {
    let unit = draft.type_of(0, 0, 0);
    (0..nodes / 2).fold(unit, |deep, _| draft.type_of(PRODUCT, deep, unit))
}

fn letters_of(nodes: usize) -> String {
    "P".repeat(nodes / 2) + &"U".repeat(nodes / 2 + 1)
}

/// The pattern of units and pairs that fits such a type.
fn unit_patterns(draft: &mut Draft, nodes: usize) -> usize {
    let unit = draft.pattern(0, 0, 0);
    (0..nodes / 2).fold(unit, |deep, _| draft.pattern(PAIR, deep, unit))
}

/// A base on one bit, which sends it so many times through an iso that exchanges left and right.
pub fn of_steps(steps: usize, has_tower: bool) -> Base {
    let mut draft = Draft::default();
    let ty = bit_types(&mut draft, 1);
    let mut base = Drafted::new(draft, ty, has_tower);
    let draft = &mut base.draft;
    let closed = closed_patterns(draft, 1);
    let variable = |number| draft.pattern(VARIABLE, number, 0);
    let variables: Vec<usize> = (0..=steps).map(variable).collect();
    draft.iso(ty, ty);
    draft.clause(closed[0], closed[1]);
    draft.clause(closed[1], closed[0]);
    draft.iso(ty, ty);
    draft.clause(variables[0], variables[steps]);
    for step in 0..steps {
        draft.step(variables[step + 1], 0, variables[step]);
    }
    base.base("LU".to_string(), 0, steps as u32 + 1)
}

/// A base that exchanges the parts of a pair, which have half of so many letters each.
pub fn of_letters(letters: usize, has_tower: bool) -> Base {
    let mut draft = Draft::default();
    let half = units(&mut draft, letters / 2);
    let ty = draft.type_of(PRODUCT, half, half);
    let mut base = Drafted::new(draft, ty, has_tower);
    let [a, b] = [0, 1].map(|number| base.draft.pattern(VARIABLE, number, 0));
    let pair = base.draft.pattern(PAIR, a, b);
    let exchanged = base.draft.pattern(PAIR, b, a);
    base.draft.iso(ty, ty);
    base.draft.clause(pair, exchanged);
    let half = letters_of(letters / 2);
    base.base(format!("P{half}{half}"), 0, 1)
}

/// A run that uses the base `uses` times, a power of two: an application of its own each time, with one of the
/// tower but for the last.
pub fn run(base: Base, uses: usize) -> Call {
    let uses = uses as u32;
    let budget = uses * (base.applications + 1) - 1;
    let iso = base.iso + uses.ilog2() as u16;
    Call::run(base.file, iso, base.value.clone(), budget, base.value)
}

pub fn sheet(base: Base, queries: usize) -> Call {
    let asked = vec![base.asked(); queries];
    Call::sheet(base.file, asked)
}

/// One run of the base.
pub fn single_run(base: Base) -> Call {
    let asked = vec![base.asked()];
    Call::runs(base.file, asked)
}

pub fn play(base: Base, visits: usize) -> Call {
    let units = inputs::units(base.ty, [base.number; 2]);
    let visits = inputs::visits(base.iso, visits);
    Call::play(base.file, units, &visits, base.applications)
}

/// The last iso of the long file as a base, and the T line of it.
pub fn last_of_long(lines: usize) -> Base {
    let file = long(lines);
    let count = |letter: u8| {
        let rows = file.split(|byte| *byte == b'\n');
        rows.filter(|row| row.first() == Some(&letter)).count()
    };
    Base {
        ty: count(b'T') as u32 - 1,
        iso: count(b'I') as u16 - 1,
        value: b"PPPPLULULULUU".to_vec(),
        number: 0,
        applications: 9,
        file,
    }
}

/// Its value's number, its number's value.
pub fn number(base: Base) -> Call {
    Call::number(base.file, base.ty, base.value, base.number)
}

pub fn setting(base: Base) -> Call {
    Call::setting(base.file, base.ty, base.value, base.number)
}

pub fn bounds(base: Base) -> Call {
    Call::bounds(base.file, base.iso.into())
}

pub fn export(base: Base) -> Call {
    Call::export(base.file, base.iso.into(), base.applications)
}

/// Two P lines of a file compared.
pub fn overlap(file: Vec<u8>, left: u32, right: u32) -> Call {
    let rules = apart::check(&file).expect("the file is accepted");
    let told = overlap_rules(&rules, left, right);
    let (clash, pairs) = told.expect("the lines are there");
    Call::overlap(file, left, right, Overlap { clash, pairs })
}

/// A file whose last clause has the left side of the one before it: an overlap in the last iso.
pub fn with_side_twice(file: Vec<u8>) -> Vec<u8> {
    let text = String::from_utf8(file).expect("a file is text");
    let mut lines: Vec<String> = text.lines().map(String::from).collect();
    let is_clause = |place: &usize| lines[*place].starts_with('C');
    let mut clauses = (0..lines.len()).rev().filter(is_clause);
    let [last, before] = [(); 2].map(|()| clauses.next().expect("two clauses"));
    let field = |place: usize, number: usize| lines[place].split(',').nth(number);
    let sides = [field(before, 1), field(last, 2)].map(|side| side.expect("two sides"));
    lines[last] = format!("C,{},{}", sides[0], sides[1]);
    (lines.join("\n") + "\n").into_bytes()
}

/// An iso of so many clauses that part in their last nodes: a tree of units before seven bits, 127 nodes in all.
pub fn late_clauses(clauses: usize) -> Vec<u8> {
    let mut draft = Draft::default();
    let bits = bit_types(&mut draft, 7);
    let front = units(&mut draft, 99);
    let ty = draft.type_of(PRODUCT, front, bits);
    let tree = unit_patterns(&mut draft, 99);
    let side = |draft: &mut Draft, bits: usize| draft.pattern(PAIR, tree, bits);
    let sides = sides(&mut draft, clauses.ilog2() as usize);
    let sides: Vec<usize> = sides.iter().map(|bits| side(&mut draft, *bits)).collect();
    draft.iso(ty, ty);
    for (place, left) in sides.iter().enumerate() {
        draft.clause(*left, sides[place ^ 1]);
    }
    draft.into_bytes()
}

/// 32 isos of four clauses: two closed bits behind a tree of units, so many nodes in all.
pub fn late_nodes(nodes: usize) -> Vec<u8> {
    let mut draft = Draft::default();
    let bits = bit_types(&mut draft, 2);
    let front = units(&mut draft, nodes - 8);
    let ty = draft.type_of(PRODUCT, front, bits);
    let tree = unit_patterns(&mut draft, nodes - 8);
    let closed = closed_patterns(&mut draft, 2);
    let side = |bits: &usize| draft.pattern(PAIR, tree, *bits);
    let sides: Vec<usize> = closed.iter().map(side).collect();
    for shift in 0..32 {
        draft.iso(ty, ty);
        for (place, left) in sides.iter().enumerate() {
            draft.clause(*left, sides[(place + shift) % 4]);
        }
    }
    draft.into_bytes()
}

/// 30 isos of one clause with eight let steps, over P lines that no two of them share: trees of so many nodes
/// around a variable, deep to the left.
pub fn around_variable(nodes: usize) -> Vec<u8> {
    let mut draft = Draft::default();
    let ty = units(&mut draft, nodes);
    let unit = draft.pattern(0, 0, 0);
    let variable = draft.pattern(VARIABLE, 0, 0);
    let most = (1..nodes / 2).fold(variable, |deep, _| draft.pattern(PAIR, deep, unit));
    let lines: Vec<usize> = (0..=18 * 30)
        .map(|_| draft.new_pattern(PAIR, most, unit))
        .collect();
    let mut lines = lines.into_iter();
    let mut next = || lines.next().expect("a line");
    let line = next();
    draft.iso(ty, ty);
    draft.clause(line, line);
    for _ in 0..30 {
        draft.iso(ty, ty);
        draft.clause(next(), next());
        for _ in 0..8 {
            draft.step(next(), 0, next());
        }
    }
    draft.into_bytes()
}

/// 31 isos of eight clauses on three bits and a unit; each clause sends the unit so many times through the first
/// iso.
pub fn stepped(steps: usize) -> Base {
    let mut draft = Draft::default();
    let unit = draft.type_of(0, 0, 0);
    let bits = bit_types(&mut draft, 3);
    let ty = draft.type_of(PRODUCT, bits, unit);
    let closed = closed_patterns(&mut draft, 3);
    let variables: Vec<usize> = (0..=steps)
        .map(|number| draft.pattern(VARIABLE, number, 0))
        .collect();
    let mut side = |bits: &usize, step: usize| draft.pattern(PAIR, *bits, variables[step]);
    let sides: Vec<[usize; 2]> = closed
        .iter()
        .map(|bits| [side(bits, 0), side(bits, steps)])
        .collect();
    draft.iso(unit, unit);
    draft.clause(variables[0], variables[0]);
    for _ in 0..31 {
        draft.iso(ty, ty);
        for [left, right] in &sides {
            draft.clause(*left, *right);
            for step in 0..steps {
                draft.step(variables[step + 1], 0, variables[step]);
            }
        }
    }
    Base {
        file: draft.into_bytes(),
        ty: ty as u32,
        iso: 31,
        value: b"PPPLULULUU".to_vec(),
        number: 0,
        applications: steps as u32 + 1,
    }
}

/// A list of as many pairs as a type has values, 2^closed: so many bits, and units that make up for seven.
pub fn import(closed: usize) -> Call {
    let mut draft = Draft::default();
    let bits = bit_types(&mut draft, closed);
    let unit = draft.type_of(0, 0, 0);
    let ty = (closed..7).fold(bits, |front, _| draft.type_of(PRODUCT, front, unit));
    let variable = draft.pattern(VARIABLE, 0, 0);
    draft.iso(ty, ty);
    draft.clause(variable, variable);
    Call::import(draft.into_bytes(), inputs::turned_list(1 << closed))
}

/// The last value of a type of so many nodes, bits and two units deep to the right.
pub fn in_bits(nodes: usize) -> Base {
    let bits = nodes / 4;
    let (file, ty) = inputs::many_settings(bits);
    let (value, number) = inputs::last_setting(bits);
    Base {
        file,
        ty,
        iso: 0,
        value,
        number,
        applications: 1,
    }
}
