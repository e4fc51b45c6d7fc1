//! Files that stand at one of the ceilings, or one over it.

use super::draft::Draft;
use super::plan;
use super::random::Random;
use super::scribe;
use super::shape::exact_type;
use crate::lines::{BYTES, ISOS, LETS, LINES, NODES, PATTERNS, SIDES, TYPES};
use crate::tree::Type;

/// The ceilings of document 01 that an accepted file can stand at. None has
/// 65,536 bytes: its 4,096 lines are too short for that.
#[derive(Debug, Clone, Copy, PartialEq, Eq)]
pub enum Ceiling {
    Lines,
    Types,
    Patterns,
    Isos,
    Clauses,
    Lets,
    TypeNodes,
    PatternNodes,
    Sides,
}

pub const CEILINGS: [Ceiling; 9] = [
    Ceiling::Lines,
    Ceiling::Types,
    Ceiling::Patterns,
    Ceiling::Isos,
    Ceiling::Clauses,
    Ceiling::Lets,
    Ceiling::TypeNodes,
    Ceiling::PatternNodes,
    Ceiling::Sides,
];

/// A file at one of the ceilings; with `over` one line or node over one that
/// is refused with 7.
pub fn at_ceiling(random: &mut Random, over: bool) -> Vec<u8> {
    let ceiling = match random.below(8) {
        0 if !over && random.chance(40) => Ceiling::Lines,
        place => CEILINGS[1 + place],
    };
    at(random, ceiling, over)
}

/// A file at the ceiling; with `over` one line or node over it.
pub fn at(random: &mut Random, ceiling: Ceiling, over: bool) -> Vec<u8> {
    let mut draft = Draft::of(&base(random, 6));
    match ceiling {
        Ceiling::Lines => return many_lines(random, over),
        Ceiling::Types => fill(&mut draft, b'T', TYPES, over),
        Ceiling::Patterns => fill(&mut draft, b'P', PATTERNS, over),
        Ceiling::Isos => many_isos(&mut draft, over),
        Ceiling::Clauses => return many_clauses(random, over),
        Ceiling::Lets => many_lets(&mut draft, over),
        Ceiling::TypeNodes => one_over_type(random, &mut draft, over),
        Ceiling::PatternNodes => one_over_pattern(random, &mut draft, over),
        Ceiling::Sides => one_over_sides(random, &mut draft, over),
    }
    draft.bytes()
}

/// An accepted file with at most so many isos.
pub fn base(random: &mut Random, most: usize) -> Vec<u8> {
    loop {
        let mut isos = plan::isos(random);
        isos.truncate(most);
        let file = scribe::file(random, &isos);
        if random.check(&file).is_ok() {
            return file;
        }
    }
}

/// Lines up to the ceiling, in trees of 127 nodes at most of which no two nodes
/// share a line, each used by an iso of its own.
fn fill(draft: &mut Draft, letter: u8, ceiling: usize, over: bool) {
    let variable = draft.add(b'P', [1, 0, 0]);
    let ladder = match letter {
        b'P' => ladder(draft, variable),
        _ => Vec::new(),
    };
    let wanted = ceiling + usize::from(over);
    while draft.count(letter) < wanted {
        let due = wanted - draft.count(letter);
        let leaves = due.min(NODES).div_ceil(2);
        let (ty, pattern) = match letter {
            b'T' => (units(draft, b'T', leaves, 2), variable),
            _ => (ladder[leaves - 1], units(draft, b'P', leaves, 4)),
        };
        draft.push(b'I', &[ty, ty]);
        draft.push(b'C', &[pattern, pattern]);
    }
}

/// Adds a tree of so many units, with a line for each node.
fn units(draft: &mut Draft, letter: u8, leaves: usize, kind: u32) -> u32 {
    let mut whole = draft.add(letter, [0, 0, 0]);
    for _ in 1..leaves {
        let one = draft.add(letter, [0, 0, 0]);
        whole = draft.add(letter, [kind, one, whole]);
    }
    whole
}

/// Adds the types of 1 to 64 units, and an iso that uses the last.
fn ladder(draft: &mut Draft, variable: u32) -> Vec<u32> {
    let unit = draft.unit(b'T');
    let mut ladder = vec![unit];
    for below in 0..63 {
        let last = ladder[below];
        ladder.push(draft.add(b'T', [2, unit, last]));
    }
    let last = ladder[63];
    draft.push(b'I', &[last, last]);
    draft.push(b'C', &[variable, variable]);
    ladder
}

fn many_isos(draft: &mut Draft, over: bool) {
    let (ty, pattern) = (draft.unit(b'T'), draft.unit(b'P'));
    while draft.count(b'I') < ISOS + usize::from(over) {
        draft.push(b'I', &[ty, ty]);
        draft.push(b'C', &[pattern, pattern]);
    }
}

fn many_clauses(random: &mut Random, over: bool) -> Vec<u8> {
    let isos = [plan::wide(random)];
    let mut draft = Draft::of(&scribe::file(random, &isos));
    if over {
        draft.push(b'C', &[0, 0]);
    }
    draft.bytes()
}

fn many_lets(draft: &mut Draft, over: bool) {
    let (ty, pattern) = (draft.unit(b'T'), draft.unit(b'P'));
    let callee = draft.count(b'I') as u32;
    for _ in 0..2 {
        draft.push(b'I', &[ty, ty]);
        draft.push(b'C', &[pattern, pattern]);
    }
    for _ in 0..LETS + usize::from(over) {
        draft.push(b'L', &[pattern, callee, pattern]);
    }
}

fn one_over_type(random: &mut Random, draft: &mut Draft, over: bool) {
    let number = wide_type(random, draft);
    if over {
        let unit = draft.unit(b'T');
        draft.add(b'T', [1 + random.below(2) as u32, unit, number]);
    }
    let variable = draft.add(b'P', [1, random.below(32) as u32, 0]);
    draft.push(b'I', &[number, number]);
    draft.push(b'C', &[variable, variable]);
}

/// Adds a type of 127 nodes.
fn wide_type(random: &mut Random, draft: &mut Draft) -> u32 {
    let ty = exact_type(random, 127);
    add_type(draft, &ty)
}

fn add_type(draft: &mut Draft, ty: &Type) -> u32 {
    match ty {
        Type::Unit => draft.unit(b'T'),
        Type::Sum(a, b) => {
            let (a, b) = (add_type(draft, a), add_type(draft, b));
            draft.add(b'T', [1, a, b])
        }
        Type::Product(a, b) => {
            let (a, b) = (add_type(draft, a), add_type(draft, b));
            draft.add(b'T', [2, a, b])
        }
        Type::List(a) => {
            let a = add_type(draft, a);
            draft.add(b'T', [3, a, 0])
        }
    }
}

fn one_over_pattern(random: &mut Random, draft: &mut Draft, over: bool) {
    let (ty, number) = wide_pattern(random, draft);
    draft.push(b'I', &[ty, ty]);
    draft.push(b'C', &[number, number]);
    if over {
        draft.add(b'P', [2 + random.below(2) as u32, number, 0]);
    }
}

/// Adds a pattern of 63 pairs with 64 leaves, 127 nodes, and its type.
fn wide_pattern(random: &mut Random, draft: &mut Draft) -> (u32, u32) {
    let (unit, leaf) = (draft.unit(b'T'), draft.unit(b'P'));
    let (mut ty, mut number) = (unit, leaf);
    for _ in 0..63 {
        if random.chance(50) {
            ty = draft.add(b'T', [2, ty, unit]);
            number = draft.add(b'P', [4, number, leaf]);
        } else {
            ty = draft.add(b'T', [2, unit, ty]);
            number = draft.add(b'P', [4, leaf, number]);
        }
    }
    (ty, number)
}

fn one_over_sides(random: &mut Random, draft: &mut Draft, over: bool) {
    let number = many_sides(random, draft);
    if over {
        draft.add(b'P', [2 + random.below(2) as u32, number, 0]);
    }
}

/// Adds an iso on a type of 41 values, of which one is a pattern of forty left
/// and right nodes.
fn many_sides(random: &mut Random, draft: &mut Draft) -> u32 {
    let (unit, leaf) = (draft.unit(b'T'), draft.unit(b'P'));
    let inner = 2 + random.below(2) as u32;
    let end = draft.add(b'P', [5 - inner, leaf, 0]);
    let (mut ty, mut number) = (unit, leaf);
    let mut values = vec![end];
    for place in 0..SIDES {
        let parts = if inner == 2 {
            [1, ty, unit]
        } else {
            [1, unit, ty]
        };
        ty = draft.add(b'T', parts);
        number = draft.add(b'P', [inner, number, 0]);
        if place > 0 {
            let last = values[place - 1];
            values.push(draft.add(b'P', [inner, last, 0]));
        }
    }
    values.push(number);
    draft.push(b'I', &[ty, ty]);
    random.shuffle(&mut values);
    for value in values {
        draft.push(b'C', &[value, value]);
    }
    number
}

/// A file of exactly 4,096 lines; with `over` one more line.
pub fn many_lines(random: &mut Random, over: bool) -> Vec<u8> {
    let mut isos = vec![plan::small()];
    let wide = plan::wide(random);
    isos.extend((0..15).map(|_| wide.clone()));
    let mut draft = Draft::of(&scribe::file(random, &isos));
    let mut unit = draft.unit(b'P');
    if random.chance(50) {
        // The unit's last line has a number of four digits.
        fill(&mut draft, b'P', PATTERNS - 1, false);
        unit = draft.add(b'P', [0, 0, 0]);
        let ty = draft.unit(b'T');
        draft.push(b'I', &[ty, ty]);
        draft.push(b'C', &[unit, unit]);
    }
    let wanted = LINES + usize::from(over);
    let mut rows = Vec::new();
    let mut spare = wanted.saturating_sub(draft.0.len());
    let mut isos = 0;
    for row in draft.0.drain(..) {
        let letter = row.0;
        isos += usize::from(letter == b'I');
        rows.push(row);
        if letter == b'C' && isos > 1 {
            for _ in 0..spare.min(LETS) {
                rows.push((b'L', vec![unit, 0, unit]));
                spare -= 1;
            }
        }
    }
    Draft(rows).bytes()
}

/// A file of exactly 65,536 bytes, or one more: its lines are few and long, so
/// it is refused either way.
pub fn many_bytes(random: &mut Random, over: bool) -> Vec<u8> {
    let mut file = base(random, ISOS);
    let end = random.chance(50);
    let length = BYTES + usize::from(over);
    file.truncate(length / 2);
    while file.len() < length {
        file.push(*random.pick(b"TPICL,0123456789"));
    }
    if end {
        file[length - 1] = b'\n';
    }
    file
}

/// A file repeated until it is too long by far.
pub fn far_over(random: &mut Random) -> Vec<u8> {
    let file = [&base(random, ISOS), &b"T,0,0,0\n"[..]].concat();
    let length = BYTES + 1 + random.below(2 * BYTES);
    file.into_iter().cycle().take(length).collect()
}
