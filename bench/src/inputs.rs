//! The measured files, but for the longest one and the worst cases. All their lines are used.

use crate::call::Call;
use crate::draft::{Draft, ELEMENT, EMPTY, LEFT, LIST, PAIR, PRODUCT, RIGHT, SUM, VARIABLE};
use crate::service::{Asked, Unit, Visit};

/// File S of document 01.
pub fn s() -> Vec<u8> {
    let lines =
        "T,0,0,0 T,1,0,0 T,2,1,1 P,0,0,0 P,2,0,0 P,3,0,0 P,1,0,0 P,1,1,0 P,4,1,3 P,4,1,4 P,4,2,3 \
                 I,1,1 C,1,2 C,2,1 I,2,2 C,5,6 L,4,0,3 C,7,7 ";
    lines.replace(' ', "\n").into_bytes()
}

const LAST_CLAUSE: &[u8] = b"C,7,7\n";

/// File S with its last line, a clause, twice: an overlap.
pub fn s_overlapping() -> Vec<u8> {
    [&s()[..], LAST_CLAUSE].concat()
}

/// File S with its last clause in an iso of its own: a gap in the iso before that.
pub fn s_with_gap() -> Vec<u8> {
    let file = s();
    let rest = file.strip_suffix(LAST_CLAUSE).expect("the last line");
    [rest, b"I,2,2\n", LAST_CLAUSE].concat()
}

/// The types of nothing but bits: unit, one bit, then products up to `bits` bits.
pub fn bit_types(draft: &mut Draft, bits: usize) -> usize {
    let unit = draft.type_of(0, 0, 0);
    let bit = draft.type_of(SUM, unit, unit);
    (1..bits).fold(bit, |front, _| draft.type_of(PRODUCT, front, bit))
}

/// A closed bit.
fn bit_pattern(draft: &mut Draft, right: bool) -> usize {
    let unit = draft.pattern(0, 0, 0);
    draft.pattern(if right { RIGHT } else { LEFT }, unit, 0)
}

/// The patterns that follow from each of `fronts` by one more closed bit.
fn with_bit(draft: &mut Draft, fronts: &[usize]) -> Vec<usize> {
    let left = bit_pattern(draft, false);
    let right = bit_pattern(draft, true);
    let both = |front: &usize| [(*front, left), (*front, right)];
    let pairs: Vec<(usize, usize)> = fronts.iter().flat_map(both).collect();
    let pair = |(front, bit)| draft.pattern(PAIR, front, bit);
    pairs.into_iter().map(pair).collect()
}

/// The closed patterns of `bits` bits.
pub fn closed_patterns(draft: &mut Draft, bits: usize) -> Vec<usize> {
    let first = vec![bit_pattern(draft, false), bit_pattern(draft, true)];
    (1..bits).fold(first, |fronts, _| with_bit(draft, &fronts))
}

/// `isos` isos on a type of `bits` bits, each with 2^closed clauses: the first bits closed, a variable for each of
/// the others.
pub fn wide(isos: usize, bits: usize, closed: usize) -> Vec<u8> {
    let mut draft = Draft::default();
    let ty = bit_types(&mut draft, bits);
    let mut leaves = closed_patterns(&mut draft, closed);
    for number in closed..bits {
        let variable = draft.pattern(VARIABLE, number, 0);
        let pair = |front: &usize| draft.pattern(PAIR, *front, variable);
        leaves = leaves.iter().map(pair).collect();
    }
    for shift in 0..isos {
        draft.iso(ty, ty);
        for (place, left) in leaves.iter().enumerate() {
            draft.clause(*left, leaves[(place + shift) % leaves.len()]);
        }
    }
    draft.into_bytes()
}

/// The isos of 128 clauses for which 4,096 lines have room, beside the P lines of 128 closed patterns.
pub const MOST_ISOS_OF_128: usize = 29;

/// 256 T and 1,024 P lines of units and pairs: four types of 127 nodes, each as deep as can be in its own way, and
/// four patterns of each, all of lines of their own; two isos of one clause on each.
pub fn units_and_pairs() -> Vec<u8> {
    let mut draft = Draft::default();
    // whether the deeper part of a pair is the first
    let ways: [fn(usize) -> bool; 4] = [|_| true, |_| false, |n| n % 2 == 0, |n| n % 2 == 1];
    let types = ways.map(|first| {
        let unit = draft.new_type(0, 0, 0);
        (0..63).fold(unit, |deep, level| match first(level) {
            true => draft.new_type(PRODUCT, deep, unit),
            false => draft.new_type(PRODUCT, unit, deep),
        })
    });
    let patterns = [(); 4].map(|()| {
        ways.map(|first| {
            let unit = draft.new_pattern(0, 0, 0);
            (0..63).fold(unit, |deep, level| match first(level) {
                true => draft.new_pattern(PAIR, deep, unit),
                false => draft.new_pattern(PAIR, unit, deep),
            })
        })
    });
    for sides in [[0, 1], [2, 3]] {
        for (way, ty) in types.into_iter().enumerate() {
            draft.iso(ty, ty);
            draft.clause(patterns[sides[0]][way], patterns[sides[1]][way]);
        }
    }
    draft.into_bytes()
}

/// 31 isos of one clause with eight let steps, below one without; each pattern is a full tree of pairs and
/// units with `nodes` nodes.
pub fn nodes(nodes: usize) -> Vec<u8> {
    let mut draft = Draft::default();
    let levels = nodes.ilog2();
    let unit = draft.type_of(0, 0, 0);
    let ty = (0..levels).fold(unit, |a, _| draft.type_of(PRODUCT, a, a));
    let unit = draft.pattern(0, 0, 0);
    let tree = (0..levels).fold(unit, |a, _| draft.pattern(PAIR, a, a));
    for iso in 0..32 {
        draft.iso(ty, ty);
        draft.clause(tree, tree);
        for _ in 0..if iso == 0 { 0 } else { 8 } {
            draft.step(tree, 0, tree);
        }
    }
    draft.into_bytes()
}

/// An iso of `clauses` clauses that have one pattern, a full tree of pairs and units with `nodes` nodes: every two
/// of them overlap.
pub fn overlap(clauses: usize, nodes: usize) -> Vec<u8> {
    let mut draft = Draft::default();
    let levels = nodes.ilog2();
    let unit = draft.type_of(0, 0, 0);
    let ty = (0..levels).fold(unit, |a, _| draft.type_of(PRODUCT, a, a));
    let unit = draft.pattern(0, 0, 0);
    let tree = (0..levels).fold(unit, |a, _| draft.pattern(PAIR, a, a));
    draft.iso(ty, ty);
    for _ in 0..clauses {
        draft.clause(tree, tree);
    }
    draft.into_bytes()
}

/// An iso on 32 bits, a type of 127 nodes: each of 32 clauses has a left before rights, and a variable for each
/// bit before that, so that the rights alone are left out, and no letter but the last ones tells clauses apart.
pub fn gap() -> Vec<u8> {
    let mut draft = Draft::default();
    let unit = draft.type_of(0, 0, 0);
    let bit = draft.type_of(SUM, unit, unit);
    let ty = (1..32).fold(bit, |rest, _| draft.type_of(PRODUCT, bit, rest));
    let [left, right] = [false, true].map(|right| bit_pattern(&mut draft, right));
    let mut sides = Vec::new();
    for rights in 0..32 {
        let last = if rights == 0 { left } else { right };
        let rest = (1..rights).fold(last, |rest, _| draft.pattern(PAIR, right, rest));
        let rest = if rights == 0 {
            rest
        } else {
            draft.pattern(PAIR, left, rest)
        };
        sides.push((rights..31).fold(rest, |rest, number| {
            let variable = draft.pattern(VARIABLE, number, 0);
            draft.pattern(PAIR, variable, rest)
        }));
    }
    draft.iso(ty, ty);
    for side in sides {
        draft.clause(side, side);
    }
    draft.into_bytes()
}

/// An iso with a clause for each of these sides but the last, which an iso behind it has alone.
fn without_last(draft: &mut Draft, ty: usize, sides: &[usize]) {
    let (last, others) = sides.split_last().expect("a side");
    draft.iso(ty, ty);
    for side in others {
        draft.clause(*side, *side);
    }
    draft.iso(ty, ty);
    draft.clause(*last, *last);
}

/// An iso on a tree of units and some bits behind it, a type of 127 nodes: each clause has the tree and other bits,
/// and the last bits are left out.
pub fn late_gap(bits: usize) -> Vec<u8> {
    let mut draft = Draft::default();
    let back = bit_types(&mut draft, bits);
    let units = 64 - 2 * bits;
    let unit = draft.type_of(0, 0, 0);
    let tree = (1..units).fold(unit, |rest, _| draft.type_of(PRODUCT, unit, rest));
    let ty = draft.type_of(PRODUCT, tree, back);
    let unit = draft.pattern(0, 0, 0);
    let tree = (1..units).fold(unit, |rest, _| draft.pattern(PAIR, unit, rest));
    let leaves = closed_patterns(&mut draft, bits);
    let side = |leaf: &usize| draft.pattern(PAIR, tree, *leaf);
    let sides: Vec<usize> = leaves.iter().map(side).collect();
    without_last(&mut draft, ty, &sides);
    draft.into_bytes()
}

/// An iso on some bits and more behind them: each clause has a variable before other bits, and the last bits are
/// left out. 25 bits before seven are a type of 127 nodes and 127 clauses.
pub fn gap_behind_variable(before: usize, behind: usize) -> Vec<u8> {
    let mut draft = Draft::default();
    let front = bit_types(&mut draft, before);
    let back = bit_types(&mut draft, behind);
    let ty = draft.type_of(PRODUCT, front, back);
    let variable = draft.pattern(VARIABLE, 0, 0);
    let leaves = closed_patterns(&mut draft, behind);
    let side = |leaf: &usize| draft.pattern(PAIR, variable, *leaf);
    let sides: Vec<usize> = leaves.iter().map(side).collect();
    without_last(&mut draft, ty, &sides);
    draft.into_bytes()
}

/// A type of some bits and two units, deep to the right, and its number: with 31 bits 127 nodes and 2,147,483,648
/// settings.
pub fn many_settings(bits: usize) -> (Vec<u8>, u32) {
    let mut draft = Draft::default();
    let unit = draft.type_of(0, 0, 0);
    let bit = draft.type_of(SUM, unit, unit);
    let bits = (1..bits).fold(bit, |rest, _| draft.type_of(PRODUCT, bit, rest));
    let ty = (0..2).fold(bits, |rest, _| draft.type_of(PRODUCT, unit, rest));
    hand_on(&mut draft, ty);
    (draft.into_bytes(), ty as u32)
}

/// An iso that gives what it gets, so that its type's lines are used.
fn hand_on(draft: &mut Draft, ty: usize) {
    let variable = draft.pattern(VARIABLE, 0, 0);
    draft.iso(ty, ty);
    draft.clause(variable, variable);
}

/// The most bits of such a type.
pub const MOST_BITS: usize = 31;

/// The letters and the number of the last of these settings.
pub fn last_setting(bits: usize) -> (Vec<u8>, u32) {
    let letters = "PU".repeat(2) + &"PRU".repeat(bits - 1) + "RU";
    (letters.into_bytes(), (1 << bits) - 1)
}

/// Two P lines that are full trees of pairs and units with so many nodes, each of lines of its own: the sides of a
/// clause.
pub fn two_trees(nodes: usize) -> (Vec<u8>, u32, u32) {
    let mut draft = Draft::default();
    let levels = nodes.ilog2();
    let unit = draft.type_of(0, 0, 0);
    let ty = (0..levels).fold(unit, |a, _| draft.type_of(PRODUCT, a, a));
    let [left, right] = [(); 2].map(|()| {
        let unit = draft.new_pattern(0, 0, 0);
        (0..levels).fold(unit, |a, _| draft.new_pattern(PAIR, a, a))
    });
    draft.iso(ty, ty);
    draft.clause(left, right);
    (draft.into_bytes(), left as u32, right as u32)
}

/// 32 isos on one bit: the first exchanges left and right, each other applies the one before it twice. Iso k
/// makes 2^(k + 1) - 1 applications.
pub fn tower() -> Vec<u8> {
    let mut draft = Draft::default();
    let bit = bit_types(&mut draft, 1);
    let left = bit_pattern(&mut draft, false);
    let right = bit_pattern(&mut draft, true);
    let [a, b, c] = [0, 1, 2].map(|n| draft.pattern(VARIABLE, n, 0));
    draft.iso(bit, bit);
    draft.clause(left, right);
    draft.clause(right, left);
    for below in 0..31 {
        draft.iso(bit, bit);
        draft.clause(a, c);
        draft.step(b, below, a);
        draft.step(c, below, b);
    }
    draft.into_bytes()
}

/// `isos` isos on values of 127 letters: the first exchanges the parts of a pair, the second exchanges them
/// back, the third applies these two, each other applies the one before it twice. From the third on, iso k
/// makes 2^k - 1 applications.
pub fn swap(isos: usize) -> Vec<u8> {
    let mut draft = Draft::default();
    let unit = draft.type_of(0, 0, 0);
    let one = (1..32).fold(unit, |a, _| draft.type_of(PRODUCT, a, unit));
    let two = (1..32).fold(unit, |a, _| draft.type_of(PRODUCT, unit, a));
    let there = draft.type_of(PRODUCT, one, two);
    let back = draft.type_of(PRODUCT, two, one);
    let [a, b] = [0, 1].map(|n| draft.pattern(VARIABLE, n, 0));
    let pair = draft.pattern(PAIR, a, b);
    let exchanged = draft.pattern(PAIR, b, a);
    let given = (isos > 2).then(|| draft.pattern(VARIABLE, 2, 0));
    for (from, to) in [(there, back), (back, there)].into_iter().take(isos) {
        draft.iso(from, to);
        draft.clause(pair, exchanged);
    }
    for (iso, given) in (2..isos).zip(given.into_iter().cycle()) {
        draft.iso(there, there);
        draft.clause(a, given);
        draft.step(b, if iso == 2 { 0 } else { iso - 1 }, a);
        draft.step(given, iso - 1, b);
    }
    draft.into_bytes()
}

/// A value of the swap's from-type, or of its to-type.
pub fn swap_value(exchanged: bool) -> Vec<u8> {
    let one = "P".repeat(31) + &"U".repeat(32);
    let two = "PU".repeat(31) + "U";
    let parts = if exchanged { [two, one] } else { [one, two] };
    format!("P{}{}", parts[0], parts[1]).into_bytes()
}

/// The zones of the board that is run.
pub const ZONES: usize = 20;

/// A list of zones of one bit each, and an iso that exchanges them all: it calls itself on the zones behind the first.
pub fn zoned() -> Vec<u8> {
    let mut draft = Draft::default();
    let bit = bit_types(&mut draft, 1);
    let zones = draft.type_of(LIST, bit, 0);
    let bits = [false, true].map(|right| bit_pattern(&mut draft, right));
    let empty = draft.pattern(EMPTY, 0, 0);
    let [tail, given] = [0, 1].map(|n| draft.pattern(VARIABLE, n, 0));
    let [lefts, rights] =
        [tail, given].map(|rest| bits.map(|bit| draft.pattern(ELEMENT, bit, rest)));
    let own = draft.iso(zones, zones);
    draft.clause(empty, empty);
    for side in 0..2 {
        draft.clause(lefts[side], rights[1 - side]);
        draft.step(given, own, tail);
    }
    draft.into_bytes()
}

/// So many zones, left and right in turn, or what becomes of them.
pub fn zones(count: usize, exchanged: bool) -> Vec<u8> {
    let zone = |place: usize| {
        if (place % 2 == 1) == exchanged {
            "KLU"
        } else {
            "KRU"
        }
    };
    let zones: String = (0..count).map(zone).collect();
    (zones + "N").into_bytes()
}

/// The run of so many zones: one application for each, and one for the end of the list.
pub fn zoned_run(count: usize) -> Call {
    let [value, given] = [false, true].map(|exchanged| zones(count, exchanged));
    Call::run(zoned(), 0, value, count as u32 + 1, given)
}

/// The let steps with which each value of `flips` takes nine applications.
pub const FLIPS: usize = 8;

/// A type of `bits` bits, and an iso that sends the last `steps` of them through one that exchanges left and right.
pub fn flips(bits: usize, steps: usize) -> Vec<u8> {
    let mut draft = Draft::default();
    let ty = bit_types(&mut draft, bits);
    let [left, right] = [false, true].map(|right| bit_pattern(&mut draft, right));
    let variables: Vec<usize> = (0..bits + steps)
        .map(|n| draft.pattern(VARIABLE, n, 0))
        .collect();
    let all = |draft: &mut Draft, numbers: Vec<usize>| {
        let rest = numbers[1..].iter();
        rest.fold(numbers[0], |front, bit| draft.pattern(PAIR, front, *bit))
    };
    let given = [&variables[..bits - steps], &variables[bits..bits + steps]].concat();
    let value = all(&mut draft, variables[..bits].to_vec());
    let given = all(&mut draft, given);
    draft.iso(1, 1);
    draft.clause(left, right);
    draft.clause(right, left);
    draft.iso(ty, ty);
    draft.clause(value, given);
    for step in 0..steps {
        draft.step(variables[bits + step], 0, variables[bits - steps + step]);
    }
    draft.into_bytes()
}

/// The products with which 32 values of `sum` take 1,023 P lines.
pub const PRODUCTS: usize = 30;

/// A sum of so many units, nested to the right, under products with a unit: the last T line.
pub fn sum(units: usize, products: usize) -> Vec<u8> {
    let mut draft = Draft::default();
    let unit = draft.type_of(0, 0, 0);
    let sum = (1..units).fold(unit, |sum, _| draft.type_of(SUM, unit, sum));
    let all = (0..products).fold(sum, |all, _| draft.type_of(PRODUCT, unit, all));
    hand_on(&mut draft, all);
    draft.into_bytes()
}

/// The last T line of a file has 128 values: seven bits.
pub fn seven_bits() -> Vec<u8> {
    let mut draft = Draft::default();
    let ty = bit_types(&mut draft, 7);
    hand_on(&mut draft, ty);
    draft.into_bytes()
}

/// The pair list that sends the first of so many settings to the last, and so on.
pub fn turned_list(count: usize) -> Vec<u8> {
    let line = |from: usize| format!("{from},{}\n", count - 1 - from);
    (0..count).map(line).collect::<String>().into_bytes()
}

/// A query of file S, of two applications.
pub fn asked_of_s() -> Asked {
    Asked {
        iso: 1,
        value: b"PLURU".to_vec(),
        budget: 9,
    }
}

/// The most units of a play, one after the other in one of two settings of a T line.
pub fn units(ty: u32, settings: [u32; 2]) -> Vec<Unit> {
    let unit = |place: usize| Unit {
        ty,
        setting: settings[place % 2],
    };
    (0..rulefile::MAX_UNITS).map(unit).collect()
}

/// So many visits of an iso, each to another of the units.
pub fn visits(iso: u16, count: usize) -> Vec<Visit> {
    let visit = |place: usize| Visit {
        unit: 7 * place % rulefile::MAX_UNITS,
        iso,
    };
    (0..count).map(visit).collect()
}

/// A query of the long file of 4,096 lines: its last iso on four bits and a unit.
pub fn asked_of_long() -> Asked {
    Asked {
        iso: 31,
        value: b"PPPPLULULULUU".to_vec(),
        budget: 9,
    }
}

/// The T line of that iso.
pub const TYPE_OF_LONG: u32 = 255;

/// File S and `queries` queries of two applications each.
pub fn desk(queries: usize) -> Vec<u8> {
    [s(), asked_of_s().line().repeat(queries)].concat()
}

/// What the desk program prints for them.
pub fn desk_answers(queries: usize) -> Vec<u8> {
    format!("0,0\n{}", "0,2,PLULU\n".repeat(queries)).into_bytes()
}

#[cfg(test)]
mod tests {
    use super::*;

    #[test]
    fn files_are_accepted_by_both() {
        for (isos, bits, closed) in [(1, 5, 5), (32, 5, 1), (32, 5, 5), (1, 7, 2), (1, 7, 7)] {
            Call::check(wide(isos, bits, closed)).agree();
        }
        let most = Call::check(wide(MOST_ISOS_OF_128, 7, 7));
        assert!((4_096 - 129..=4_096).contains(&most.lines()));
        most.agree();
        for count in [7, 127] {
            Call::check(nodes(count)).agree();
        }
        for (bits, steps) in [(1, 1), (8, 8), (12, 8)] {
            Call::check(flips(bits, steps)).agree();
        }
        for isos in [1, 2, 32] {
            Call::check(swap(isos)).agree();
        }
        Call::check(sum(32, PRODUCTS)).agree();
        let pairs = Call::check(units_and_pairs());
        assert_eq!(pairs.lines(), 256 + 1_024 + 16);
        pairs.agree();
    }

    /// The board of zones, by the checker written apart with the lines of request 14.
    #[test]
    fn zones_are_exchanged() {
        let rules =
            apart::check_with(&zoned(), true).unwrap_or_else(|refusal| panic!("{refusal:?}"));
        for count in [0, 1, ZONES, 32] {
            let budget = count as u32 + 1;
            let ran = apart::run_rules(&rules, 0, false, budget, &zones(count, false));
            assert_eq!(ran, Ok((budget.into(), zones(count, true))));
        }
    }

    #[test]
    fn the_desk_program_written_apart_answers_as_expected() {
        assert_eq!(apart::desk::desk(&desk(3)), desk_answers(3));
    }
}
