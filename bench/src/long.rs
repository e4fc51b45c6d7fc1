//! The file of up to 4,096 lines, each of which is used.

use crate::draft::{Draft, PAIR, PRODUCT, SUM, VARIABLE};
use crate::inputs::closed_patterns;

const CLAUSES: usize = 16;
/// The T lines that four bits and a unit take at least, and at most.
const OWN_TYPES: [usize; 2] = [6, 17];

/// How many T and P lines there are, and the let steps of each clause of the isos behind the first.
struct Plan {
    types: usize,
    patterns: usize,
    isos: Vec<[usize; CLAUSES]>,
}

impl Plan {
    fn of(lines: usize) -> Self {
        let (types, patterns) = (lines / 16, (lines / 4).max(96));
        let others = (lines / 128).max(3) - 1;
        let steps = |own: usize| {
            let all = own - 1 - CLAUSES;
            let more = |place| usize::from(place < all % CLAUSES);
            std::array::from_fn(|place| all / CLAUSES + more(place))
        };
        // the first iso has two lines
        let isos = shares(lines - types - patterns - 2, others).map(steps);
        Plan {
            types,
            patterns,
            isos: isos.collect(),
        }
    }

    fn fewest_steps(&self) -> usize {
        *self.isos.iter().flatten().min().expect("a clause")
    }
}

/// A number in so many parts, the later ones larger by one where it does not go up.
fn shares(number: usize, parts: usize) -> impl Iterator<Item = usize> {
    (0..parts).map(move |part| (number + part) / parts)
}

/// A file of `lines` lines, 256 to 4,096: one in sixteen a T line, one in four (at least 96) a P line, one in 128
/// (at least three) an I line. The first iso is on a unit; each other has T lines of its own for four bits and a
/// unit, and 16 clauses of three to seven let steps, which send the unit through the first. The P lines are the
/// sides and, in equal numbers, variables that the let steps name by turns.
pub fn long(lines: usize) -> Vec<u8> {
    let plan = Plan::of(lines);
    let mut draft = Draft::default();
    let unit = draft.type_of(0, 0, 0);
    let types: Vec<usize> = shares(plan.types - 1, plan.isos.len())
        .map(|own| own_type(&mut draft, own))
        .collect();
    let sides = sides(&mut draft, &plan);
    let mut variables = Variables::new(&mut draft, &plan);
    draft.iso(unit, unit);
    draft.clause(variables.lines[0][0], variables.lines[0][0]);
    for ((ty, sides), steps) in types.iter().zip(sides).zip(&plan.isos) {
        draft.iso(*ty, *ty);
        for ((left, right), steps) in sides.into_iter().zip(steps) {
            draft.clause(left, right);
            for step in 0..*steps {
                let q = variables.next(step);
                let p = variables.next(step + 1);
                draft.step(p, 0, q);
            }
        }
    }
    draft.into_bytes()
}

/// The type of four bits and a unit in T lines of its own: at first equal bits have a line each, then equal units.
fn own_type(draft: &mut Draft, lines: usize) -> usize {
    assert!((OWN_TYPES[0]..=OWN_TYPES[1]).contains(&lines));
    let own_bits = (lines - OWN_TYPES[0]).min(3);
    let mut own_units = lines - OWN_TYPES[0] - own_bits;
    let first = draft.new_type(0, 0, 0);
    let mut unit = |draft: &mut Draft| match own_units.checked_sub(1) {
        Some(rest) => {
            own_units = rest;
            draft.new_type(0, 0, 0)
        }
        None => first,
    };
    let second = unit(draft);
    let bit = draft.new_type(SUM, first, second);
    let mut bits = bit;
    for place in 0..3 {
        let mut next = bit;
        if place < own_bits {
            let units = [unit(draft), unit(draft)];
            next = draft.new_type(SUM, units[0], units[1]);
        }
        bits = draft.new_type(PRODUCT, bits, next);
    }
    let last = unit(draft);
    draft.new_type(PRODUCT, bits, last)
}

/// The sides of each iso's clauses: on the left the closed bits and variable 0; on the right those of another
/// clause, and the variable that the last let step binds.
fn sides(draft: &mut Draft, plan: &Plan) -> Vec<Vec<(usize, usize)>> {
    let leaves = closed_patterns(draft, 4);
    let mut side = |leaf: usize, number: usize| {
        let variable = draft.pattern(VARIABLE, number, 0);
        draft.pattern(PAIR, leaves[leaf % CLAUSES], variable)
    };
    let mut both = |iso: usize, place: usize, steps: usize| {
        let left = side(place, 0);
        (left, side(place + iso, steps))
    };
    let mut sides = Vec::new();
    for (iso, steps) in (1..).zip(&plan.isos) {
        let clauses = steps.iter().enumerate();
        sides.push(
            clauses
                .map(|(place, steps)| both(iso, place, *steps))
                .collect(),
        );
    }
    sides
}

/// The lines of each variable, and which of them is named next.
struct Variables {
    lines: Vec<Vec<usize>>,
    named: Vec<usize>,
}

impl Variables {
    /// Lines of the variables that all clauses have fill up the P lines.
    fn new(draft: &mut Draft, plan: &Plan) -> Self {
        let most = *plan.isos.iter().flatten().max().expect("a clause");
        let line = |number| vec![draft.pattern(VARIABLE, number, 0)];
        let mut lines: Vec<Vec<usize>> = (0..=most).map(line).collect();
        let numbers = (0..=plan.fewest_steps()).cycle();
        let missing = plan.patterns - draft.patterns();
        for number in numbers.take(missing) {
            lines[number].push(draft.new_pattern(VARIABLE, number, 0));
        }
        let named = vec![0; lines.len()];
        Variables { lines, named }
    }

    fn next(&mut self, number: usize) -> usize {
        let lines = &self.lines[number];
        self.named[number] += 1;
        lines[self.named[number] % lines.len()]
    }
}

#[cfg(test)]
mod tests {
    use super::*;
    use crate::call::Call;

    #[test]
    fn files_have_their_lines_and_are_accepted_by_both() {
        for lines in [256, 512, 1_024, 2_048, 4_096] {
            let file = long(lines);
            let of = |letter: u8| {
                let begins = |line: &[u8]| line.first() == Some(&letter);
                file.split(|byte| *byte == b'\n')
                    .filter(|line| begins(line))
                    .count()
            };
            assert_eq!(of(b'T'), lines / 16);
            assert_eq!(of(b'P'), (lines / 4).max(96));
            assert_eq!(of(b'I'), (lines / 128).max(3));
            let call = Call::check(file);
            assert_eq!(call.lines(), lines);
            call.agree();
        }
    }
}
