//! Files with two faults: each pair of refusals 3 to 14, 21 and 23 in both orders
//! of lines, and each pair that can stand on one line, in one clause or in one
//! iso.

use super::fault;
use super::ground::Ground;
use super::random::Random;
use crate::lines::LISTS;

/// Two faults. Apart they stand on lines of their own, the first one above;
/// together they stand on one line, in one clause or in one iso, and the first
/// is the one that is tested first: the lower number, but 23 before 11 to 14.
#[derive(Debug, Clone, Copy, PartialEq, Eq)]
pub struct Pair {
    pub first: u8,
    pub second: u8,
    pub together: bool,
}

/// A file with both faults, one with the first alone and one with the second
/// alone, and the number and line that Check has to give for each.
pub struct Made {
    pub files: [Vec<u8>; 3],
    pub answers: [(u8, usize); 3],
}

/// All pairs that can be made.
///
/// Apart: a line with fault 5 or 21 is a T or P line; below a clause it would
/// be misplaced. Together: two of 3 to 7 on one line, two of 8 to 10 in one
/// clause, two of 11 to 14 in one iso, or one of 8 to 10 in a clause of an iso
/// with one of 11 to 14; with 23 any one of 8 to 14.
pub fn all() -> Vec<Pair> {
    all_with(LISTS)
}

/// The same, with 23 or without it.
pub fn all_with(lists: bool) -> Vec<Pair> {
    let mut pairs = Vec::new();
    let numbers = || (3..=14).chain([21]).chain(lists.then_some(23));
    let of_iso = |number| (8..=14).contains(&number) || number == 23;
    for first in numbers() {
        for second in numbers() {
            let pair = |together| Pair {
                first,
                second,
                together,
            };
            if !of_iso(first) || !matches!(second, 5 | 21) {
                pairs.push(pair(false));
            }
            let together = match (first, second) {
                (23, 11..=14) | (8..=10, 23) => true,
                (23, _) | (_, 23) => false,
                _ => first < second && second != 21 && (second < 8 || first > 7),
            };
            if together {
                pairs.push(pair(true));
            }
        }
    }
    pairs
}

/// The three files of a pair.
pub fn make(random: &mut Random, pair: Pair) -> Made {
    let ground = Ground::new(random);
    if pair.together {
        made_together(random, &ground, pair)
    } else {
        made_apart(random, &ground, pair)
    }
}

/// On one line "the lowest of 3 to 7", of one clause the "lowest of 8 to 10",
/// of one iso the "lowest of 11 to 14", the clauses before the iso.
fn made_together(random: &mut Random, ground: &Ground, pair: Pair) -> Made {
    let parts = fault::together(random, pair.first, pair.second);
    let [both, one, two] = parts.map(|part| ground.file(&[part]));
    Made {
        answers: [
            (pair.first, both.1[0]),
            (pair.first, one.1[0]),
            (pair.second, two.1[0]),
        ],
        files: [both.0, one.0, two.0],
    }
}

/// "Then all lines from the first, on each the lowest of 3 to 7. Only then the
/// isos in order"; 21 "after 7 for the whole file and before 8".
fn made_apart(random: &mut Random, ground: &Ground, pair: Pair) -> Made {
    let parts = fault::apart(random, pair.first, pair.second);
    let both = ground.file(&parts);
    let one = ground.file(&parts[..1]);
    let two = ground.file(&parts[1..]);
    let rank = |number| match number {
        3..=7 => 0,
        21 => 1,
        _ => 2,
    };
    let answer = if rank(pair.second) < rank(pair.first) {
        (pair.second, both.1[1])
    } else {
        (pair.first, both.1[0])
    };
    Made {
        answers: [answer, (pair.first, one.1[0]), (pair.second, two.1[0])],
        files: [both.0, one.0, two.0],
    }
}
