//! Which ceilings a file stands at.

use crate::case::Case;
use crate::tally::{Tally, BYTES};
use apart::areas::Known;
use apart::generate::ceiling::{Ceiling, CEILINGS};
use apart::lines::{self, Row};
use apart::Rules;

/// Counts the ceilings that a file stands at or is made to pass by one.
pub fn count(tally: &mut Tally, case: Case, known: &Known) {
    if let Case::Ceiling(row, true) = case {
        tally.ceilings.hit(row, 1);
    }
    if let Some(over @ 0..=1) = known.file.len().checked_sub(lines::BYTES) {
        tally.ceilings.hit(BYTES, over);
    }
    if let Ok(rules) = &known.checked {
        for (row, ceiling) in CEILINGS.iter().enumerate() {
            if is_at(*ceiling, rules) {
                tally.ceilings.hit(row, 0);
            }
        }
    }
}

fn is_at(ceiling: Ceiling, rules: &Rules) -> bool {
    let count = |letter| rules.rows.iter().filter(|row| row.letter == letter).count();
    let mut isos = rules.isos.iter();
    let mut clauses = rules.isos.iter().flat_map(|iso| &iso.clauses);
    match ceiling {
        Ceiling::Lines => rules.rows.len() == lines::LINES,
        Ceiling::Types => count(b'T') == lines::TYPES,
        Ceiling::Patterns => count(b'P') == lines::PATTERNS,
        Ceiling::Isos => count(b'I') == lines::ISOS,
        Ceiling::Clauses => isos.any(|iso| iso.clauses.len() == lines::CLAUSES),
        Ceiling::Lets => clauses.any(|clause| clause.lets.len() == lines::LETS),
        Ceiling::TypeNodes => sizes(rules, b'T', |_| 1).contains(&lines::NODES),
        Ceiling::PatternNodes => sizes(rules, b'P', |_| 1).contains(&lines::NODES),
        Ceiling::Sides => sizes(rules, b'P', side).contains(&lines::SIDES),
    }
}

/// 1 for a left or right line, and for one of a list.
fn side(row: &Row) -> usize {
    usize::from(matches!(row.fields[0], 2 | 3 | 5 | 6))
}

/// For each T or P line the sum of a weight over its unfolded tree.
fn sizes(rules: &Rules, letter: u8, weight: fn(&Row) -> usize) -> Vec<usize> {
    let mut sizes: Vec<usize> = Vec::new();
    for row in rules.rows.iter().filter(|row| row.letter == letter) {
        let [kind, a, b] = row.fields.map(usize::from);
        let below = match (letter, kind) {
            (b'T', 1 | 2) | (b'P', 4 | 6) => sizes[a] + sizes[b],
            (b'T', 3) | (b'P', 2 | 3) => sizes[a],
            _ => 0,
        };
        sizes.push(weight(row) + below);
    }
    sizes
}
