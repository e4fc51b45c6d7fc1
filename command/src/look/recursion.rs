//! Refusal 23: which part of the rule for an iso that calls itself is broken, as it is written.

use super::clauses::{clause, pattern, ty};
use crate::rules::{Clause, Iso, Row, Rules};
use crate::show::tree;
use rulefile::Refused;

/// What is said of the other direction: the library refuses only what meets the rule in neither.
const TURNED: &str = "turned, the iso does not meet the rule either";

/// What breaks the rule at a line that the library refuses with 23.
pub fn fault(rules: &Rules, refused: Refused) -> Option<String> {
    let at_iso = rules.isos.iter().position(|iso| iso.line == refused.line);
    let said = match at_iso {
        Some(place) => Some(not_a_list(rules, place)),
        None => at_clause(rules, refused.line),
    };
    said.map(|said| format!("{said}; {TURNED}"))
}

/// The lines of the let steps of a clause that name an iso.
fn calls(clause: &Clause, iso: usize) -> Vec<usize> {
    let lines = clause.line + 1..;
    let calls = clause.lets.iter().zip(lines);
    let calls = calls.filter(|(step, _)| step.iso == iso);
    calls.map(|(_, line)| line).collect()
}

/// An iso that calls itself and leads from no list.
fn not_a_list(rules: &Rules, place: usize) -> String {
    let Iso { clauses, from, .. } = &rules.isos[place];
    let first = clauses
        .iter()
        .find_map(|clause| calls(clause, place).first().copied());
    let first = first.map_or(String::new(), |line| format!(" at line {line}"));
    let from = ty(rules, *from);
    format!(
        "iso {place} calls itself{first}, and its from-type, {from}, is neither a list nor a product whose first \
         part is one"
    )
}

/// A clause that breaks the rule.
fn at_clause(rules: &Rules, line: usize) -> Option<String> {
    let (iso, clause) = clause(rules, line)?;
    let place = rules.isos.iter().position(|one| one.line == iso.line)?;
    let product = rules.types.get(iso.from).is_some_and(|row| row.kind == 2);
    let left = rules.patterns[clause.left];
    let (at, where_) = match (product, left.kind) {
        (true, 4) => (left.a, "the first part of the left pattern"),
        _ => (clause.left, "the left pattern"),
    };
    let shown = format!("{where_}, {}", pattern(rules, at));
    let Row { kind, b, .. } = rules.patterns[at];
    match kind {
        5 => {
            let line = *calls(clause, place).first()?;
            Some(format!("{shown}, is the empty list, and line {line} calls iso {place} itself: there is nothing left to call it on"))
        }
        6 => at_element(rules, clause, place, &shown, b),
        _ => Some(format!(
            "iso {place} calls itself, so that each of its left patterns has to show an empty list or an element; \
             {shown}, shows neither"
        )),
    }
}

/// A clause for an element, with this pattern for the list behind it.
fn at_element(
    rules: &Rules,
    clause: &Clause,
    iso: usize,
    shown: &str,
    behind: usize,
) -> Option<String> {
    let calls = calls(clause, iso);
    let (first, second) = (*calls.first()?, calls.get(1));
    let Row { kind, a: tail, .. } = rules.patterns[behind];
    if kind != 1 {
        let behind = pattern(rules, behind);
        return Some(format!(
            "line {first} calls iso {iso} itself, and {shown}, has {behind} behind its element, which is no variable"
        ));
    }
    let name = format!("variable {}", tree::variable(tail, 0));
    let steps = clause.lets.iter().zip(clause.line + 1..);
    for (step, line) in steps {
        let uses = rules.variables(step.q).contains(&tail);
        if line == first && !on(rules, step.q, tail) {
            let q = pattern(rules, step.q);
            return Some(format!(
                "line {line} calls iso {iso} itself on {q}, and not on {name}, the rest of the list behind the \
                 element, alone or as the first part of a pair"
            ));
        }
        if line == first {
            break;
        }
        if uses {
            return Some(format!(
                "line {line} uses {name}, the rest of the list behind the element, before line {first} calls iso \
                 {iso} itself on it"
            ));
        }
    }
    let second = second?;
    Some(format!(
        "lines {first} and {second} both call iso {iso} itself; a clause may do so once"
    ))
}

/// Whether a let step is applied to a variable, alone or as the first part of a pair.
fn on(rules: &Rules, q: usize, variable: usize) -> bool {
    let is = |row: Row| row.kind == 1 && row.a == variable;
    let row = rules.patterns[q];
    is(row) || row.kind == 4 && is(rules.patterns[row.a])
}
