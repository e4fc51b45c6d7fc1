//! Request 14: isos that call themselves, refusal 23.
//!
//! A clause that has passed 8 to 10 has a name for each binding. So a variable
//! is "as the left pattern bound it" where it has the name that stands in the
//! left pattern, whatever the let steps before have used or bound.

use crate::lines::{Clause, Iso};
use crate::reduce::turned;
use crate::tree::{Pattern, Type};

/// 23 of the iso with the number: the line, or `None` where it stands. "at the I
/// line where the from-type is neither, otherwise at the first C line that breaks
/// the rule as written".
pub fn fault(iso: &Iso, own: usize) -> Option<usize> {
    if !calls_itself(iso, own) || meets(iso, own) || meets(&turned(iso), own) {
        return None;
    }
    if !zoned(&iso.from) {
        return Some(iso.line);
    }
    let mut clauses = iso.clauses.iter();
    let broken = clauses.find(|clause| !clause_meets(clause, own));
    broken.map(|clause| clause.line)
}

/// "An L line may name its own iso".
pub fn calls_itself(iso: &Iso, own: usize) -> bool {
    iso.clauses.iter().any(|clause| calls(clause, own) > 0)
}

fn calls(clause: &Clause, own: usize) -> usize {
    clause.lets.iter().filter(|step| step.iso == own).count()
}

/// The rule of an iso that calls itself, as it is written.
pub fn meets(iso: &Iso, own: usize) -> bool {
    zoned(&iso.from) && iso.clauses.iter().all(|clause| clause_meets(clause, own))
}

/// "its from-type is a list, or a product whose first part is one".
pub fn zoned(ty: &Type) -> bool {
    match ty {
        Type::List(_) => true,
        Type::Product(first, _) => matches!(**first, Type::List(_)),
        _ => false,
    }
}

/// "each left pattern shows empty or an element there; a clause with empty makes
/// no such call; another makes at most one, on that element's whole tail, a
/// variable".
fn clause_meets(clause: &Clause, own: usize) -> bool {
    match shown(&clause.left) {
        Pattern::Empty => calls(clause, own) == 0,
        Pattern::Element(_, tail) => calls(clause, own) <= 1 && on_tail(clause, tail, own),
        _ => false,
    }
}

/// The left pattern itself, or the first part of a pair.
fn shown(left: &Pattern) -> &Pattern {
    match left {
        Pattern::Pair(first, _) => first,
        other => other,
    }
}

/// Whether each call is on the tail, "alone or as the first part of a pair".
fn on_tail(clause: &Clause, tail: &Pattern, own: usize) -> bool {
    let is_tail = |part: &Pattern| matches!(part, Pattern::Variable(_)) && part == tail;
    let mut own_calls = clause.lets.iter().filter(|step| step.iso == own);
    own_calls.all(|step| match &*step.q {
        Pattern::Pair(first, _) => is_tail(first),
        alone => is_tail(alone),
    })
}

/// The isos that an iso reaches by let steps, itself among them.
pub fn reached(isos: &[Iso], iso: usize) -> Vec<usize> {
    let mut reached = vec![iso];
    let mut place = 0;
    while let Some(caller) = reached.get(place) {
        let clauses = isos[*caller].clauses.iter();
        let named: Vec<usize> = clauses
            .flat_map(|clause| clause.lets.iter().map(|step| step.iso))
            .collect();
        for called in named {
            if !reached.contains(&called) {
                reached.push(called);
            }
        }
        place += 1;
    }
    reached
}

/// "Where an iso and all it reaches meet the rule in one direction (those that
/// never call themselves meet it in both), the reduction that way ends": of the
/// isos in this direction.
pub fn ends(isos: &[Iso], iso: usize) -> bool {
    let stands = |own: &usize| !calls_itself(&isos[*own], *own) || meets(&isos[*own], *own);
    reached(isos, iso).iter().all(stands)
}

/// "where ... a type of the iso or of one it calls, holds a list": of all that it
/// reaches.
pub fn has_lists(isos: &[Iso], iso: usize) -> bool {
    let holds = |place: &usize| isos[*place].from.holds_list() || isos[*place].to.holds_list();
    reached(isos, iso).iter().any(holds)
}
