//! The check as it stood before request 03, to hold the new rule to it: what
//! it accepted is accepted with the same answers, and what it refused with
//! another number than 8 is refused alike.

use crate::clause::shapes_and_types;
use crate::lines::{Clause, Iso, LISTS};
use crate::tree::Pattern;
use crate::{check_by, Refusal, Rules};

/// Check with the old reading of 8 and 10.
pub fn check(file: &[u8]) -> Result<Rules, Refusal> {
    check_by(file, LISTS, checked)
}

/// The clause as it is written: a number is a name where it is bound once.
fn checked(clause: &Clause, iso: &Iso, isos: &[Iso]) -> Result<Clause, u8> {
    if !variables_hold(clause) {
        return Err(8);
    }
    shapes_and_types(clause, iso, isos)?;
    Ok(clause.clone())
}

/// Where a variable number stands while a clause is gone through.
#[derive(Clone, Copy, PartialEq)]
enum Stand {
    Unseen,
    Bound,
    Used,
}

/// 8 in document 01: "Within one clause each number is bound once and, after
/// that, used once."
fn variables_hold(clause: &Clause) -> bool {
    let mut stands = [Stand::Unseen; 32];
    let mut hold = step(&mut stands, &clause.left, Stand::Unseen, Stand::Bound);
    for step_of in &clause.lets {
        hold = hold && step(&mut stands, &step_of.q, Stand::Bound, Stand::Used);
        hold = hold && step(&mut stands, &step_of.p, Stand::Unseen, Stand::Bound);
    }
    hold = hold && step(&mut stands, &clause.right, Stand::Bound, Stand::Used);
    hold && !stands.contains(&Stand::Bound)
}

/// Moves every variable of the pattern from one stand to the next; false when
/// one of them is not where it has to be.
fn step(stands: &mut [Stand; 32], pattern: &Pattern, before: Stand, after: Stand) -> bool {
    pattern.variables().into_iter().all(|number| {
        let stand = &mut stands[usize::from(number)];
        let right = *stand == before;
        *stand = after;
        right
    })
}
