//! What a clause must satisfy: refusals 8, 9 and 10.
//!
//! Since request 03 a number may be bound again once it has been used, and
//! "Each binding has its own type". So each binding first gets a name of its
//! own; on the clause with these names all goes by names.

use crate::lines::{Clause, Iso, Let};
use crate::tree::{Pattern, Type};
use std::collections::BTreeMap;
use std::rc::Rc;

/// "each clause in order, lowest of 8 to 10": the clause with a name of its own
/// for each binding, or the number of its refusal. The isos are those that an L
/// line of it may name.
pub fn checked(clause: &Clause, iso: &Iso, isos: &[Iso]) -> Result<Clause, u8> {
    let named = named(clause).ok_or(8)?;
    shapes_and_types(&named, iso, isos)?;
    Ok(named)
}

/// 9 and 10 of a clause whose variables hold.
pub(crate) fn shapes_and_types(clause: &Clause, iso: &Iso, isos: &[Iso]) -> Result<(), u8> {
    if !let_shape_holds(clause) {
        Err(9)
    } else if !types_hold(clause, iso, isos) {
        Err(10)
    } else {
        Ok(())
    }
}

/// 8: "the left pattern binds its variables; each L in order uses those of q,
/// then binds those of p; the right pattern uses the rest."
fn named(clause: &Clause) -> Option<Clause> {
    let mut names = Names::default();
    let left = names.bind(&clause.left)?;
    let mut lets = Vec::new();
    for step in &clause.lets {
        let q = names.take(&step.q)?;
        let p = names.bind(&step.p)?;
        let iso = step.iso;
        lets.push(Let { p, iso, q });
    }
    let right = names.take(&clause.right)?;
    // "bound and still unused": no number is so at the end.
    names.live.is_empty().then_some(Clause {
        line: clause.line,
        left,
        right,
        lets,
    })
}

/// The numbers that are live, each with the name of its binding, and how many
/// names have been given out.
#[derive(Default)]
struct Names {
    live: BTreeMap<u16, u16>,
    given: u16,
}

impl Names {
    /// "A number must now not be live (bound and still unused) when it is
    /// bound": a new name for each variable of the pattern.
    fn bind(&mut self, pattern: &Pattern) -> Option<Rc<Pattern>> {
        pattern.renamed(&mut |number| {
            let name = self.given;
            self.given += 1;
            let before = self.live.insert(number, name);
            before.is_none().then_some(name)
        })
    }

    /// The pattern uses its variables: each must be live, and is no more.
    fn take(&mut self, pattern: &Pattern) -> Option<Rc<Pattern>> {
        pattern.renamed(&mut |number| self.live.remove(&number))
    }
}

/// 9: "Let patterns p and q hold only unit, variables and pairs." Request 14:
/// "either in a let pattern is 9".
fn let_shape_holds(clause: &Clause) -> bool {
    clause
        .lets
        .iter()
        .all(|step| step.p.sides() == 0 && step.q.sides() == 0)
}

/// 10: "some assignment of types to the clause's variables makes the left
/// pattern fit the from-type, the right pattern the to-type, and each q and p
/// the from- and to-type of its iso."
///
/// Each pattern meets a known type, so each place of a variable demands one
/// type; an assignment exists when all the demands on one variable are equal.
fn types_hold(clause: &Clause, iso: &Iso, isos: &[Iso]) -> bool {
    let mut demands = Demands::new();
    let mut fit = demand(&clause.left, &iso.from, &mut demands);
    for step in &clause.lets {
        fit = fit && demand(&step.q, &isos[step.iso].from, &mut demands);
        fit = fit && demand(&step.p, &isos[step.iso].to, &mut demands);
    }
    fit = fit && demand(&clause.right, &iso.to, &mut demands);
    fit && demands
        .values()
        .all(|types| types.windows(2).all(|two| two[0] == two[1]))
}

/// The types that each variable must have.
type Demands<'a> = BTreeMap<u16, Vec<&'a Type>>;

/// Collects the type that each variable of the pattern must have; false when
/// the pattern fits the type under no assignment.
fn demand<'a>(pattern: &Pattern, ty: &'a Type, demands: &mut Demands<'a>) -> bool {
    match (pattern, ty) {
        (Pattern::Variable(name), _) => {
            demands.entry(*name).or_default().push(ty);
            true
        }
        (Pattern::Unit, Type::Unit) => true,
        (Pattern::Left(inner), Type::Sum(a, _)) => demand(inner, a, demands),
        (Pattern::Right(inner), Type::Sum(_, b)) => demand(inner, b, demands),
        (Pattern::Pair(one, two), Type::Product(a, b)) => {
            demand(one, a, demands) && demand(two, b, demands)
        }
        (Pattern::Empty, Type::List(_)) => true,
        // An element, and behind it a list of the same type.
        (Pattern::Element(one, two), Type::List(a)) => {
            demand(one, a, demands) && demand(two, ty, demands)
        }
        _ => false,
    }
}
