//! The reduction, by substitution on trees.

use crate::areas::RESULT;
use crate::lines::{Clause, Iso, Let};
use crate::tree::{Pattern, Value};
use std::collections::BTreeMap;
use std::rc::Rc;

/// The values of a clause's variables so far. A clause that has passed the
/// check has a name for each binding, so that no value is put over another.
type Values = BTreeMap<u16, Rc<Value>>;

/// Request 14: "calls nested deeper than 40 (the outermost is 1)".
pub const DEPTH: usize = 40;

/// The applications made so far and how many may be made, and how many are open.
pub struct Counter {
    pub made: u64,
    pub budget: u64,
    pub open: usize,
}

/// An application, or 17 or 24, "whichever of it and 17 the reduction meets first
/// (an application is counted against the budget, then its argument and depth
/// are measured, its result when it is there)".
///
/// "An application is made as soon as an iso gets its value, the first one and
/// each of an L line, and adds 1 to the count." 17 as soon as the count has
/// passed the budget: then the full count passes it too.
pub fn apply(
    isos: &[Iso],
    iso: usize,
    value: &Rc<Value>,
    counter: &mut Counter,
) -> Result<Rc<Value>, u8> {
    counter.made += 1;
    if counter.made > counter.budget {
        return Err(17);
    }
    counter.open += 1;
    if counter.open > DEPTH {
        return Err(24);
    }
    measured(value)?;
    let given = applied(isos, iso, value, counter)?;
    measured(&given)?;
    counter.open -= 1;
    Ok(given)
}

/// 24: "An argument or result of over 127 letters".
fn measured(value: &Value) -> Result<(), u8> {
    if value.length() > RESULT {
        return Err(24);
    }
    Ok(())
}

/// What an iso gives of a value, however long.
fn applied(
    isos: &[Iso],
    iso: usize,
    value: &Rc<Value>,
    counter: &mut Counter,
) -> Result<Rc<Value>, u8> {
    let (clause, mut values) = matching_clause(&isos[iso], value);
    // "For each L line in order, put the values into q, apply iso i to that,
    // and match what comes out with p, whose variables now have values."
    for step in &clause.lets {
        let argument = substitute(&step.q, &values);
        let given = apply(isos, step.iso, &argument, counter)?;
        assert!(matches(&step.p, &given, &mut values), "p fits");
    }
    // "What the iso gives is the right pattern with the values put in."
    Ok(substitute(&clause.right, &values))
}

/// "Take the clause that matches; its left variables now have values." "Where
/// no clause matches, or several do, ... nothing is given": in an accepted file
/// exactly one does.
pub fn matching_clause<'a>(iso: &'a Iso, value: &Rc<Value>) -> (&'a Clause, Values) {
    let mut found = None;
    for clause in &iso.clauses {
        let mut values = Values::default();
        if matches(&clause.left, value, &mut values) {
            assert!(found.is_none(), "no other clause matches");
            found = Some((clause, values));
        }
    }
    found.expect("some clause matches")
}

/// "A clause matches a closed value when some choice of closed values for the
/// variables of its left pattern turns that pattern into the value."
fn matches(pattern: &Pattern, value: &Rc<Value>, values: &mut Values) -> bool {
    match (pattern, &**value) {
        (Pattern::Variable(name), _) => {
            let before = values.insert(*name, Rc::clone(value));
            assert!(before.is_none(), "one value for each binding");
            true
        }
        (Pattern::Unit, Value::Unit) => true,
        (Pattern::Left(a), Value::Left(b)) | (Pattern::Right(a), Value::Right(b)) => {
            matches(a, b, values)
        }
        (Pattern::Pair(a, b), Value::Pair(c, d)) => matches(a, c, values) && matches(b, d, values),
        (Pattern::Empty, Value::List(elements)) => elements.is_empty(),
        (Pattern::Element(a, b), Value::List(elements)) => match &elements[..] {
            [] => false,
            [first, rest @ ..] => {
                let rest = Rc::new(Value::List(rest.to_vec()));
                matches(a, first, values) && matches(b, &rest, values)
            }
        },
        _ => false,
    }
}

/// The pattern with the values put in.
fn substitute(pattern: &Pattern, values: &Values) -> Rc<Value> {
    match pattern {
        Pattern::Unit => Rc::new(Value::Unit),
        Pattern::Variable(name) => {
            let value = values.get(name);
            Rc::clone(value.expect("the variable has a value"))
        }
        Pattern::Left(a) => Rc::new(Value::Left(substitute(a, values))),
        Pattern::Right(a) => Rc::new(Value::Right(substitute(a, values))),
        Pattern::Pair(a, b) => Rc::new(Value::Pair(substitute(a, values), substitute(b, values))),
        Pattern::Empty => Rc::new(Value::List(Vec::new())),
        Pattern::Element(a, b) => {
            let first = substitute(a, values);
            let Value::List(rest) = &*substitute(b, values) else {
                unreachable!("a list behind an element")
            };
            Rc::new(Value::List([&[first], &rest[..]].concat()))
        }
    }
}

/// "I lines with their types exchanged, C lines with their sides exchanged,
/// the L lines of each clause last to first with p and q exchanged", on trees.
pub fn turned(iso: &Iso) -> Iso {
    let turn_let = |step: &Let| Let {
        p: Rc::clone(&step.q),
        iso: step.iso,
        q: Rc::clone(&step.p),
    };
    let turn_clause = |clause: &Clause| Clause {
        line: clause.line,
        left: Rc::clone(&clause.right),
        right: Rc::clone(&clause.left),
        lets: clause.lets.iter().rev().map(turn_let).collect(),
    };
    Iso {
        line: iso.line,
        from: Rc::clone(&iso.to),
        to: Rc::clone(&iso.from),
        clauses: iso.clauses.iter().map(turn_clause).collect(),
    }
}
