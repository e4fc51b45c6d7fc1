//! Variable numbers bound again: how often they are met, how often rule 8 is
//! broken and in which way, and the rule held to the one before request 03.

use crate::grid::Grid;
use crate::service::Ask;
use crate::tally::Tally;
use crate::trip::Trip;
use apart::areas::Known;
use apart::generate::life::{agains, slips, used_with_some_type, Again, Slip, AGAINS, SLIPS};
use apart::lines::{read, Clause, Iso};
use apart::reduce::matching_clause;
use apart::tree::Value;
use apart::{run_rules, Refusal, Rules};
use std::rc::Rc;

/// Columns of the table of variables. `RUN` counts the runs, there and back,
/// that begin with the clause.
pub const RULES: usize = 0;
pub const LIBRARY: usize = 1;
pub const TURNED: usize = 2;
pub const RUN: usize = 3;

/// Rows of the table behind those of `AGAINS` and `SLIPS`: 10 for a use with the
/// type of another binding of its number, and what the check before request 03
/// has given, against what is given now.
pub const OTHER_BINDING: usize = AGAINS.len() + SLIPS.len();
pub const ACCEPTED_BEFORE: usize = OTHER_BINDING + 1;
pub const REFUSED_ALIKE: usize = ACCEPTED_BEFORE + 1;
pub const ACCEPTED_NOW: usize = ACCEPTED_BEFORE + 2;
pub const REFUSED_OTHERWISE: usize = ACCEPTED_BEFORE + 3;

/// A refused file is not turned and not run; the rule before is tried once for
/// each file.
fn needed(row: usize, column: usize) -> bool {
    match column {
        RULES => true,
        LIBRARY => row < ACCEPTED_BEFORE,
        _ => row < AGAINS.len(),
    }
}

pub fn grid() -> Grid {
    let agains = AGAINS.iter().map(|again| format!("again {again:?}"));
    let slips = SLIPS.iter().map(|slip| format!("8 for {slip:?}"));
    let others = [
        "10 for another binding's type",
        "accepted before and now",
        "refused before and now alike",
        "8 before, now accepted",
        "8 before, now refused otherwise",
    ];
    let others = others.map(str::to_string);
    let rows = agains.chain(slips).chain(others).collect();
    let columns = &["rules", "library", "turned", "run"];
    Grid::new("variables", rows, columns, needed)
}

/// Counts the ways in which numbers are bound again in an accepted file, the
/// one way in which rule 8 is broken where it is refused for it, or a use with
/// the type of another binding.
pub fn count(tally: &mut Tally, known: &Known, column: usize) {
    for row in rows(known) {
        tally.variables.hit(row, column);
    }
}

fn rows(known: &Known) -> Vec<usize> {
    match &known.checked {
        Ok(_) => rows_of(known.file, |_| true),
        Err(Refusal { number: 8, line }) => rows_of(known.file, |clause| clause.line == *line),
        Err(Refusal { number: 10, line }) if other_binding(known.file, *line) => {
            vec![OTHER_BINDING]
        }
        Err(_) => Vec::new(),
    }
}

/// Whether each variable of the clause on a line is used with the type of some
/// binding of its number.
fn other_binding(file: &[u8], line: usize) -> bool {
    let isos = read(file).map(|reader| reader.isos).unwrap_or_default();
    let known = |iso: &Iso| {
        let mut clauses = iso.clauses.iter();
        clauses.any(|clause| clause.line == line && used_with_some_type(clause, iso, &isos))
    };
    isos.iter().any(known)
}

/// The rows of the clauses chosen, as they are written.
fn rows_of(file: &[u8], chosen: impl Fn(&Clause) -> bool) -> Vec<usize> {
    let isos = read(file).map(|reader| reader.isos).unwrap_or_default();
    let mut rows = Vec::new();
    for iso in &isos {
        for clause in iso.clauses.iter().filter(|clause| chosen(clause)) {
            match slips(clause)[..] {
                [] => rows.extend(agains(clause, iso, &isos).into_iter().map(of_again)),
                [slip] => rows.push(of_slip(slip)),
                _ => {}
            }
        }
    }
    rows.sort();
    rows.dedup();
    rows
}

fn of_again(again: Again) -> usize {
    let place = AGAINS.iter().position(|other| *other == again);
    place.expect("all are listed")
}

fn of_slip(slip: Slip) -> usize {
    let place = SLIPS.iter().position(|other| *other == slip);
    AGAINS.len() + place.expect("all are listed")
}

/// Counts a trip by the clause of its first application.
pub fn count_trip(tally: &mut Tally, known: &Known, trip: &Trip) {
    let Ok(rules) = &known.checked else { return };
    let iso = &rules.isos[usize::from(trip.iso)];
    if let Some(value) = Value::read(&trip.value, &iso.from) {
        let (clause, _) = matching_clause(iso, &Rc::new(value));
        for row in rows_of(known.file, |other| other.line == clause.line) {
            tally.variables.hit(row, RUN);
        }
    }
}

/// What the check before request 03 gives, held to what is given now: the row
/// of the table, or how the two are at odds.
pub fn law(before: &Result<Rules, Refusal>, known: &Known, asks: &[Ask]) -> Result<usize, String> {
    match (before, &known.checked) {
        (Ok(before), Ok(now)) => match asks.iter().find(|ask| differs(before, now, ask)) {
            Some(ask) => Err(format!("{ask:?} is answered otherwise than before")),
            None => Ok(ACCEPTED_BEFORE),
        },
        (Err(one), Err(two)) if one == two => Ok(REFUSED_ALIKE),
        (Err(Refusal { number: 8, line }), now) if keeps_8(known.file, *line) => {
            let row = [ACCEPTED_NOW, REFUSED_OTHERWISE];
            Ok(row[usize::from(now.is_err())])
        }
        (before, now) => Err(format!(
            "before {:?}, now {:?}",
            before.as_ref().err(),
            now.as_ref().err()
        )),
    }
}

/// Whether rule 8 holds in the clause on a line.
fn keeps_8(file: &[u8], line: usize) -> bool {
    let isos = read(file).map(|reader| reader.isos).unwrap_or_default();
    let mut clauses = isos.iter().flat_map(|iso| &iso.clauses);
    clauses.any(|clause| clause.line == line && slips(clause).is_empty())
}

fn differs(before: &Rules, now: &Rules, ask: &Ask) -> bool {
    let Ask {
        iso,
        back,
        budget,
        letters,
    } = *ask;
    let Ok(iso) = u16::try_from(iso) else {
        return false;
    };
    let ran = |rules| run_rules(rules, iso, back, budget, letters);
    ran(before) != ran(now)
}
