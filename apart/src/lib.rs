//! Check, turn and run of rule files, after document 01 ("The rule file and
//! its exact rules").

pub mod areas;
pub mod before;
pub mod bounds;
pub mod clause;
pub mod columns;
pub mod cover;
pub mod desk;
pub mod generate;
pub mod idle;
pub mod lines;
pub mod numbering;
pub mod overlap;
pub mod pair_lists;
pub mod recursion;
pub mod reduce;
pub mod sheet;
pub mod tree;
pub mod units;
pub mod witness;

use crate::lines::{Clause, Iso, Row, LISTS};
use crate::reduce::{apply, turned, Counter};
use crate::tree::{Pattern, Type, Value};
use std::rc::Rc;

/// A refusal by its number, with the line it names; "Where no line is named
/// for a refusal, it is 0."
#[derive(Debug, PartialEq, Eq, Clone, Copy)]
pub struct Refusal {
    pub number: u8,
    pub line: usize,
}

/// An accepted file: its lines, its T lines, P lines and isos as trees, the
/// variables of each clause named by their bindings, and the isos of the turned
/// file.
pub struct Rules {
    pub rows: Vec<Row>,
    pub types: Vec<Rc<Type>>,
    pub patterns: Vec<Rc<Pattern>>,
    pub isos: Vec<Iso>,
    pub turned: Vec<Iso>,
}

/// "**Check** gives a number and a line, `0,0` when accepted."
///
/// "Order: 1, then 2. Then all lines from the first, on each the lowest of 3
/// to 7. Only then the isos in order: each clause in order, lowest of 8 to 10,
/// then the iso, lowest of 11 to 14."
pub fn check(file: &[u8]) -> Result<Rules, Refusal> {
    check_with(file, LISTS)
}

/// Check, with the lines of request 14 or without them.
pub fn check_with(file: &[u8], lists: bool) -> Result<Rules, Refusal> {
    check_by(file, lists, clause::checked)
}

/// What is asked of a clause, given its iso and those up to it: the clause with
/// names for its variables, or the number of its refusal.
type ClauseRule = fn(&Clause, &Iso, &[Iso]) -> Result<Clause, u8>;

/// Check with a rule for clauses.
fn check_by(file: &[u8], lists: bool, rule: ClauseRule) -> Result<Rules, Refusal> {
    let mut reader = lines::read_with(file, lists)?;
    // Request 11: "21 'idle line', after 7 for the whole file and before 8".
    if let Some(line) = idle::first(&reader.rows) {
        return Err(Refusal { number: 21, line });
    }
    for place in 0..reader.isos.len() {
        let isos = &reader.isos[..=place];
        let mut clauses = Vec::new();
        for clause in &isos[place].clauses {
            let line = clause.line;
            let named = rule(clause, &isos[place], isos);
            clauses.push(named.map_err(|number| Refusal { number, line })?);
        }
        reader.isos[place].clauses = clauses;
        let iso = &reader.isos[place];
        // Request 14: 23, "tested when all clauses of the iso have passed 8 to 10
        // and before 11".
        if let Some(line) = recursion::fault(iso, place) {
            return Err(Refusal { number: 23, line });
        }
        if let Some(number) = cover::fault(iso) {
            let line = iso.line;
            return Err(Refusal { number, line });
        }
    }
    let turned = reader.isos.iter().map(turned).collect();
    Ok(Rules {
        rows: reader.rows,
        types: reader.types,
        patterns: reader.patterns,
        isos: reader.isos,
        turned,
    })
}

/// "**Turn** also writes the turned file and gives its length".
pub fn turn(file: &[u8]) -> Result<Vec<u8>, Refusal> {
    check(file).map(|rules| turn_rules(&rules))
}

/// The turned file of an accepted file.
pub fn turn_rules(rules: &Rules) -> Vec<u8> {
    let mut written = Vec::new();
    let mut lets: Vec<&Row> = Vec::new();
    for row in &rules.rows {
        if row.letter == b'L' {
            lets.push(row);
            continue;
        }
        write_lets(&mut lets, &mut written);
        let [a, b, c] = row.fields;
        match row.letter {
            // "I lines with their types exchanged, C lines with their sides
            // exchanged"
            b'I' | b'C' => write_line(row.letter, &[b, a], &mut written),
            // "T and P lines as they were"
            _ => write_line(row.letter, &[a, b, c], &mut written),
        }
    }
    write_lets(&mut lets, &mut written);
    written
}

/// "the L lines of each clause last to first with p and q exchanged".
fn write_lets(lets: &mut Vec<&Row>, written: &mut Vec<u8>) {
    while let Some(row) = lets.pop() {
        let [p, i, q] = row.fields;
        write_line(b'L', &[q, i, p], written);
    }
}

fn write_line(letter: u8, fields: &[u16], written: &mut Vec<u8>) {
    written.push(letter);
    for field in fields {
        written.extend_from_slice(format!(",{field}").as_bytes());
    }
    written.push(b'\n');
}

/// "**Run** takes an iso number, a direction (0 forward, 1 back), a budget of
/// 0 to 4,294,967,295 and a value": the count and the letters of the result.
pub fn run(
    file: &[u8],
    iso: u16,
    back: bool,
    budget: u32,
    value: &[u8],
) -> Result<(u64, Vec<u8>), Refusal> {
    run_rules(&check(file)?, iso, back, budget, value)
}

/// Run of an accepted file. "For a run, 15, 16, 17 follow." Request 14: 24,
/// "after 16".
pub fn run_rules(
    rules: &Rules,
    iso: u16,
    back: bool,
    budget: u32,
    value: &[u8],
) -> Result<(u64, Vec<u8>), Refusal> {
    let refused = |number| Refusal { number, line: 0 };
    // "A run back is a run forward of the turned file."
    let isos = if back { &rules.turned } else { &rules.isos };
    let place = usize::from(iso);
    // 15: "iso number not in the file".
    let start = &isos.get(place).ok_or(refused(15))?.from;
    // 16: "not exactly one closed value of the starting type".
    let value = Value::read(value, start).ok_or(refused(16))?;
    let mut counter = Counter {
        made: 0,
        budget: u64::from(budget),
        open: 0,
    };
    // 17: "the full count would pass the budget"; or 24.
    let given = apply(isos, place, &Rc::new(value), &mut counter).map_err(refused)?;
    Ok((counter.made, given.letters()))
}
