//! The lines of a rule file as they are shown. They are read only where the library has found every line to be in
//! order; what the file is worth is the library's to say.

use crate::names::Names;

/// The most nodes of a tree that is unfolded; the library refuses a file with a larger one.
const MOST_NODES: usize = 127;

/// The kind of a line that is not as the format has it, in a file that the library refuses.
const UNKNOWN: usize = usize::MAX;

/// The number of settings of a type that holds a list: they are without end. No other type of so few nodes has as many.
pub const ENDLESS: u128 = u128::MAX;

/// A T or P line.
#[derive(Clone, Copy)]
pub struct Row {
    /// The line's kind.
    pub kind: usize,
    /// The first line that it names, or the number of a variable.
    pub a: usize,
    /// The second line that it names.
    pub b: usize,
    /// The nodes of the tree that it unfolds to.
    pub nodes: usize,
}

/// A let step: p = iso i applied to q.
#[derive(Clone, Copy)]
pub struct Let {
    pub p: usize,
    pub iso: usize,
    pub q: usize,
}

/// A clause and its let steps.
pub struct Clause {
    /// The line in the file, counted from 1.
    pub line: usize,
    /// The types of its iso.
    pub from: usize,
    pub to: usize,
    pub left: usize,
    pub right: usize,
    pub lets: Vec<Let>,
}

/// An iso and its clauses.
pub struct Iso {
    /// The line in the file, counted from 1.
    pub line: usize,
    pub from: usize,
    pub to: usize,
    pub clauses: Vec<Clause>,
}

/// The lines of a file.
#[derive(Default)]
pub struct Rules {
    pub types: Vec<Row>,
    pub patterns: Vec<Row>,
    pub isos: Vec<Iso>,
    /// How many settings each type has; `ENDLESS` where it holds a list.
    pub settings: Vec<u128>,
    /// Of each type that is a right-nested sum of units how many those are, of any other 0.
    pub choices: Vec<usize>,
    /// Whether types and patterns are shown in letters, and not in numbers and names.
    pub letters: bool,
    /// The names that people gave.
    pub names: Names,
}

/// The letter and the numbers of a line.
fn fields(line: &str) -> Option<(&str, [usize; 3])> {
    let mut fields = line.trim_end().split(',');
    let letter = fields.next()?;
    let mut numbers = [0; 3];
    for (number, field) in numbers.iter_mut().zip(fields) {
        *number = field.parse().ok()?;
    }
    Some((letter, numbers))
}

impl Rules {
    /// The lines of a file whose lines are in order; one that is not is left out.
    pub fn of(file: &[u8]) -> Rules {
        let text = String::from_utf8_lossy(file);
        let mut rules = Rules::default();
        for (place, line) in text.split_terminator('\n').enumerate() {
            if let Some((letter, numbers)) = fields(line) {
                rules.add(place + 1, letter, numbers);
            }
        }
        rules
    }

    fn add(&mut self, line: usize, letter: &str, [a, b, c]: [usize; 3]) {
        match letter {
            "T" => {
                self.settings.push(settings(&self.settings, a, b, c));
                let named = [matches!(a, 1..=3), matches!(a, 1 | 2)];
                let row = row(&self.types, [a, b, c], named);
                self.choices.push(choices(&self.choices, row));
                self.types.push(row);
            }
            "P" => {
                let named = [matches!(a, 2..=4 | 6), matches!(a, 4 | 6)];
                self.patterns.push(row(&self.patterns, [a, b, c], named));
            }
            "I" => self.isos.push(Iso {
                line,
                from: a,
                to: b,
                clauses: Vec::new(),
            }),
            "C" => self.add_clause(line, a, b),
            _ => self.add_let(Let { p: a, iso: b, q: c }),
        }
    }

    /// Whether a type holds a list, so that its settings are without end and have no numbers.
    pub fn endless(&self, ty: usize) -> bool {
        self.settings.get(ty) == Some(&ENDLESS)
    }

    /// Whether there is a list type.
    pub fn has_lists(&self) -> bool {
        self.settings.contains(&ENDLESS)
    }

    /// How many settings a type has, in words.
    pub fn settings_of(&self, ty: usize) -> String {
        match self.settings.get(ty).copied().unwrap_or(0) {
            ENDLESS => "settings without end".to_string(),
            1 => "1 setting".to_string(),
            count => format!("{count} settings"),
        }
    }

    /// The T lines that a T line names.
    pub fn parts(&self, ty: usize) -> Vec<usize> {
        let row = self.types[ty];
        match row.kind {
            1 | 2 => vec![row.a, row.b],
            3 => vec![row.a],
            _ => Vec::new(),
        }
    }

    /// The P lines that a P line names.
    pub fn below(&self, pattern: usize) -> Vec<usize> {
        let row = self.patterns[pattern];
        match row.kind {
            2 | 3 => vec![row.a],
            4 | 6 => vec![row.a, row.b],
            _ => Vec::new(),
        }
    }

    /// The numbers of the variables of a pattern, in its order.
    pub fn variables(&self, pattern: usize) -> Vec<usize> {
        let row = self.patterns[pattern];
        match row.kind {
            1 => vec![row.a],
            _ => {
                let below = self.below(pattern).into_iter();
                below.flat_map(|part| self.variables(part)).collect()
            }
        }
    }

    /// Whether a let step of an iso names it.
    pub fn calls_itself(&self, iso: usize) -> bool {
        let clauses = self.isos.get(iso).map(|iso| iso.clauses.as_slice());
        let clauses = clauses.unwrap_or_default();
        let mut lets = clauses.iter().flat_map(|clause| &clause.lets);
        lets.any(|step| step.iso == iso)
    }

    /// Whether a let step of any iso names its own.
    pub fn any_calls_itself(&self) -> bool {
        (0..self.isos.len()).any(|iso| self.calls_itself(iso))
    }

    fn add_clause(&mut self, line: usize, left: usize, right: usize) {
        if let Some(iso) = self.isos.last_mut() {
            iso.clauses.push(Clause {
                line,
                from: iso.from,
                to: iso.to,
                left,
                right,
                lets: Vec::new(),
            });
        }
    }

    fn add_let(&mut self, step: Let) {
        let clause = self.isos.last_mut().and_then(|iso| iso.clauses.last_mut());
        if let Some(clause) = clause {
            clause.lets.push(step);
        }
    }
}

/// A row behind others, with its nodes: itself, and those of the lines that it names. One that names no earlier line,
/// or unfolds to a tree that is too large, is of no known kind, so that every row can be unfolded.
fn row(above: &[Row], [kind, a, b]: [usize; 3], named: [bool; 2]) -> Row {
    let parts = [(named[0], a), (named[1], b)];
    let named = parts.iter().filter(|part| part.0);
    let below: Option<usize> = named
        .map(|part| above.get(part.1).map(|row| row.nodes))
        .sum();
    let nodes = below.map_or(1, |below| below + 1);
    match below.is_some() && nodes <= MOST_NODES {
        true => Row { kind, a, b, nodes },
        false => Row {
            kind: UNKNOWN,
            a,
            b,
            nodes: 1,
        },
    }
}

/// How many units a right-nested sum of units has: one that is no sum has one, and a sum has one more than its right
/// part where its left part is a unit.
fn choices(above: &[usize], row: Row) -> usize {
    let of = |place: usize| above.get(place).copied().unwrap_or(0);
    match (row.kind, of(row.a), of(row.b)) {
        (0, ..) => 1,
        (1, 1, right) if right > 0 => right + 1,
        _ => 0,
    }
}

/// How many settings a type has, from those of the types above.
fn settings(above: &[u128], kind: usize, a: usize, b: usize) -> u128 {
    let of = |place: usize| above.get(place).copied().unwrap_or(0);
    match kind {
        1 => of(a).saturating_add(of(b)),
        2 => of(a).saturating_mul(of(b)),
        3 => ENDLESS,
        _ => 1,
    }
}
