//! Refusals 2 and 4 to 7: a line against those above it.

use super::numbered;
use crate::form;
use crate::rules::Rules;
use rulefile::{Refusal, Refused};

/// Ceilings of a file, by what is counted.
const BYTES: usize = 65_536;
const LINES: usize = 4_096;
const TYPES: usize = 256;
const PATTERNS: usize = 1_024;
const ISOS: usize = 32;
const CLAUSES: usize = 128;
const LETS: usize = 8;
const NODES: usize = 127;
/// Left and right nodes of a pattern, or of a value; of a pattern empty lists and elements too.
pub const TAGS: usize = 40;

/// A line as the library found it in form, and the lines above it, which are in order.
struct Line {
    letter: char,
    numbers: [usize; 3],
    above: Rules,
}

/// What is too long about a file.
pub fn too_long(file: &[u8]) -> String {
    let mut said = match file.len() > BYTES {
        true => format!("it has over {BYTES} bytes, which is the most"),
        false => {
            let lines = file.split_inclusive(|byte| *byte == b'\n').count();
            format!("it has {lines} lines; a file has at most {LINES}")
        }
    };
    if let Some(kind) = form::no_text(file) {
        said += &format!(", and {kind}");
    }
    said
}

/// What is wrong with a line that the library refuses with 4 to 7.
pub fn fault(file: &[u8], refused: Refused) -> Option<String> {
    let line = line(file, refused.line)?;
    match refused.refusal {
        Refusal::Misplaced => line.misplaced(),
        Refusal::BadField => line.bad_field(),
        Refusal::BadName => line.bad_name(),
        Refusal::Ceiling => line.ceiling(),
        _ => None,
    }
}

fn line(file: &[u8], number: usize) -> Option<Line> {
    let place = number.checked_sub(1)?;
    let mut lines = file.split_inclusive(|byte| *byte == b'\n');
    let above: Vec<u8> = lines.by_ref().take(place).flatten().copied().collect();
    let text = std::str::from_utf8(form::text(lines.next()?)).ok()?;
    let mut fields = text.split(',');
    let letter = fields.next()?.chars().next()?;
    let mut numbers = [0; 3];
    for (number, field) in numbers.iter_mut().zip(fields) {
        *number = field.parse().ok()?;
    }
    Some(Line {
        letter,
        numbers,
        above: Rules::of(&above),
    })
}

/// The nodes of an unfolded pattern whose kinds are among these.
fn count(rules: &Rules, place: usize, kinds: &[usize]) -> usize {
    let below = rules.below(place).into_iter();
    let below: usize = below.map(|part| count(rules, part, kinds)).sum();
    below + usize::from(kinds.contains(&rules.patterns[place].kind))
}

/// A number that has passed a ceiling.
fn passed(what: String, most: usize) -> Option<String> {
    Some(format!("{what}; at most {most} are allowed"))
}

impl Line {
    /// What this line says of the order.
    fn misplaced(&self) -> Option<String> {
        let (types, patterns) = (self.above.types.len(), self.above.patterns.len());
        let first_behind = match self.letter {
            'T' => types + 1,
            _ => types + patterns + 1,
        };
        Some(match self.letter {
            'T' => format!(
                "a T line stands behind other lines: all T lines come first, and line {first_behind} is no \
                 T line"
            ),
            'P' => format!(
                "a P line stands behind an iso, which begins at line {first_behind}: all P lines come before \
                 the first I line"
            ),
            'C' => "a C line stands before any I line: a clause belongs to the iso above it".to_string(),
            _ => "an L line has no C line above it: a let step belongs to the clause above it".to_string(),
        })
    }

    /// Which number means nothing.
    fn bad_field(&self) -> Option<String> {
        let [kind, a, b] = self.numbers;
        let idle = |what: &str, place: &str, number: usize| {
            Some(format!(
                "{what} has 0 as its {place} number, here it is {number}"
            ))
        };
        match (self.letter, kind) {
            ('T', 4..) => Some(format!(
                "there is no kind {kind} of T lines: 0 is the unit, 1 a sum, 2 a product, 3 a list"
            )),
            ('P', 7..) => Some(format!(
                "there is no kind {kind} of P lines: 0 is the unit, 1 a variable, 2 left, 3 right, 4 a \
                 pair, 5 the empty list, 6 an element before a list"
            )),
            ('P', 1) if a > 31 => Some(format!("there is no variable {a}: they are numbered 0 to 31")),
            (_, 0) if a != 0 => idle("a unit", "second", a),
            (_, 0) => idle("a unit", "third", b),
            ('T', 3) => idle("a list", "third", b),
            ('P', 5) if a != 0 => idle("an empty list", "second", a),
            ('P', 5) => idle("an empty list", "third", b),
            ('P', 1) => idle("a variable", "third", b),
            ('P', _) => idle("a left or right", "third", b),
            _ => None,
        }
    }

    /// What it names that is not above it.
    fn bad_name(&self) -> Option<String> {
        let (types, patterns) = (self.above.types.len(), self.above.patterns.len());
        let isos = self.above.isos.len();
        let [x, y, z] = self.numbers;
        let of = |letter: &'static str, number: usize, count: usize| (letter, number, count);
        let named = match (self.letter, x) {
            ('T', 3) => vec![of("T", y, types)],
            ('T', _) => vec![of("T", y, types), of("T", z, types)],
            ('P', 4 | 6) => vec![of("P", y, patterns), of("P", z, patterns)],
            ('P', _) => vec![of("P", y, patterns)],
            ('I', _) => vec![of("T", x, types), of("T", y, types)],
            ('C', _) => vec![of("P", x, patterns), of("P", y, patterns)],
            _ => vec![
                of("P", x, patterns),
                of("iso ", y, isos),
                of("P", z, patterns),
            ],
        };
        let (letter, number, count) = named
            .into_iter()
            .find(|(_, number, count)| number >= count)?;
        Some(match letter {
            "iso " => format!(
                "it names iso {number}; up to its own there is {}",
                numbered(count, "iso", "iso ")
            ),
            _ => format!(
                "it names {letter}{number}; above it there is {}",
                numbered(count, &format!("{letter} line"), letter)
            ),
        })
    }

    /// Which ceiling it passes, and the number that it reaches.
    fn ceiling(&self) -> Option<String> {
        let above = &self.above;
        let of = |what: &str, count: usize, most: usize| {
            passed(format!("this is {what} number {}", count + 1), most)
        };
        match self.letter {
            'T' if above.types.len() >= TYPES => of("T line", above.types.len(), TYPES),
            'P' if above.patterns.len() >= PATTERNS => of("P line", above.patterns.len(), PATTERNS),
            'T' => passed(format!("the type unfolds to {} nodes", self.nodes()), NODES),
            'P' if self.nodes() > NODES => passed(
                format!("the pattern unfolds to {} nodes", self.nodes()),
                NODES,
            ),
            'P' => {
                let lists = self.tags(&[5, 6]);
                let kinds = match lists {
                    0 => "left and right",
                    _ => "left, right, empty and element",
                };
                let tags = lists + self.tags(&[2, 3]);
                passed(format!("the pattern unfolds to {tags} {kinds} nodes"), TAGS)
            }
            'I' => of("iso", above.isos.len(), ISOS),
            'C' => {
                let (clauses, iso) = (above.isos.last()?.clauses.len(), above.isos.len() - 1);
                passed(
                    format!("this is clause number {} of iso {iso}", clauses + 1),
                    CLAUSES,
                )
            }
            _ => {
                let clause = above.isos.last()?.clauses.last()?;
                let (steps, line) = (clause.lets.len() + 1, clause.line);
                let what = format!("this is let step number {steps} of the clause of line {line}");
                passed(what, LETS)
            }
        }
    }

    /// The lines of its own letter that a T or P line names.
    fn named(&self) -> Vec<usize> {
        let [kind, a, b] = self.numbers;
        match (self.letter, kind) {
            ('T', 1 | 2) | ('P', 4 | 6) => vec![a, b],
            ('T', 3) | ('P', 2 | 3) => vec![a],
            _ => Vec::new(),
        }
    }

    /// The nodes that a T or P line unfolds to.
    fn nodes(&self) -> usize {
        let rows = match self.letter {
            'T' => &self.above.types,
            _ => &self.above.patterns,
        };
        let named = self.named().into_iter();
        let below = named.map(|place| rows.get(place).map_or(0, |row| row.nodes));
        1 + below.sum::<usize>()
    }

    /// The nodes of these kinds that a P line unfolds to.
    fn tags(&self, kinds: &[usize]) -> usize {
        let patterns = self.above.patterns.len();
        let named = self.named().into_iter().filter(|place| *place < patterns);
        let below: usize = named.map(|place| count(&self.above, place, kinds)).sum();
        below + usize::from(kinds.contains(&self.numbers[0]))
    }
}
