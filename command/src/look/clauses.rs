//! Refusals 8 to 12: a clause by itself, and two clauses that meet in a setting. The lines of the file are in order.

use crate::rules::{Clause, Rules};
use crate::show::tree::{self, Naming};
use rulefile::{Refusal, Refused};
use std::collections::BTreeMap;

/// A clause by its line, with the iso that it belongs to.
pub fn clause(rules: &Rules, line: usize) -> Option<(&crate::rules::Iso, &Clause)> {
    let of = |iso: &'_ crate::rules::Iso| iso.clauses.iter().position(|one| one.line == line);
    let mut isos = rules.isos.iter();
    isos.find_map(|iso| of(iso).map(|place| (iso, &iso.clauses[place])))
}

/// What is wrong with a clause that the library refuses with 8 to 10.
pub fn fault(rules: &Rules, refused: Refused) -> Option<String> {
    let (iso, clause) = clause(rules, refused.line)?;
    match refused.refusal {
        Refusal::Variable => variable(rules, clause),
        Refusal::LetShape => let_shape(rules, clause),
        Refusal::Type => {
            let mut typing = Typing {
                rules,
                types: BTreeMap::new(),
            };
            typing.clause(iso.from, iso.to, clause).err()
        }
        _ => None,
    }
}

/// Where a pattern of a clause stands, in words.
enum Place {
    Left,
    /// What a let step of this line is applied to, and what comes out of it.
    Q(usize),
    P(usize),
    Right,
}

impl Place {
    fn words(&self) -> String {
        match self {
            Place::Left => "the left pattern".to_string(),
            Place::Q(line) => format!("the argument of the let step of line {line}"),
            Place::P(line) => format!("the result of the let step of line {line}"),
            Place::Right => "the right pattern".to_string(),
        }
    }

    /// Whether its variables are bound there, and not used.
    fn binds(&self) -> bool {
        matches!(self, Place::Left | Place::P(_))
    }
}

/// The patterns of a clause in the order in which it is read.
fn patterns(clause: &Clause) -> Vec<(Place, usize)> {
    let mut patterns = vec![(Place::Left, clause.left)];
    for (place, step) in clause.lets.iter().enumerate() {
        // L lines stand directly under their C line
        let line = clause.line + 1 + place;
        patterns.push((Place::Q(line), step.q));
        patterns.push((Place::P(line), step.p));
    }
    patterns.push((Place::Right, clause.right));
    patterns
}

/// What has happened to a variable so far.
#[derive(Default)]
struct History {
    times: usize,
    /// Where it was bound, while it is live.
    live: Option<String>,
    /// Where it was used last.
    used: Option<String>,
}

/// The first variable that is not bound and then used.
fn variable(rules: &Rules, clause: &Clause) -> Option<String> {
    let mut all: BTreeMap<usize, History> = BTreeMap::new();
    for (place, pattern) in patterns(clause) {
        for number in rules.variables(pattern) {
            let words = place.words();
            let history = all.entry(number).or_default();
            let name = called(number, history.times);
            match (place.binds(), history.live.take()) {
                (true, Some(bound)) => {
                    return Some(format!("{name} is bound in {words} while it is live: {bound} binds it, and nothing has used it yet"));
                }
                (true, None) => {
                    history.times += 1;
                    history.live = Some(words);
                }
                (false, Some(_)) => history.used = Some(words),
                (false, None) => {
                    let why = match &history.used {
                        Some(used) => format!("{used} has used it up"),
                        None => "nothing binds it before".to_string(),
                    };
                    return Some(format!("{name} is used in {words}, and {why}"));
                }
            }
        }
    }
    let mut live = all.iter().filter_map(|(number, history)| {
        let bound = history.live.as_ref()?;
        let name = called(*number, history.times);
        Some(format!(
            "{name} is bound in {bound} and never used: that part of the setting would be dropped"
        ))
    });
    live.next()
}

/// A variable by its letter, as the clause is read, and by its number.
fn called(number: usize, times: usize) -> String {
    let letter = tree::variable(number, times.saturating_sub(1));
    format!("variable {letter} (number {number})")
}

/// A P line as it reads.
pub fn pattern(rules: &Rules, place: usize) -> String {
    let text = Naming::plain().pattern(rules, place).text();
    format!("P{place} = {text}")
}

/// A T line as it reads.
pub fn ty(rules: &Rules, place: usize) -> String {
    format!("T{place} = {}", tree::ty(rules, place).text())
}

/// The first left, right, empty list or element in a pattern.
fn tag(rules: &Rules, pattern: usize) -> Option<&'static str> {
    let row = rules.patterns[pattern];
    match row.kind {
        2 => Some("a left"),
        3 => Some("a right"),
        4 => tag(rules, row.a).or_else(|| tag(rules, row.b)),
        5 => Some("an empty list"),
        6 => Some("an element"),
        _ => None,
    }
}

/// The first let pattern that takes a value apart, and the type of that value.
fn let_shape(rules: &Rules, clause: &Clause) -> Option<String> {
    let types = clause
        .lets
        .iter()
        .filter_map(|step| rules.isos.get(step.iso));
    let types = types.flat_map(|iso| [iso.from, iso.to]);
    let patterns = patterns(clause).into_iter();
    let lets = patterns.filter(|(place, _)| matches!(place, Place::Q(_) | Place::P(_)));
    lets.zip(types).find_map(|((place, at), of)| {
        let tag = tag(rules, at)?;
        let (words, pattern, ty) = (place.words(), pattern(rules, at), ty(rules, of));
        Some(format!("{words}, {pattern}, takes a setting of {ty} apart by {tag}; it may have only units, variables and pairs"))
    })
}

/// The types of the variables that are live.
struct Typing<'a> {
    rules: &'a Rules,
    types: BTreeMap<usize, usize>,
}

/// What a kind of a pattern or of a type is called.
fn shape(kind: usize, names: &[&'static str]) -> &'static str {
    names.get(kind).copied().unwrap_or("line")
}

impl Typing<'_> {
    /// Nothing, or the first pattern that does not fit its type.
    fn clause(&mut self, from: usize, to: usize, clause: &Clause) -> Result<(), String> {
        self.pattern(&Place::Left, clause.left, from)?;
        for (place, step) in clause.lets.iter().enumerate() {
            let Some(iso) = self.rules.isos.get(step.iso) else {
                return Ok(());
            };
            let line = clause.line + 1 + place;
            self.pattern(&Place::Q(line), step.q, iso.from)?;
            self.pattern(&Place::P(line), step.p, iso.to)?;
        }
        self.pattern(&Place::Right, clause.right, to)
    }

    fn pattern(&mut self, place: &Place, at: usize, of: usize) -> Result<(), String> {
        let (words, rules) = (place.words(), self.rules);
        self.fit(place.binds(), at, of).map_err(|misfit| {
            let (pattern, ty) = (pattern(rules, at), ty(rules, of));
            let why = misfit.words(rules, at);
            format!("{words}, {pattern}, does not fit {ty}: {why}")
        })
    }

    fn fit(&mut self, binds: bool, at: usize, of: usize) -> Result<(), Misfit> {
        let (row, kind) = (self.rules.patterns[at], self.rules.types[of]);
        match (row.kind, kind.kind) {
            (1, _) if binds => {
                self.types.insert(row.a, of);
                Ok(())
            }
            (1, _) => match self.types.remove(&row.a) {
                Some(bound) if !same(self.rules, bound, of) => {
                    Err(Misfit::Variable(row.a, bound, of))
                }
                _ => Ok(()),
            },
            (0, 0) => Ok(()),
            (2, 1) => self.fit(binds, row.a, kind.a),
            (3, 1) => self.fit(binds, row.a, kind.b),
            (4, 2) => {
                self.fit(binds, row.a, kind.a)?;
                self.fit(binds, row.b, kind.b)
            }
            (5, 3) => Ok(()),
            (6, 3) => {
                self.fit(binds, row.a, kind.a)?;
                self.fit(binds, row.b, of)
            }
            _ => Err(Misfit::Shape(at, of)),
        }
    }
}

/// Why a pattern does not fit.
enum Misfit {
    /// A P line against a T line.
    Shape(usize, usize),
    /// A variable that was bound with one T line, and stands for another.
    Variable(usize, usize, usize),
}

impl Misfit {
    /// In words; the pattern as a whole was named before.
    fn words(&self, rules: &Rules, whole: usize) -> String {
        match *self {
            Misfit::Shape(at, of) => {
                let (kind, of_kind) = (rules.patterns[at].kind, rules.types[of].kind);
                let is = shape(
                    kind,
                    &[
                        "a unit",
                        "a variable",
                        "a left",
                        "a right",
                        "a pair",
                        "an empty list",
                        "an element before a list",
                    ],
                );
                let wanted = shape(of_kind, &["a unit", "a sum", "a product", "a list"]);
                match at == whole {
                    true => format!("it is {is}, and the type is {wanted}"),
                    false => {
                        let (pattern, ty) = (pattern(rules, at), ty(rules, of));
                        format!("{pattern} is {is}, and {ty} is {wanted}")
                    }
                }
            }
            Misfit::Variable(number, bound, of) => {
                let name = tree::variable(number, 0);
                let (was, is) = (ty(rules, bound), ty(rules, of));
                format!("variable {name} was bound with {was}, and stands for {is} here")
            }
        }
    }
}

/// Whether two types are the same tree.
fn same(rules: &Rules, a: usize, b: usize) -> bool {
    let (x, y) = (rules.types[a], rules.types[b]);
    let parts = || rules.parts(a).into_iter().zip(rules.parts(b));
    a == b || x.kind == y.kind && x.nodes == y.nodes && parts().all(|(x, y)| same(rules, x, y))
}

/// The letters behind what a pattern matches, where it matches what stands in front.
fn rest<'a>(rules: &Rules, pattern: usize, letters: &'a [u8]) -> Option<&'a [u8]> {
    let row = rules.patterns[pattern];
    let (first, behind) = letters.split_first()?;
    match (row.kind, first) {
        (1, _) => past(letters),
        (0, b'U') => Some(behind),
        (2, b'L') | (3, b'R') => rest(rules, row.a, behind),
        (4, b'P') | (6, b'K') => rest(rules, row.b, rest(rules, row.a, behind)?),
        (5, b'N') => Some(behind),
        _ => None,
    }
}

/// The letters behind a whole value.
pub fn past(letters: &[u8]) -> Option<&[u8]> {
    let (mut open, mut place) = (1usize, 0);
    while open > 0 {
        open = match letters.get(place)? {
            b'U' | b'N' => open - 1,
            b'L' | b'R' => open,
            b'P' | b'K' => open + 1,
            _ => return None,
        };
        place += 1;
    }
    Some(&letters[place..])
}

/// The first two clauses that meet in a setting, on the side that is refused with 11 or 12: their lines, and how they
/// read.
pub fn meeting(rules: &Rules, refused: Refused, letters: &[u8]) -> Vec<(usize, String)> {
    let right = match refused.refusal {
        Refusal::OverlapLeft => false,
        Refusal::OverlapRight => true,
        _ => return Vec::new(),
    };
    let iso = rules.isos.iter().find(|iso| iso.line == refused.line);
    let clauses = iso.map(|iso| iso.clauses.as_slice()).unwrap_or_default();
    let matches = |clause: &&Clause| {
        let side = if right { clause.right } else { clause.left };
        rest(rules, side, letters).is_some_and(<[u8]>::is_empty)
    };
    let read = |clause: &Clause| {
        let shown = tree::clause(rules, clause);
        (
            clause.line,
            format!("{} ↦ {}", shown.left.text(), shown.outcome()),
        )
    };
    clauses.iter().filter(matches).take(2).map(read).collect()
}
