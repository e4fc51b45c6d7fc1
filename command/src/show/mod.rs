//! `show`: what a rule file says, in readable form.

mod html;
mod links;
mod listing;
mod stamp;
mod svg;
mod text;
pub mod tree;

use crate::arguments::{number, Given};
use crate::input::{self, Input};
use crate::look::asked;
use crate::rules::{Iso, Rules};
use crate::{check, explain, names, output, run, turn, Outcome};
use rulefile::{Desk, Refusal, Refused};

/// A file, the library's verdict on it, and what is to be shown.
pub struct Sight<'a> {
    pub file: &'a Input,
    pub verdict: Result<(), Refused>,
    pub rules: Rules,
    /// The isos that are shown.
    pub isos: Vec<usize>,
    /// The types that are shown.
    pub types: Vec<usize>,
}

/// Whether the lines of a file are in order, so that they can be shown.
fn readable(verdict: Result<(), Refused>) -> bool {
    match verdict {
        Ok(()) => true,
        Err(refused) => explain::readable(refused),
    }
}

impl<'a> Sight<'a> {
    fn new(
        file: &'a Input,
        verdict: Result<(), Refused>,
        only: Option<usize>,
        given: &Given,
    ) -> Self {
        let mut rules = match readable(verdict) {
            true => names::rules(given.word(0), &file.bytes),
            false => Rules::default(),
        };
        rules.letters = given.flag("--letters");
        let isos: Vec<usize> = match only {
            Some(iso) => vec![iso],
            None => (0..rules.isos.len()).collect(),
        };
        let types = match only.and_then(|iso| rules.isos.get(iso)) {
            Some(iso) => {
                tree::with_parts([iso.from, iso.to].into(), |place| tree::ty(&rules, place))
            }
            None => (0..rules.types.len()).collect(),
        };
        let types = types.into_iter().collect();
        Sight {
            file,
            verdict,
            rules,
            isos,
            types,
        }
    }

    /// From and to of an iso, its settings, and how many steps its runs take.
    fn heading(&self, desk: &mut Desk, place: usize) -> String {
        let Iso { from, to, .. } = &self.rules.isos[place];
        let [left, right] = [from, to].map(|ty| self.rules.settings[*ty]);
        let settings = match (left == right, self.rules.has_lists()) {
            (true, _) => self.rules.settings_of(*from),
            (false, false) => format!("{left} and {}", self.rules.settings_of(*to)),
            (false, true) => [from, to]
                .map(|ty| self.rules.settings_of(*ty))
                .join(" and "),
        };
        let itself = match self.rules.calls_itself(place) {
            true => ", calls itself",
            false => "",
        };
        let bounds = desk.bounds(&self.file.bytes, place as u32);
        let steps = bounds.map(|bounds| format!(", {}", run::in_words(bounds)));
        let steps = steps.unwrap_or_default();
        let name = self.rules.names.iso(place).filter(|_| !self.rules.letters);
        let name = name.map(|name| format!(", {name}")).unwrap_or_default();
        format!("iso {place}{name}: T{from} → T{to}, {settings}{steps}{itself}")
    }

    /// Whose the names are.
    fn whose(&self) -> Option<String> {
        let file = self.rules.names.file.as_ref();
        let file = file.filter(|_| !self.rules.letters)?;
        Some(format!(
            "{file}, by those who use the file; no part of the verdict"
        ))
    }

    /// From and to of an iso, as types read.
    fn ends(&self, place: usize) -> String {
        let Iso { from, to, .. } = &self.rules.isos[place];
        let [from, to] = [from, to].map(|ty| tree::titled(&self.rules, *ty));
        format!("{from} → {to}")
    }
}

/// The clause, type or pattern of a line, as it reads, of a file whose lines are in order: T lines first, and then P
/// lines.
pub fn reading(rules: &Rules, line: usize) -> Option<String> {
    let place = line.checked_sub(1)?;
    if place < rules.types.len() {
        return Some(format!("T{place} = {}", tree::titled(rules, place)));
    }
    let place = place - rules.types.len();
    if place < rules.patterns.len() {
        let pattern = tree::Naming::plain().pattern(rules, place);
        return Some(format!("P{place} = {}", pattern.text()));
    }
    let mut clauses = rules.isos.iter().flat_map(|iso| &iso.clauses);
    let clause = clauses.find(|clause| clause.line == line)?;
    let shown = tree::clause(rules, clause);
    Some(format!("{} ↦ {}", shown.left.text(), shown.outcome()))
}

/// Shows a file.
pub fn show(given: &Given) -> Outcome {
    let only = given.optional(1).map(|word| number(word, "", "ISO"));
    let only = only.transpose()?.map(|iso| iso as usize);
    turn::require_other(given.word(0), given.value("-o"))?;
    let target = output::target(given)?;
    let file = input::read(given.word(0))?;
    let mut desk = Desk::new();
    let verdict = desk.check(&file.bytes);
    let sight = Sight::new(&file, verdict, only, given);
    if only.is_some_and(|iso| readable(verdict) && iso >= sight.rules.isos.len()) {
        let refused = Refused {
            refusal: Refusal::NoIso,
            line: 0,
        };
        let iso = only.unwrap_or_default() as u32;
        return Ok(check::say_refused(&asked::iso(&file.bytes, iso, refused)));
    }
    let text = match given.flag("--html") {
        true => html::page(&mut desk, &sight, given.flag("--back")),
        false => text::text(&mut desk, &sight),
    };
    target.give(text.as_bytes())?;
    if let Some(warning) = check::warning(&file, verdict) {
        output::say(&format!("warning: {warning}"));
    }
    Ok(check::status(verdict))
}
