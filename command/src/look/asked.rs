//! Refusals 15 to 19 and 24: what was asked of an accepted file.

use super::{large, numbered};
use crate::rules::{Iso, Rules};
use crate::run::counted;
use crate::settings::MOST_LETTERS;
use crate::show::tree;
use crate::{form, settings};
use rulefile::{Desk, Direction, Query, Refusal, Refused, MAX_QUERIES};

/// The most steps that are made to say how many it takes.
const STEPS: u32 = 1_000_000;

/// The most settings that have numbers, and that a pair list has.
const NUMBERED: u128 = 4_294_967_295;
const LISTED: u128 = 4_096;

/// A refusal, and what exactly is at fault where that can be said.
pub struct Told {
    pub refused: Refused,
    pub look: Option<String>,
}

impl From<Refused> for Told {
    fn from(refused: Refused) -> Told {
        Told {
            refused,
            look: None,
        }
    }
}

impl Told {
    /// With this for what is at fault where no value was given: a setting may be written in other ways than in letters.
    pub fn or(self, why: Option<String>) -> Told {
        match self.refused.refusal {
            Refusal::NoValue => Told {
                look: why.or(self.look),
                ..self
            },
            _ => self,
        }
    }
}

/// The iso that is not there, or that has to do with lists.
pub fn iso(file: &[u8], iso: u32, refused: Refused) -> Told {
    let rules = Rules::of(file);
    let there = numbered(rules.isos.len(), "iso", "iso ");
    let look = match refused.refusal {
        Refusal::NoIso => Some(format!("iso {iso} was named; the file has {there}")),
        Refusal::TooMany => reached(&rules, iso as usize),
        _ => None,
    };
    Told { refused, look }
}

/// The first type that holds a list, of an iso or of one that it reaches through let steps.
pub fn reached(rules: &Rules, iso: usize) -> Option<String> {
    // a let step names an iso up to its own, so that going down meets each once
    let mut reaches = vec![false; rules.isos.len()];
    *reaches.get_mut(iso)? = true;
    for place in (0..=iso).rev().filter(|place| *place < rules.isos.len()) {
        let Iso {
            from, to, clauses, ..
        } = &rules.isos[place];
        if !reaches[place] {
            continue;
        }
        if let Some(ty) = [from, to].into_iter().find(|ty| rules.endless(**ty)) {
            let reads = tree::ty(rules, *ty).text();
            let whose = match place == iso {
                true => format!("iso {iso} has to do with T{ty}"),
                false => format!("iso {iso} reaches iso {place}, which has to do with T{ty}"),
            };
            return Some(format!(
                "{whose}, {reads}, which holds a list: it has settings without end"
            ));
        }
        for step in clauses.iter().flat_map(|clause| &clause.lets) {
            if let Some(named) = reaches.get_mut(step.iso) {
                *named = true;
            }
        }
    }
    None
}

/// The first of these P lines that is not there.
pub fn patterns(file: &[u8], patterns: &[u32], refused: Refused) -> Told {
    let count = Rules::of(file).patterns.len();
    told(refused, Refusal::NoIso, || absent("P", patterns, count))
}

fn absent(letter: &str, named: &[u32], count: usize) -> Option<String> {
    let number = named.iter().find(|number| **number as usize >= count)?;
    let there = numbered(count, &format!("{letter} line"), letter);
    Some(format!("{letter}{number} was named; the file has {there}"))
}

/// What is said of one refusal, and nothing of any other.
fn told(refused: Refused, of: Refusal, look: impl FnOnce() -> Option<String>) -> Told {
    let look = if refused.refusal == of { look() } else { None };
    Told { refused, look }
}

/// A run that is refused.
pub fn run(
    desk: &mut Desk,
    file: &[u8],
    (place, direction, budget): (u32, Direction, u32),
    letters: &[u8],
    refused: Refused,
) -> Told {
    let look = match refused.refusal {
        Refusal::NoIso => return iso(file, place, refused),
        Refusal::NoValue => {
            let rules = Rules::of(file);
            let iso = rules.isos.get(place as usize);
            let start = |iso: &crate::rules::Iso| match direction {
                Direction::Forward => iso.from,
                Direction::Back => iso.to,
            };
            iso.and_then(|iso| misfit(&rules, start(iso), letters))
        }
        Refusal::Spent => {
            let query = |budget| Query::new(place, direction, budget, letters);
            Some(spent(desk, file, place, budget, query))
        }
        Refusal::TooLarge => large::fault(&Rules::of(file), place, direction, letters),
        _ => None,
    };
    Told { refused, look }
}

/// A query of a sheet that is refused, by its line.
pub fn query(desk: &mut Desk, file: &[u8], line: &[u8], refusal: Refusal) -> Option<String> {
    if refusal == Refusal::BadLine {
        return form::query_fault(line);
    }
    let mut fields = form::text(line).splitn(5, |byte| *byte == b',').skip(1);
    let mut number = || std::str::from_utf8(fields.next()?).ok()?.parse().ok();
    let (iso, direction, budget): (u32, u32, u32) = (number()?, number()?, number()?);
    let direction = match direction {
        0 => Direction::Forward,
        _ => Direction::Back,
    };
    let refused = Refused { refusal, line: 0 };
    let asked = (iso, direction, budget);
    run(desk, file, asked, fields.next()?, refused).look
}

/// How many steps a run takes that passes its budget.
fn spent<'a>(
    desk: &mut Desk,
    file: &[u8],
    iso: u32,
    budget: u32,
    query: impl Fn(u32) -> Query<'a>,
) -> String {
    let bounds = desk.bounds(file, iso).ok();
    let known = bounds.filter(|bounds| !bounds.greatest_over);
    let most = known.map_or(u32::MAX, |bounds| bounds.greatest);
    let allowed = format!("the budget is {budget}");
    let endless = bounds.is_none();
    match (desk.run(file, query(most.min(STEPS))), known) {
        (Err(refused), _) if endless && refused.refusal == Refusal::TooLarge => {
            format!("with more steps it is refused with 24, too large; {allowed}")
        }
        (Err(_), _) if endless => format!("it takes over {STEPS} steps; {allowed}"),
        (Ok(value), _) => {
            let steps = counted(value.count.into(), "step");
            format!("it takes {steps}; {allowed}")
        }
        (Err(_), Some(_)) => {
            format!("it takes over {STEPS} steps, and {most} are enough for any setting; {allowed}")
        }
        (Err(_), None) => {
            format!("it takes over {STEPS} steps, and some setting may take over {most}; {allowed}")
        }
    }
}

/// The first letter at which letters stop being a setting of a type, and a setting that goes on rightly from there.
pub fn misfit(rules: &Rules, ty: usize, letters: &[u8]) -> Option<String> {
    // the types of the parts that are still to come, the next one last
    let mut open = vec![ty];
    let mut place = 0;
    while let (Some(next), Some(letter)) = (open.last(), letters.get(place)) {
        let row = rules.types[*next];
        let parts = match (row.kind, letter) {
            (0, b'U') => vec![],
            (1, b'L') => vec![row.a],
            (1, b'R') => vec![row.b],
            (2, b'P') => vec![row.b, row.a],
            (3, b'N') => vec![],
            (3, b'K') => vec![*next, row.a],
            _ => break,
        };
        open.pop();
        open.extend(parts);
        place += 1;
    }
    let wanted = open
        .last()
        .map(|next| ["U", "L or R", "P", "N or K"][rules.types[*next].kind.min(3)]);
    let why = match (letter(letters, place), wanted) {
        (None, None) => return None,
        (None, Some(_)) if letters.is_empty() => "there are no letters".to_string(),
        (None, Some(wanted)) => {
            format!("the letters end behind letter {place}, where {wanted} should follow")
        }
        (Some(given), None) => format!("letter {}, {given}, is one too many", place + 1),
        (Some(given), Some(wanted)) => {
            format!(
                "letter {} is {given}, where {wanted} should stand",
                place + 1
            )
        }
    };
    let mut right = letters[..place].to_vec();
    for next in open.into_iter().rev() {
        right.extend(settings::of_number(rules, next, 0));
    }
    // of a long list the beginning would not help
    if right.len() > MOST_LETTERS {
        right = settings::of_number(rules, ty, 0);
    }
    let right = String::from_utf8_lossy(&right);
    Some(format!("{why}; a setting of T{ty} is {right}"))
}

/// A letter as it can be printed.
fn letter(letters: &[u8], place: usize) -> Option<String> {
    let byte = *letters.get(place)?;
    let text = String::from_utf8_lossy(&letters[place..]);
    Some(match byte {
        b'!'..=b'~' => char::from(byte).to_string(),
        b' ' => "a blank".to_string(),
        b'\r' => "a carriage return".to_string(),
        0..=31 | 127 => format!("a byte that cannot be seen (hexadecimal {byte:02X})"),
        // a letter of more than one byte
        _ => match text
            .chars()
            .next()
            .filter(|c| *c != char::REPLACEMENT_CHARACTER && !c.is_control())
        {
            Some(c) => c.to_string(),
            None => format!("a byte that is no text (hexadecimal {byte:02X})"),
        },
    })
}

/// The settings of a type, where they are more than so many.
fn many(rules: &Rules, types: &[u32], most: u128, what: &str) -> Option<String> {
    let over = |ty: &&u32| {
        rules
            .settings
            .get(**ty as usize)
            .is_some_and(|count| *count > most)
    };
    let ty = types.iter().find(over)?;
    let count = rules.settings[*ty as usize];
    if rules.endless(*ty as usize) {
        let reads = tree::ty(rules, *ty as usize).text();
        let endless = format!("T{ty}, {reads}, holds a list: it has settings without end");
        return Some(format!("{endless}; at most {most} {what}"));
    }
    Some(format!("T{ty} has {count} settings; at most {most} {what}"))
}

/// The number of a setting that is refused.
pub fn number(file: &[u8], ty: u32, letters: &[u8], refused: Refused) -> Told {
    let rules = Rules::of(file);
    let look = match refused.refusal {
        Refusal::NoIso => absent("T", &[ty], rules.types.len()),
        Refusal::TooMany => many(&rules, &[ty], NUMBERED, "have numbers"),
        Refusal::NoValue if (ty as usize) < rules.types.len() => {
            misfit(&rules, ty as usize, letters)
        }
        _ => None,
    };
    Told { refused, look }
}

/// The setting of a number that is refused.
pub fn setting(file: &[u8], ty: u32, number: u32, refused: Refused) -> Told {
    let rules = Rules::of(file);
    let look = match refused.refusal {
        Refusal::NoIso => absent("T", &[ty], rules.types.len()),
        Refusal::TooMany => many(&rules, &[ty], NUMBERED, "have numbers"),
        Refusal::TooHigh => rules.settings.get(ty as usize).map(|count| {
            let (count, last) = (counted(*count, "setting"), count - 1);
            format!("the number is {number}; T{ty} has {count}, and the last number is {last}")
        }),
        _ => None,
    };
    Told { refused, look }
}

/// A pair list that is not to be had.
pub fn export(desk: &mut Desk, file: &[u8], place: u32, budget: u32, refused: Refused) -> Told {
    let rules = Rules::of(file);
    let from = rules.isos.get(place as usize).map(|iso| iso.from);
    let look = match (refused.refusal, from) {
        (Refusal::NoIso, _) => return iso(file, place, refused),
        (Refusal::TooMany, Some(from)) => match reached(&rules, place as usize) {
            None => many(&rules, &[from as u32], LISTED, "are listed"),
            list => list,
        },
        (Refusal::Spent, Some(from)) => {
            first_spent(desk, file, &rules, [place as usize, from], budget)
        }
        _ => None,
    };
    Told { refused, look }
}

/// The first setting whose run passes the budget, and how many steps it takes.
fn first_spent(
    desk: &mut Desk,
    file: &[u8],
    rules: &Rules,
    [iso, from]: [usize; 2],
    budget: u32,
) -> Option<String> {
    let numbers: Vec<u128> = (0..rules.settings[from].min(LISTED)).collect();
    for part in numbers.chunks(MAX_QUERIES) {
        let letters = part
            .iter()
            .map(|number| settings::of_number(rules, from, *number));
        let letters: Vec<Vec<u8>> = letters.collect();
        let query = |letters, budget| Query::new(iso as u32, Direction::Forward, budget, letters);
        let queries: Vec<Query> = letters
            .iter()
            .map(|letters| query(letters, budget))
            .collect();
        let answers = desk.sheet_of(file, &queries).ok()?;
        if let Some(place) = answers
            .iter()
            .position(|answer| *answer == Err(Refusal::Spent))
        {
            let steps = spent(desk, file, iso as u32, budget, |budget| {
                query(&letters[place], budget)
            });
            let setting = tree::setting(rules, from, &letters[place]);
            let number = part[place];
            return Some(format!("setting number {number}, {setting}: {steps}"));
        }
    }
    None
}

/// A file that cannot be made of a list.
pub fn import(file: &[u8], types: [u32; 2], list: &[u8], refused: Refused) -> Told {
    let rules = Rules::of(file);
    let look = match refused.refusal {
        Refusal::NoIso => absent("T", &types, rules.types.len()),
        Refusal::TooMany => many(&rules, &types, LISTED, "are listed"),
        Refusal::Ceiling => super::lists::ceiling(&rules, types, list),
        Refusal::BadList => super::lists::fault(&rules, types, list),
        _ => None,
    };
    Told { refused, look }
}
