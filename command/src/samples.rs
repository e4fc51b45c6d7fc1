//! Conversions to look at, each a run of the library: all of a small iso, and a sample of a large one.

use crate::rules::{Iso, Rules};
use crate::settings::{self, MOST_LETTERS};
use rulefile::{Desk, Direction, Query, Refusal};
use std::collections::{BTreeMap, BTreeSet};

/// The most settings of an iso whose conversions are all listed.
pub const MOST: u128 = 256;

/// How many settings of a sample stand between the first and the last, besides those of the clauses.
const BETWEEN: u128 = 6;

/// A conversion that takes more steps is not made for a list.
const BUDGET: u32 = 10_000;

/// A setting by its letters, and by its number where it has one of 32 bits.
pub struct Setting {
    pub number: Option<u32>,
    pub letters: String,
}

/// A setting and what becomes of it.
pub struct Conversion {
    pub from: Setting,
    /// What comes out, and the steps; or why that cannot be listed.
    pub to: Result<(Setting, u32), &'static str>,
}

/// Conversions of an iso, one way.
pub struct Conversions {
    /// Whether every setting is there.
    pub all: bool,
    /// Whether they are without end.
    pub endless: bool,
    pub rows: Vec<Conversion>,
}

/// The library's numbers of the settings of a file's types, each asked for once.
#[derive(Default)]
pub struct Numbers {
    desk: Desk,
    types: BTreeMap<usize, Type>,
}

/// A type by itself, and the numbers of it that are known.
struct Type {
    /// A file of the type's T lines alone, with one iso that leaves every setting as it is. The number of a setting
    /// depends on its type alone, and such a file is judged at once, where the whole file would be for each number.
    file: Vec<u8>,
    /// The number of the T line in that file.
    place: u32,
    /// The numbers that were asked for, by the letters.
    known: BTreeMap<String, Option<u32>>,
}

/// The T lines that a type is made of, itself included.
fn lines(rules: &Rules, ty: usize, found: &mut BTreeSet<usize>) {
    if found.insert(ty) && ty < rules.types.len() {
        for part in rules.parts(ty) {
            lines(rules, part, found);
        }
    }
}

impl Type {
    fn of(rules: &Rules, ty: usize) -> Type {
        let mut found = BTreeSet::new();
        lines(rules, ty, &mut found);
        let order: Vec<usize> = found.into_iter().collect();
        let place = |ty: usize| order.binary_search(&ty).unwrap_or(0);
        let mut file = String::new();
        for ty in order.iter().filter(|ty| **ty < rules.types.len()) {
            let named: Vec<usize> = rules.parts(*ty).into_iter().map(place).collect();
            let [a, b] = [0, 1].map(|part| named.get(part).copied().unwrap_or(0));
            file += &format!("T,{},{a},{b}\n", rules.types[*ty].kind);
        }
        let place = place(ty);
        file += &format!("P,1,0,0\nI,{place},{place}\nC,0,0\n");
        Type {
            file: file.into_bytes(),
            place: place as u32,
            known: BTreeMap::new(),
        }
    }
}

impl Numbers {
    fn ty(&mut self, rules: &Rules, ty: usize) -> (&mut Desk, &mut Type) {
        let of = self.types.entry(ty).or_insert_with(|| Type::of(rules, ty));
        (&mut self.desk, of)
    }

    /// The letters of all settings of a type, by their numbers; the numbers are known from then on.
    fn list(&mut self, rules: &Rules, ty: usize) -> Vec<String> {
        let count = rules.settings.get(ty).map_or(0, |count| *count as u32);
        let (desk, ty) = self.ty(rules, ty);
        if ty.known.len() < count as usize {
            for number in 0..count {
                if let Ok(letters) = desk.setting_of(&ty.file, ty.place, number) {
                    let letters = String::from_utf8_lossy(&letters).into_owned();
                    ty.known.insert(letters, Some(number));
                }
            }
        }
        // numbers rise as the letters do
        ty.known.keys().cloned().collect()
    }

    /// The number of a setting.
    fn of(&mut self, rules: &Rules, ty: usize, letters: &str) -> Option<u32> {
        if rules.endless(ty) {
            return None;
        }
        let (desk, ty) = self.ty(rules, ty);
        if let Some(number) = ty.known.get(letters) {
            return *number;
        }
        let number = desk.number_of(&ty.file, ty.place, letters.as_bytes()).ok();
        ty.known.insert(letters.to_string(), number);
        number
    }
}

/// From and to of an iso, one way.
fn ends(iso: &Iso, direction: Direction) -> (usize, usize) {
    match direction {
        Direction::Forward => (iso.from, iso.to),
        Direction::Back => (iso.to, iso.from),
    }
}

/// Settings of a type from the first to the last or, where they are without end, with lists of different lengths.
fn spread(rules: &Rules, ty: usize) -> Vec<Vec<u8>> {
    if rules.endless(ty) {
        let parts = (0..BETWEEN + 2).map(|place| (place, BETWEEN + 2));
        return parts.map(|part| settings::at(rules, ty, part)).collect();
    }
    let count = rules.settings.get(ty).copied().unwrap_or(1).max(1);
    let between = (1..=BETWEEN).map(|place| count * place / (BETWEEN + 1));
    let numbers = [0, count - 1].into_iter().chain(between);
    let numbered = numbers.map(|number| settings::of_number(rules, ty, number));
    numbered.collect()
}

/// A sample of the settings that an iso takes, one way: the first and the last, one a clause, some between; in the
/// order of their numbers, and the shortest first where they have none.
fn sample(rules: &Rules, iso: &Iso, direction: Direction) -> Vec<String> {
    let (from, _) = ends(iso, direction);
    let clauses = iso.clauses.len() as u128;
    // of each clause another part of the way
    let of_clauses = (1..).zip(&iso.clauses).filter_map(|(place, clause)| {
        let pattern = match direction {
            Direction::Forward => clause.left,
            Direction::Back => clause.right,
        };
        settings::matched_at(rules, pattern, from, (place, clauses + 1))
    });
    let letters: BTreeSet<Vec<u8>> = spread(rules, from).into_iter().chain(of_clauses).collect();
    let short = letters.into_iter();
    let mut short: Vec<Vec<u8>> = short.filter(|one| one.len() <= MOST_LETTERS).collect();
    if rules.endless(from) {
        short.sort_by_key(Vec::len);
    }
    let text = short.iter().map(|letters| String::from_utf8_lossy(letters));
    text.map(|text| text.into_owned()).collect()
}

/// What an iso of an accepted file makes of its settings, one way: of all of them or, where they are too many, of a
/// sample.
pub fn conversions(
    desk: &mut Desk,
    numbers: &mut Numbers,
    (file, rules): (&[u8], &Rules),
    place: usize,
    direction: Direction,
) -> Option<Conversions> {
    let iso = rules.isos.get(place)?;
    let (from, to) = ends(iso, direction);
    let all = *rules.settings.get(from)? <= MOST && !rules.endless(to);
    let given = match all {
        true => {
            numbers.list(rules, to);
            numbers.list(rules, from)
        }
        false => sample(rules, iso, direction),
    };
    let asked = given.iter().map(String::as_bytes);
    let queries = asked.map(|letters| Query::new(place as u32, direction, BUDGET, letters));
    let answers = desk.sheet_of(file, &queries.collect::<Vec<_>>()).ok()?;
    let mut rows = Vec::new();
    for (letters, answer) in given.into_iter().zip(answers) {
        let to = match answer {
            Ok(value) => {
                let letters = String::from_utf8_lossy(&value.letters).into_owned();
                let number = numbers.of(rules, to, &letters);
                Ok((Setting { number, letters }, value.count))
            }
            Err(Refusal::Spent) => Err("too many steps for a list"),
            Err(Refusal::TooLarge) => Err("refused with 24, too large"),
            // no setting of the iso's; the library has the last word
            Err(_) => continue,
        };
        let number = numbers.of(rules, from, &letters);
        let from = Setting { number, letters };
        rows.push(Conversion { from, to });
    }
    let endless = rules.endless(from);
    Some(Conversions { all, endless, rows })
}
