//! Closed values of a type, as the command reads its lines: the one of a number, and one that a pattern matches. What a
//! value is worth is the library's to say.

use crate::rules::Rules;

/// The most letters of a setting that a run takes or gives. What is made for a sample has hardly more.
pub const MOST_LETTERS: usize = 127;

/// The most elements of a list that is made of a number.
const MOST_ELEMENTS: usize = 40;

/// The letters of the setting of a type that has this number; the last one where there are fewer. A type that holds a
/// list has no numbers; there each number stands for some setting, and 0 for the first.
pub fn of_number(rules: &Rules, ty: usize, number: u128) -> Vec<u8> {
    let mut letters = Vec::new();
    write(rules, ty, number, &mut letters);
    letters
}

fn write(rules: &Rules, ty: usize, number: u128, letters: &mut Vec<u8>) {
    let (row, count) = (rules.types[ty], |place: usize| rules.settings[place].max(1));
    match row.kind {
        1 if number < count(row.a) => {
            letters.push(b'L');
            write(rules, row.a, number, letters);
        }
        1 => {
            letters.push(b'R');
            write(rules, row.b, number - count(row.a), letters);
        }
        2 => {
            letters.push(b'P');
            write(rules, row.a, number / count(row.b), letters);
            write(rules, row.b, number % count(row.b), letters);
        }
        3 => list(rules, row.a, number, letters),
        _ => letters.push(b'U'),
    }
}

/// A list of elements of a type, the first being the last digit of a number.
fn list(rules: &Rules, ty: usize, number: u128, letters: &mut Vec<u8>) {
    let (mut rest, mut elements) = (number, 0);
    while rest > 0 && elements < MOST_ELEMENTS && letters.len() <= MOST_LETTERS {
        let count = rules.settings[ty].max(1);
        letters.push(b'K');
        write(rules, ty, (rest - 1) % count, letters);
        (rest, elements) = ((rest - 1) / count, elements + 1);
    }
    letters.push(b'N');
}

/// The letters of the setting of a type that is this part of the way from the first to the last; of a type that holds
/// a list one with lists of none to three elements, these spread alike.
pub fn at(rules: &Rules, ty: usize, part: Part) -> Vec<u8> {
    let mut letters = Vec::new();
    write_at(rules, ty, part, &mut letters);
    letters
}

fn write_at(rules: &Rules, ty: usize, part: Part, letters: &mut Vec<u8>) {
    let row = rules.types[ty];
    if !rules.endless(ty) {
        return write(rules, ty, rules.settings[ty] * part.0 / part.1, letters);
    }
    match (row.kind, part.0 % 2) {
        (1, 0) => {
            letters.push(b'L');
            write_at(rules, row.a, part, letters);
        }
        (1, _) => {
            letters.push(b'R');
            write_at(rules, row.b, part, letters);
        }
        (2, _) => {
            letters.push(b'P');
            write_at(rules, row.a, part, letters);
            write_at(rules, row.b, part, letters);
        }
        _ => {
            for place in 0..part.0 % 4 {
                // lists of lists would soon be longer than any that is run
                if letters.len() <= MOST_LETTERS {
                    letters.push(b'K');
                    let other = (part.0 + 1 + place) % part.1;
                    write_at(rules, row.a, (other, part.1), letters);
                }
            }
            letters.push(b'N');
        }
    }
}

/// The first setting of a type that a pattern matches: its variables stand for the first setting of their types.
pub fn matched(rules: &Rules, pattern: usize, ty: usize) -> Option<Vec<u8>> {
    matched_at(rules, pattern, ty, (0, 1))
}

/// A part of a whole, both as numbers.
pub type Part = (u128, u128);

/// The setting of a type that a pattern matches whose variables stand for the settings of their types that are this part
/// of the way from the first to the last.
pub fn matched_at(rules: &Rules, pattern: usize, ty: usize, part: Part) -> Option<Vec<u8>> {
    let mut letters = Vec::new();
    fill(rules, (pattern, ty), part, &mut letters)?;
    Some(letters)
}

fn fill(
    rules: &Rules,
    (pattern, ty): (usize, usize),
    part: Part,
    letters: &mut Vec<u8>,
) -> Option<()> {
    let (row, kind) = (rules.patterns[pattern], rules.types[ty]);
    match (row.kind, kind.kind) {
        (1, _) => write_at(rules, ty, part, letters),
        (0, 0) => letters.push(b'U'),
        (2, 1) => {
            letters.push(b'L');
            fill(rules, (row.a, kind.a), part, letters)?;
        }
        (3, 1) => {
            letters.push(b'R');
            fill(rules, (row.a, kind.b), part, letters)?;
        }
        (4, 2) => {
            letters.push(b'P');
            fill(rules, (row.a, kind.a), part, letters)?;
            fill(rules, (row.b, kind.b), part, letters)?;
        }
        (5, 3) => letters.push(b'N'),
        (6, 3) => {
            letters.push(b'K');
            fill(rules, (row.a, kind.a), part, letters)?;
            fill(rules, (row.b, ty), part, letters)?;
        }
        _ => return None,
    }
    Some(())
}
