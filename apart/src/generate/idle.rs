//! Request 11: idle lines taken out, and files refused for them.

use super::accepted;
use super::draft::Draft;
use super::random::Random;
use crate::idle;
use crate::lines::read_with;

/// The places of the fields that name T lines, and of those that name P lines.
fn naming(letter: u8, kind: u32) -> (&'static [usize], &'static [usize]) {
    match (letter, kind) {
        (b'T', 1 | 2) => (&[1, 2], &[]),
        (b'T', 3) => (&[1], &[]),
        (b'P', 2 | 3) => (&[], &[1]),
        (b'P', 4 | 6) => (&[], &[1, 2]),
        (b'I', _) => (&[0, 1], &[]),
        (b'C', _) => (&[], &[0, 1]),
        (b'L', _) => (&[], &[0, 2]),
        _ => (&[], &[]),
    }
}

/// Moves all names of T lines, or of P lines, from a number on.
fn moved(draft: &mut Draft, letter: u8, from: u32, by: i64) {
    for (own, fields) in &mut draft.0 {
        let (types, patterns) = naming(*own, fields[0]);
        for place in if letter == b'T' { types } else { patterns } {
            let field = &mut fields[*place];
            if *field >= from {
                *field = (i64::from(*field) + by) as u32;
            }
        }
    }
}

/// The file without its idle lines; a file that is refused with 2 to 7 as it
/// is.
pub fn pruned(file: &[u8], lists: bool) -> Vec<u8> {
    let Ok(reader) = read_with(file, lists) else {
        return file.to_vec();
    };
    let mut rows = reader.rows;
    if idle::first(&rows).is_none() {
        return file.to_vec();
    }
    let mut draft = Draft::of(file);
    while let Some(line) = idle::last(&rows) {
        let letter = rows[line - 1].letter;
        let above = rows[..line - 1].iter().filter(|row| row.letter == letter);
        let number = above.count() as u32;
        draft.0.remove(line - 1);
        moved(&mut draft, letter, number + 1, -1);
        let Ok(reader) = read_with(&draft.bytes(), lists) else {
            return file.to_vec();
        };
        rows = reader.rows;
    }
    draft.bytes()
}

/// Where the idle lines of a file stand.
#[derive(Debug, Clone, Copy, PartialEq, Eq)]
pub enum Idle {
    /// The first line of the file.
    First,
    /// The last P line, named by no line.
    Last,
    /// T lines that only idle lines name.
    Types,
    /// P lines that only idle lines name.
    Patterns,
    /// The file has no iso.
    All,
}

pub const IDLES: [Idle; 5] = [
    Idle::First,
    Idle::Last,
    Idle::Types,
    Idle::Patterns,
    Idle::All,
];

/// A file that is accepted but for its idle lines, and the first of them.
pub fn file(random: &mut Random, form: Idle) -> (Vec<u8>, usize) {
    loop {
        let mut draft = Draft::of(&accepted(random));
        let (types, patterns) = (draft.count(b'T'), draft.count(b'P'));
        if types > 250 || patterns > 1_000 || draft.0.len() > 4_000 {
            continue;
        }
        let line = match form {
            Idle::First => {
                moved(&mut draft, b'T', 0, 1);
                draft.0.insert(0, (b'T', vec![0, 0, 0]));
                1
            }
            Idle::Last => {
                draft.add(b'P', [1, random.below(32) as u32, 0]);
                types + patterns + 1
            }
            Idle::Types => {
                let one = draft.add(b'T', [0, 0, 0]);
                let two = draft.add(b'T', [1 + random.below(2) as u32, one, one]);
                draft.add(b'T', [1 + random.below(2) as u32, one, two]);
                types + 1
            }
            Idle::Patterns => {
                let one = draft.add(b'P', [0, 0, 0]);
                let two = draft.add(b'P', [2 + random.below(2) as u32, one, 0]);
                draft.add(b'P', [4, one, two]);
                types + patterns + 1
            }
            Idle::All => {
                draft.0.retain(|row| b"TP".contains(&row.0));
                1
            }
        };
        return (draft.bytes(), line);
    }
}
