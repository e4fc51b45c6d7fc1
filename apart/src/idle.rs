//! Request 11: T and P lines that nothing uses.

use crate::lines::Row;

/// The T and P lines that a line names, by their letter and number.
pub fn names(row: &Row) -> Vec<(u8, u16)> {
    let [x, y, z] = row.fields;
    match (row.letter, x) {
        (b'T', 1) | (b'T', 2) => vec![(b'T', y), (b'T', z)],
        (b'T', 3) => vec![(b'T', y)],
        (b'P', 2) | (b'P', 3) => vec![(b'P', y)],
        (b'P', 4) | (b'P', 6) => vec![(b'P', y), (b'P', z)],
        (b'I', _) => vec![(b'T', x), (b'T', y)],
        (b'C', _) => vec![(b'P', x), (b'P', y)],
        (b'L', _) => vec![(b'P', x), (b'P', z)],
        _ => Vec::new(),
    }
}

/// "A T or P line reached from no I, C or L line": the first, counted from 1.
pub fn first(rows: &[Row]) -> Option<usize> {
    all(rows).first().copied()
}

/// The last of them.
pub fn last(rows: &[Row]) -> Option<usize> {
    all(rows).last().copied()
}

/// All of them. What is reached is gathered from the I, C and L lines on, until
/// nothing new comes.
fn all(rows: &[Row]) -> Vec<usize> {
    let place = |(letter, number): (u8, u16)| {
        let mut places = (0..rows.len()).filter(|at| rows[*at].letter == letter);
        places.nth(usize::from(number))
    };
    let mut reached = vec![false; rows.len()];
    let mut ahead: Vec<usize> = (0..rows.len())
        .filter(|at| b"ICL".contains(&rows[*at].letter))
        .collect();
    while let Some(at) = ahead.pop() {
        if !reached[at] {
            reached[at] = true;
            ahead.extend(names(&rows[at]).into_iter().filter_map(place));
        }
    }
    let idle = (0..rows.len()).filter(|at| !reached[*at]);
    idle.map(|at| at + 1).collect()
}
