//! Request 06: lines as the other editor saves them, and carriage returns that
//! are no part of an ending.

use super::ceiling::{self, Ceiling};
use super::random::Random;
use crate::lines::{split, text, BYTES};

/// The desk program reads so many bytes at a time.
pub const CHUNK: usize = 4_096;

/// File S of document 01, which has lines of all five forms.
pub const S: &[u8] = b"T,0,0,0\nT,1,0,0\nT,2,1,1\nP,0,0,0\nP,2,0,0\nP,3,0,0\nP,1,0,0\nP,1,1,0\n\
P,4,1,3\nP,4,1,4\nP,4,2,3\nI,1,1\nC,1,2\nC,2,1\nI,2,2\nC,5,6\nL,4,0,3\nC,7,7\n";

/// The same bytes with other endings: all lines with a carriage return, or
/// none, or some. A text that ends in a carriage return keeps both bytes, since
/// a line feed alone would make that carriage return part of the ending.
pub fn resaved(random: &mut Random, bytes: &[u8]) -> Vec<u8> {
    let share = *random.pick(&[100, 50, 50, 5, 0]);
    let mut saved = Vec::with_capacity(2 * bytes.len());
    for line in split(bytes) {
        let Some(text) = text(line) else {
            saved.extend_from_slice(line);
            continue;
        };
        saved.extend_from_slice(text);
        if text.ends_with(b"\r") || random.chance(share) {
            saved.push(b'\r');
        }
        saved.push(b'\n');
    }
    saved
}

/// The bytes with a carriage return before every line feed.
pub fn all_resaved(bytes: &[u8]) -> Vec<u8> {
    let lines = bytes.split_inclusive(|byte| *byte == b'\n');
    let resaved = lines.map(|line| match line.strip_suffix(b"\n") {
        Some(text) => [text, b"\r\n"].concat(),
        None => line.to_vec(),
    });
    resaved.collect::<Vec<_>>().concat()
}

/// The bytes with a carriage return put in before one of them.
pub fn with_return(bytes: &[u8], place: usize) -> Vec<u8> {
    [&bytes[..place], b"\r", &bytes[place..]].concat()
}

/// What Check gives for file S with a carriage return before one byte: it is
/// accepted where that byte is a line feed.
pub fn answer(place: usize) -> (u8, usize) {
    let feeds = S[..place].iter().filter(|byte| **byte == b'\n').count();
    match S.get(place) {
        Some(b'\n') => (0, 0),
        _ => (3, feeds + 1),
    }
}

/// A file of 65,536 bytes, or one more, whose last line ends with both bytes.
pub fn many_bytes(random: &mut Random, over: bool) -> Vec<u8> {
    let mut file = ceiling::many_bytes(random, over);
    file[BYTES - 2 + usize::from(over)..].copy_from_slice(b"\r\n");
    file
}

/// An accepted file of which a chunk ends between the carriage return of an
/// ending and its line feed.
pub fn across(random: &mut Random) -> Vec<u8> {
    loop {
        let file = ceiling::at(random, Ceiling::Patterns, false);
        if random.check(&file).is_ok() {
            if let Some(saved) = moved_to_border(random, &file) {
                return saved;
            }
        }
    }
}

/// A file with so many carriage returns before one line that the line's own is
/// the last byte of the first chunk.
fn moved_to_border(random: &mut Random, file: &[u8]) -> Option<Vec<u8>> {
    let lines = split(file);
    let mut end = 0;
    let mut places = Vec::new();
    for (line, bytes) in lines.iter().enumerate() {
        end += bytes.len();
        // The line's carriage return would stand where its line feed does now.
        if end <= CHUNK && CHUNK - end <= line {
            places.push((line, CHUNK - end));
        }
    }
    if places.is_empty() {
        return None;
    }
    let (border, count) = *random.pick(&places);
    let mut returns: Vec<bool> = (0..border).map(|line| line < count).collect();
    random.shuffle(&mut returns);
    returns.push(true);
    let mut saved = Vec::with_capacity(2 * file.len());
    for (line, bytes) in lines.iter().enumerate() {
        saved.extend_from_slice(&bytes[..bytes.len() - 1]);
        if returns
            .get(line)
            .copied()
            .unwrap_or_else(|| random.chance(50))
        {
            saved.push(b'\r');
        }
        saved.push(b'\n');
    }
    Some(saved)
}

/// Whether a chunk ends between a carriage return and a line feed that stand in
/// this part of some bytes.
pub fn is_across(bytes: &[u8], from: usize, to: usize) -> bool {
    let borders = (CHUNK..bytes.len()).step_by(CHUNK);
    let mut inside = borders.filter(|border| from < *border && *border < to);
    inside.any(|border| bytes[border - 1..=border] == *b"\r\n")
}
