//! Damaged bytes and noise.

use super::accepted;
use super::random::Random;
use crate::lines::split;

/// An accepted file with some bytes or lines damaged.
pub fn damaged(random: &mut Random) -> Vec<u8> {
    let mut file = accepted(random);
    for _ in 0..1 + random.below(3) {
        damage(random, &mut file);
    }
    file
}

/// One byte or line damaged.
pub fn damage(random: &mut Random, file: &mut Vec<u8>) {
    if file.is_empty() {
        file.push(b'T');
    }
    let place = random.below(file.len());
    match random.below(10) {
        0 => file[place] ^= 1 << random.below(8),
        1 => file[place] = byte(random),
        2 => file.insert(place, byte(random)),
        3 => {
            file.remove(place);
        }
        4 => file.truncate(place),
        5 => {
            file.drain(..place);
        }
        _ => *file = lines_damaged(random, file),
    }
}

/// A byte that a file could hold, or any byte.
fn byte(random: &mut Random) -> u8 {
    if random.chance(75) {
        *random.pick(b"TPICLQ,0123456789\r\n")
    } else {
        random.below(256) as u8
    }
}

/// Two lines swapped, one dropped, doubled or moved, or a part of a line
/// copied over another.
fn lines_damaged(random: &mut Random, file: &[u8]) -> Vec<u8> {
    let mut lines: Vec<Vec<u8>> = split(file).into_iter().map(<[u8]>::to_vec).collect();
    let (a, b) = (random.below(lines.len()), random.below(lines.len()));
    match random.below(5) {
        0 => lines.swap(a, b),
        1 => {
            lines.remove(a);
        }
        2 => lines.insert(b, lines[a].clone()),
        3 => {
            let line = lines.remove(a);
            lines.insert(b.min(lines.len()), line);
        }
        _ => lines[a] = lines[b].clone(),
    }
    lines.concat()
}

/// Random bytes, mostly such as files are made of.
pub fn noise(random: &mut Random) -> Vec<u8> {
    let length = random.below(200);
    if random.chance(30) {
        return (0..length).map(|_| random.below(256) as u8).collect();
    }
    if random.chance(50) {
        return (0..length)
            .map(|_| *random.pick(b"TPICLQ,,,,0123\r\n\n"))
            .collect();
    }
    let mut text = String::new();
    for _ in 0..length / 10 {
        let (letter, count) = *random.pick(&[('T', 3), ('P', 3), ('I', 2), ('C', 2), ('L', 3)]);
        text.push(letter);
        for _ in 0..count {
            text += &format!(",{}", random.below(4));
        }
        text.push('\n');
    }
    text.into_bytes()
}
