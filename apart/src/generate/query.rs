//! Queries for an accepted file.

use super::ending::{resaved, with_return};
use super::random::Random;
use crate::tree::Type;
use crate::{run_rules, Rules};

/// Counts above this are not looked for; such runs get budgets up to it.
const LONGEST: u32 = 3_000;
/// The same now and then.
const LONGER: u32 = 140_000;

/// Queries of another form.
const FORMS: [&[u8]; 30] = [
    b"Q",
    b"Q,",
    b"Q,0",
    b"Q,0,0",
    b"Q,0,0,1",
    b"Q,,0,1,LU",
    b"Q,0,,1,LU",
    b"Q,0,0,,LU",
    b"Q,00,0,1,LU",
    b"Q,0,00,1,LU",
    b"Q,0,0,01,LU",
    b"Q,0,2,1,LU",
    b"Q,65536,0,1,LU",
    b"Q,0,0,4294967296,LU",
    b"Q,-1,0,1,LU",
    b"Q,+0,0,1,LU",
    b"Q, 0,0,1,LU",
    b"Q,0,0,1 ,LU",
    b"",
    b"x",
    b"q,0,0,1,LU",
    b"QQ,0,0,1,LU",
    b"Q;0;0;1;LU",
    b"\r",
    b"T,0,0,0",
    b",0,0,1,LU",
    b"Q,0,10,1,LU",
    b"Q,0,0,99999999999999999999,LU",
    b"Q,0,0,1\0,LU",
    b"Q,0,0,1,LU\r\r",
];

/// One query line, most often well formed, with either ending, and now and then
/// with a carriage return at any other place.
pub fn query(random: &mut Random, rules: &Rules) -> Vec<u8> {
    let asked = match random.below(20) {
        0 => malformed(random),
        1 => no_iso(random, rules),
        _ if rules.isos.is_empty() => no_iso(random, rules),
        _ => run_query(random, rules),
    };
    match random.below(80) {
        0..=23 => resaved(random, &asked),
        24..=27 => with_return(&asked, random.below(asked.len())),
        28 => {
            let length = 196 + random.below(5);
            with_return_at(random, length)
        }
        _ => asked,
    }
}

/// A query whose carriage return stands so many bytes behind its beginning, its
/// line feed behind that. With at least 8 and at most 198 it is a good form.
pub fn with_return_at(random: &mut Random, place: usize) -> Vec<u8> {
    let mut line = b"Q,0,0,1,".to_vec();
    while line.len() < place {
        line.push(*random.pick(b"ULRP"));
    }
    line.extend_from_slice(b"\r\n");
    line
}

/// One of the last queries of an input, with its line feed left out.
pub fn cut_query(random: &mut Random, rules: &Rules) -> Vec<u8> {
    let mut line = query(random, rules);
    if line.last() == Some(&b'\n') {
        line.pop();
    }
    line
}

/// A well formed query line.
pub fn line(iso: usize, back: bool, budget: u32, letters: &[u8]) -> Vec<u8> {
    let head = format!("Q,{iso},{},{budget},", u8::from(back)).into_bytes();
    [&head, letters, b"\n"].concat()
}

fn no_iso(random: &mut Random, rules: &Rules) -> Vec<u8> {
    let above = rules.isos.len();
    let near = above + random.below(100);
    let iso = *random.pick(&[above, above + 1, near, 32, 255, 256, 65_535]);
    let budget = *random.pick(&[0, 1, u32::MAX]);
    let letters = *random.pick(&["", "U", "LU", "PUU"]);
    line(
        iso.max(above),
        random.chance(50),
        budget,
        letters.as_bytes(),
    )
}

fn run_query(random: &mut Random, rules: &Rules) -> Vec<u8> {
    let iso = random.below(rules.isos.len());
    let back = random.chance(50);
    let start = if back {
        &rules.isos[iso].to
    } else {
        &rules.isos[iso].from
    };
    let mut letters = Vec::new();
    sample(random, start, &mut letters);
    if random.chance(12) {
        damage(random, &mut letters);
        letters.retain(|letter| *letter != b'\n');
    }
    let budget = budget(random, rules, iso, back, &letters);
    line(iso, back, budget, &letters)
}

/// The letters of a random closed value of the type.
pub fn sample(random: &mut Random, ty: &Type, letters: &mut Vec<u8>) {
    match ty {
        Type::Unit => letters.push(b'U'),
        Type::Sum(a, b) => {
            let right = random.chance(50);
            letters.push(if right { b'R' } else { b'L' });
            sample(random, if right { b } else { a }, letters);
        }
        Type::Product(a, b) => {
            letters.push(b'P');
            sample(random, a, letters);
            sample(random, b, letters);
        }
        Type::List(a) => sample_list(random, a, letters),
    }
}

/// A list of a few elements, now and then of as many as a run takes, or more.
fn sample_list(random: &mut Random, ty: &Type, letters: &mut Vec<u8>) {
    let most = *random.pick(&[0, 1, 2, 3, 3, 5, 12, 45]);
    for _ in 0..random.below(most + 1) {
        if letters.len() > 130 {
            break;
        }
        letters.push(b'K');
        sample(random, ty, letters);
    }
    letters.push(b'N');
}

/// Changes letters, of which there is at least one.
pub fn damage(random: &mut Random, letters: &mut Vec<u8>) {
    let place = random.below(letters.len());
    let letter = match random.lists && random.chance(30) {
        true => *random.pick(b"KNkn"),
        false => *random.pick(b"ULRPULRPlup,0 \r\0\xff"),
    };
    match random.below(7) {
        0 => letters[place] = letter,
        1 => letters.insert(place, letter),
        2 => {
            letters.remove(place);
        }
        3 => letters.truncate(place),
        4 => letters.push(letter),
        5 => letters.extend(letters.clone()),
        _ => {
            let any: &[u8] = if random.lists { b"ULRPKN" } else { b"ULRP" };
            *letters = (0..random.below(150)).map(|_| *random.pick(any)).collect()
        }
    }
}

/// One below, at and one above the count, 0, and the largest; for long runs
/// only such as are soon spent.
fn budget(random: &mut Random, rules: &Rules, iso: usize, back: bool, letters: &[u8]) -> u32 {
    let small = random.below(20) as u32;
    let longest = longest(random);
    match run_rules(rules, iso as u16, back, longest, letters) {
        Ok((count, _)) => {
            let count = count as u32;
            *random.pick(&[count - 1, count, count, count + 1, 0, u32::MAX, small])
        }
        Err(refusal) if refusal.number == 16 => *random.pick(&[0, 1, small, u32::MAX]),
        Err(_) => *random.pick(&[0, 1, small, longest, 256, 255]),
    }
}

/// The highest count that is looked for.
pub fn longest(random: &mut Random) -> u32 {
    if random.chance(8) {
        LONGER
    } else {
        LONGEST
    }
}

/// A query line of another form.
fn malformed(random: &mut Random) -> Vec<u8> {
    let mut line = random.pick(&FORMS).to_vec();
    if random.chance(15) {
        let length = *random.pick(&[189, 190, 191, 192, 193, 500]);
        line = b"Q,0,0,1,".to_vec();
        line.extend((0..length).map(|_| *random.pick(b"ULRP,")));
    }
    line.push(b'\n');
    line
}
