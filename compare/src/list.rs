//! Lists of query lines for sheets.

use crate::case::Case;
use apart::areas::Known;
use apart::generate::query;
use apart::generate::random::Random;
use apart::lines::split;
use apart::sheet::QUERIES;
use apart::{check, Rules};

/// The bytes that begin a run of one application.
const HEAD: &[u8] = b"Q,0,0,1,";

/// A list for a file, made of the queries that go to the desk program too.
pub fn make(random: &mut Random, case: Case, known: &Known, own: &[u8]) -> Vec<u8> {
    let mut lines: Vec<Vec<u8>> = split(own).into_iter().map(whole).collect();
    if lines.is_empty() {
        lines = others(random, known);
    }
    if random.chance(30) {
        for _ in 0..1 + random.below(3) {
            let line = odd(random, &lines);
            lines.insert(random.below(lines.len() + 1), line);
        }
    }
    match (case, random.below(200)) {
        (Case::Full(over), _) => lines = many(random, &lines, QUERIES + usize::from(over)),
        (Case::Long, _) => {}
        (_, 0) => lines = many(random, &lines, QUERIES),
        (_, 1) => lines = many(random, &lines, QUERIES + 1),
        (_, 2..=9) => lines.clear(),
        (_, 10..=59) => random.shuffle(&mut lines),
        _ => {}
    }
    let cut = random.chance(10) || own.last().is_some_and(|byte| *byte != b'\n');
    // Without its line feed an empty line would be none.
    if let Some(line) = lines.last_mut().filter(|line| cut && line.len() > 1) {
        line.pop();
    }
    lines.concat()
}

/// A line with its line feed.
fn whole(line: &[u8]) -> Vec<u8> {
    match line.strip_suffix(b"\n") {
        Some(_) => line.to_vec(),
        None => [line, b"\n"].concat(),
    }
}

/// Queries for a file that the desk program has none for.
fn others(random: &mut Random, known: &Known) -> Vec<Vec<u8>> {
    let none = check(b"");
    let rules: &Rules = match (&known.checked, &none) {
        (Ok(rules), _) | (_, Ok(rules)) => rules,
        _ => unreachable!("the empty file is accepted"),
    };
    let mut lines = vec![b"Q,0,0,9,LU\n".to_vec()];
    lines.extend((0..random.below(8)).map(|_| query::query(random, rules)));
    lines
}

/// A line that the desk program is seldom given.
fn odd(random: &mut Random, lines: &[Vec<u8>]) -> Vec<u8> {
    let mut line = match random.below(6) {
        0 => return b"\n".to_vec(),
        1 => return marked(random, lines),
        2 => letters(random),
        3 => b"T,0,0,0".to_vec(),
        4 => (0..random.below(40))
            .map(|_| random.number() as u8)
            .collect(),
        _ => [HEAD, b"L\0\xffU"].concat(),
    };
    line.retain(|byte| *byte != b'\n');
    if random.chance(40) {
        line.push(b'\r');
    }
    whole(&line)
}

/// One of the lines, a byte before its line feed made 0 or 255. Neither is
/// a digit, so no iso and no budget becomes another.
fn marked(random: &mut Random, lines: &[Vec<u8>]) -> Vec<u8> {
    let mut line = random.pick(lines).clone();
    if line.len() > 1 {
        let place = random.below(line.len() - 1);
        line[place] = *random.pick(&[0, 255]);
    }
    line
}

/// A query of about 200 bytes with its line feed, or of far more.
fn letters(random: &mut Random) -> Vec<u8> {
    let near = 198 + random.below(5);
    let length = *random.pick(&[near, near, near, 256, 65_536 + near]);
    let letters = (HEAD.len()..length - 1).map(|_| *random.pick(b"ULRP,"));
    HEAD.iter().copied().chain(letters).collect()
}

/// So many of the lines, some more than once.
fn many(random: &mut Random, lines: &[Vec<u8>], count: usize) -> Vec<Vec<u8>> {
    (0..count).map(|_| random.pick(lines).clone()).collect()
}
