//! What the desk program is given, and runs that it cannot be asked for.

use crate::service::{ask, Ask};
use crate::trip::Trip;
use apart::areas::Known;
use apart::check;
use apart::desk::{parts, query as parsed};
use apart::generate::ending::CHUNK;
use apart::generate::query;
use apart::generate::random::Random;
use apart::lines::split;

/// A file with queries, and how what is printed has to begin.
pub struct Input {
    pub bytes: Vec<u8>,
    pub law: Vec<u8>,
    /// For each budget of the trips its row and column in the tally.
    pub budgets: Vec<(usize, usize)>,
    /// Where the queries begin that no law speaks of.
    others: usize,
}

/// A file with so many queries at least. A refused file now and then has
/// a query too, which nothing may answer.
pub fn make(random: &mut Random, known: &Known, trips: &[Trip], due: usize) -> Input {
    let whole = parts(known.file).0.len() == known.file.len();
    if whole && known.checked.is_ok() {
        return accepted(random, known, trips, due);
    }
    let mut bytes = known.file.to_vec();
    if bytes.last() == Some(&b'\n') {
        match check(parts(&bytes).0) {
            Ok(rules) => bytes.extend(query::query(random, &rules)),
            Err(_) if random.chance(10) => bytes.extend_from_slice(b"Q,0,0,9,LU\n"),
            Err(_) => {}
        }
    }
    let others = bytes.len();
    Input {
        bytes,
        law: Vec::new(),
        budgets: Vec::new(),
        others,
    }
}

/// The steps of the trips, then queries of all sorts. Without a trip the first
/// query may not begin with Q, which makes it a line of the file.
fn accepted(random: &mut Random, known: &Known, trips: &[Trip], due: usize) -> Input {
    let Ok(rules) = &known.checked else {
        unreachable!("only accepted files get here")
    };
    let mut input = if random.chance(95) {
        with_trips(known.file, trips, false)
    } else {
        with_trips(known.file, &[], false)
    };
    let asked = split(&input.bytes[known.file.len()..]).len();
    for number in asked..due {
        let cut = number + 1 == due && random.chance(5);
        let left = CHUNK - input.bytes.len() % CHUNK;
        input.bytes.extend(match left {
            _ if cut => query::cut_query(random, rules),
            // The chunk ends between this query's carriage return and line feed.
            9..=199 if random.chance(20) => query::with_return_at(random, left - 1),
            _ => query::query(random, rules),
        });
    }
    input
}

/// The turned file with the steps of the trips.
pub fn turned(file: &[u8], trips: &[Trip]) -> Input {
    with_trips(file, trips, true)
}

fn with_trips(file: &[u8], trips: &[Trip], turned: bool) -> Input {
    let mut bytes = file.to_vec();
    let mut law = Vec::new();
    let mut budgets = Vec::new();
    if turned || !trips.is_empty() {
        law.extend_from_slice(b"0,0\n");
    }
    for step in trips.iter().flat_map(|trip| trip.steps(turned)) {
        bytes.extend(step.query());
        law.extend(step.printed());
        budgets.push(step.place);
    }
    let others = bytes.len();
    Input {
        bytes,
        law,
        budgets,
        others,
    }
}

impl Input {
    /// The well formed queries that no law speaks of.
    pub fn asks(&self) -> Vec<Ask<'_>> {
        let lines = split(&self.bytes[self.others..]).into_iter();
        lines.filter_map(parsed).map(ask).collect()
    }
}

const LETTERS: [&[u8]; 5] = [b"ULRP", b"LR", b"P", b"UP", b"UL\n\0\xff,"];
const LIST_LETTERS: [&[u8]; 3] = [b"KU", b"KN", b"ULRPKN"];

/// Letters of any length, and bytes that are no letters.
pub fn letters(random: &mut Random) -> Vec<u8> {
    let length = match random.below(20) {
        0 => 60_000 + random.below(20_000),
        1..=4 => 120 + random.below(140),
        _ => random.below(12),
    };
    let letters = match random.lists && random.chance(30) {
        true => *random.pick(&LIST_LETTERS),
        false => *random.pick(&LETTERS),
    };
    (0..length).map(|_| *random.pick(letters)).collect()
}

/// A run with letters of any kind, of an iso that may be far above all. Its
/// budget is small where the iso may be in the file.
pub fn odd<'a>(random: &mut Random, known: &Known, letters: &'a [u8]) -> Ask<'a> {
    let isos = match &known.checked {
        Ok(rules) => rules.isos.len() as u32,
        Err(_) => 1,
    };
    let near = random.below(isos as usize + 1) as u32;
    let iso = *random.pick(&[
        near,
        near,
        near + 256,
        near + 65_536,
        near + (1 << 31),
        u32::MAX,
    ]);
    let budget = if iso < isos {
        *random.pick(&[0, 1, 3, 1_000])
    } else {
        *random.pick(&[0, 1, 65_536, u32::MAX])
    };
    Ask {
        iso,
        back: random.chance(50),
        budget,
        letters,
    }
}
