//! Calls of settings as numbers with one fault and with two: which of the two
//! is given, and what is given when either is mended.

use crate::calls::{fit, input, too_short, Calls};
use crate::grid::Grid;
use crate::service::{Call, Services};
use crate::tally::Tally;
use apart::areas::Known;
use apart::generate::counted::{self, COUNTS};
use apart::generate::query::sample;
use apart::generate::random::Random;
use apart::lines::split;
use apart::numbering::{values, VALUES};
use apart::{check, Rules};

/// What may be wrong with a call, in the order of the refusals: 1, 2, 3 to 14
/// and 21, 15, 18, and 16 or 19.
#[derive(Debug, Clone, Copy, PartialEq, Eq, PartialOrd, Ord)]
pub enum Fault {
    ShortArea,
    LongFile,
    RefusedFile,
    AbsentLine,
    TooMany,
    /// Letters that are no setting, or a number that is too high.
    Last,
}

use Fault::*;

const FAULTS: [Fault; 6] = [ShortArea, LongFile, RefusedFile, AbsentLine, TooMany, Last];

/// Columns: both faults, the first alone, the second alone.
const COLUMNS: &[&str] = &["both", "first", "second"];

/// All pairs of faults, the one that is given first. Those of the file itself
/// are Check's.
pub fn pairs() -> Vec<[Fault; 2]> {
    let pair = |one: Fault| FAULTS.map(|other| [one, other]);
    let mut pairs: Vec<[Fault; 2]> = FAULTS.into_iter().flat_map(pair).collect();
    pairs.retain(|[one, other]| one < other && [*one, *other] != [LongFile, RefusedFile]);
    pairs
}

/// The number of a fault; that of the last one depends on the way.
fn number(fault: Fault, last: &str) -> &str {
    match fault {
        ShortArea => "1",
        LongFile => "2",
        RefusedFile => "3 to 14, 21",
        AbsentLine => "15",
        TooMany => "18",
        Last => last,
    }
}

/// A row for each pair and either way.
pub fn grid() -> Grid {
    let mut rows = Vec::new();
    for [one, other] in pairs() {
        for (way, last) in [("number", "16"), ("letters", "19")] {
            let [one, other] = [one, other].map(|fault| number(fault, last));
            rows.push(format!("to {way}: {one}, {other}"));
        }
    }
    Grid::new("two faults of a call", rows, COLUMNS, |_, _| true)
}

/// A T line with what can be asked of it, right and wrong.
struct Line {
    place: u32,
    letters: Vec<u8>,
    wrong_letters: Vec<u8>,
    number: u32,
    wrong_number: u32,
}

/// A file with a type that has too many values and others that have not.
struct Base {
    file: Vec<u8>,
    types: u32,
    good: Line,
    many: Line,
}

impl Line {
    fn new(random: &mut Random, rules: &Rules, place: usize) -> Line {
        let ty = &rules.types[place];
        let count = values(ty);
        let mut letters = Vec::new();
        sample(random, ty, &mut letters);
        let above =
            [count, count.saturating_add(1), VALUES].map(|number| number.min(VALUES) as u32);
        Line {
            place: place as u32,
            wrong_letters: wrong(random, &letters),
            letters,
            number: (random.number() % count.min(VALUES)) as u32,
            wrong_number: *random.pick(&above),
        }
    }
}

impl Base {
    fn new(random: &mut Random) -> Base {
        let places: Vec<usize> = (0..COUNTS.len())
            .filter(|place| COUNTS[*place].0 > VALUES)
            .collect();
        let place = *random.pick(&places);
        let file = counted::file(random, place);
        let Ok(rules) = check(&file) else {
            unreachable!("the file is accepted")
        };
        let lines = 0..rules.types.len();
        let (many, good): (Vec<usize>, Vec<usize>) =
            lines.partition(|place| values(&rules.types[*place]) > VALUES);
        let (good, many) = (*random.pick(&good), *random.pick(&many));
        Base {
            good: Line::new(random, &rules, good),
            many: Line::new(random, &rules, many),
            types: rules.types.len() as u32,
            file,
        }
    }
}

/// Letters that are no setting of any type that the given ones are one of:
/// fewer, more, or another letter.
fn wrong(random: &mut Random, letters: &[u8]) -> Vec<u8> {
    let mut wrong = letters.to_vec();
    let place = random.below(letters.len());
    match random.below(4) {
        0 => wrong.clear(),
        1 => wrong.truncate(place),
        2 => wrong.push(*random.pick(b"ULRP\0")),
        _ => wrong[place] = wrong[place].to_ascii_lowercase(),
    }
    wrong
}

/// The file with lines behind its own that make it too long.
pub fn lengthened(random: &mut Random, file: &[u8]) -> Vec<u8> {
    let lines = [vec![b'\n'; 4_096], vec![b'T'; 65_536]];
    [file, &random.pick(&lines)[..]].concat()
}

/// The file with a line that makes it refused, behind all others or, where it is
/// an idle one, behind the T lines.
pub fn refused(random: &mut Random, file: &[u8]) -> Vec<u8> {
    let lines = ["x\n", "T,0,0,0\n", "I,0,0\n", "P"];
    if random.chance(75) {
        return [file, random.pick(&lines).as_bytes()].concat();
    }
    let types = split(file).into_iter().take_while(|line| line[0] == b'T');
    let (above, below) = file.split_at(types.map(|line| line.len()).sum());
    [above, b"T,0,0,0\n", below].concat()
}

/// The number of a T line that the file has not; all but the first would be one
/// with fewer bits.
pub fn absent(random: &mut Random, types: u32, near: u32) -> u32 {
    let far = [near + 256, near + 65_536, near + (1 << 31)];
    *random.pick(&[types, far[0], far[1], far[2], u32::MAX])
}

/// The number that a call with these faults has to be given.
fn wanted(known: &Known, faults: &[Fault], to_number: bool) -> u32 {
    match faults[0] {
        ShortArea => 1,
        LongFile => 2,
        RefusedFile => match &known.checked {
            Err(refusal) if refusal.number > 2 => refusal.number.into(),
            _ => unreachable!("the file is made to be refused"),
        },
        AbsentLine => 15,
        TooMany => 18,
        Last if to_number => 16,
        Last => 19,
    }
}

impl<S: Services> Calls<S> {
    /// All pairs of faults, each on a file of its own, both ways.
    pub fn faults(&mut self, random: &mut Random, tally: &mut Tally) {
        for (place, pair) in pairs().into_iter().enumerate() {
            let base = Base::new(random);
            for to_number in [true, false] {
                let row = 2 * place + usize::from(!to_number);
                for (column, faults) in [&pair[..], &pair[..1], &pair[1..]].into_iter().enumerate()
                {
                    self.faulty(random, tally, &base, faults, to_number);
                    tally.settings.faults.hit(row, column);
                }
            }
        }
    }

    /// One call with these faults, held to the number that it has to be given.
    fn faulty(
        &mut self,
        random: &mut Random,
        tally: &mut Tally,
        base: &Base,
        faults: &[Fault],
        to_number: bool,
    ) {
        let has = |fault| faults.contains(&fault);
        let file = match (has(LongFile), has(RefusedFile)) {
            (true, _) => lengthened(random, &base.file),
            (_, true) => refused(random, &base.file),
            _ => base.file.clone(),
        };
        let line = if has(TooMany) { &base.many } else { &base.good };
        let ty = if has(AbsentLine) {
            absent(random, base.types, line.place)
        } else {
            line.place
        };
        let call = match (to_number, has(Last)) {
            (true, false) => Call::NumberOf(ty, &line.letters),
            (true, true) => Call::NumberOf(ty, &line.wrong_letters),
            (false, false) => Call::SettingOf(ty, line.number),
            (false, true) => Call::SettingOf(ty, line.wrong_number),
        };
        let mut kinds = fit(random);
        if has(ShortArea) {
            kinds[random.below(call.areas())] = too_short(random);
        }
        let known = Known::of(&file);
        let answer = self.call(random, tally, &known, call, kinds);
        let wanted = wanted(&known, faults, to_number);
        if answer.number != wanted {
            let text = format!("{faults:?} have to give {wanted}, there {answer:?}");
            tally.mismatch(text, input(&file, call));
        }
    }
}
