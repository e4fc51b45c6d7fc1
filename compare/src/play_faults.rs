//! Plays with one fault and with two: which of the two is given, wherever they
//! stand, and what is given when either is mended.

use crate::areas::Kind;
use crate::calls::{too_short, Calls};
use crate::faults::{absent, refused};
use crate::grid::Grid;
use crate::play::{good, input, Play};
use crate::service::Services;
use crate::tally::Tally;
use apart::areas::Known;
use apart::check;
use apart::generate::counted::{self, COUNTS};
use apart::generate::played::{bad_lines, lines};
use apart::generate::random::Random;
use apart::numbering::{values, VALUES};
use apart::units::{LINES, UNITS};
use apart::Rules;

/// What may be wrong with a play, in the order of the refusals.
#[derive(Debug, Clone, Copy, PartialEq, Eq, PartialOrd, Ord)]
pub enum Fault {
    ShortArea,
    /// Over 1,000 units or 4,096 lines.
    TooLong,
    RefusedFile,
    /// A unit with an absent T line.
    Absent,
    /// A unit whose type cannot be numbered.
    TooMany,
    /// A unit whose number is not below the count.
    TooHigh,
    BadScript,
}

use Fault::*;

const FAULTS: [Fault; 7] = [
    ShortArea,
    TooLong,
    RefusedFile,
    Absent,
    TooMany,
    TooHigh,
    BadScript,
];

/// Columns: both faults, both with their places exchanged, both on one unit, the
/// first alone, the second alone.
const COLUMNS: &[&str] = &["both", "exchanged", "one unit", "first", "second"];
const EXCHANGED: usize = 1;
const ONE_UNIT: usize = 2;

/// All pairs of faults, the one with the lower place in the order first.
pub fn pairs() -> Vec<[Fault; 2]> {
    let pair = |one: Fault| FAULTS.map(|other| [one, other]);
    let mut pairs: Vec<[Fault; 2]> = FAULTS.into_iter().flat_map(pair).collect();
    pairs.retain(|[one, other]| one < other);
    pairs
}

/// A fault of a unit.
fn of_unit(fault: Fault) -> bool {
    matches!(fault, Absent | TooMany | TooHigh)
}

/// Two faults of units can stand on one where the number is one of them.
fn on_one_unit(pair: [Fault; 2]) -> bool {
    of_unit(pair[0]) && pair[1] == TooHigh
}

fn number(fault: Fault) -> &'static str {
    match fault {
        ShortArea => "1",
        TooLong => "2",
        RefusedFile => "3 to 14, 21",
        Absent => "15",
        TooMany => "18",
        TooHigh => "19",
        BadScript => "22",
    }
}

pub fn grid() -> Grid {
    let name = |[one, other]: [Fault; 2]| format!("{}, {}", number(one), number(other));
    let rows = pairs().into_iter().map(name).collect();
    let needed = |row: usize, column| column != ONE_UNIT || on_one_unit(pairs()[row]);
    Grid::new("faults of a play", rows, COLUMNS, needed)
}

/// A file with a T line that cannot be numbered and with others that can.
fn base(random: &mut Random) -> (Vec<u8>, Rules) {
    let many: Vec<usize> = (0..COUNTS.len())
        .filter(|place| COUNTS[*place].0 > VALUES)
        .collect();
    loop {
        let place = *random.pick(&many);
        let file = counted::file(random, place);
        if let Ok(rules) = check(&file) {
            if !lines(&rules, true).is_empty() {
                return (file, rules);
            }
        }
    }
}

/// Faults of a play, and where they stand.
struct Faults<'a> {
    all: &'a [Fault],
    /// Each stands where the other one would.
    exchanged: bool,
    one_unit: bool,
}

impl Faults<'_> {
    fn has(&self, fault: Fault) -> bool {
        self.all.contains(&fault)
    }

    /// The file: refused on a line behind all others, or on the first.
    fn file(&self, random: &mut Random, file: &[u8]) -> Vec<u8> {
        if !self.has(RefusedFile) {
            return file.to_vec();
        }
        if self.exchanged {
            let line = *random.pick(&["x\n", "T,1,0,0\n", "T,0,1,0\n", "L,0,0,0\n"]);
            return [line.as_bytes(), file].concat();
        }
        refused(random, file)
    }

    /// Units, script and budget.
    fn play(&self, random: &mut Random, rules: &Rules) -> Play {
        let count = 2 + random.below(6);
        let visits = 1 + random.below(6);
        let mut play = good(random, rules, count, visits);
        self.spoil_units(random, rules, &mut play);
        if self.has(BadScript) {
            let bad = bad_lines(count, rules.isos.len());
            let bad = random.pick(&bad).bytes();
            let at = if self.exchanged { 0 } else { play.script.len() };
            play.script.splice(at..at, bad);
        }
        if self.has(TooLong) {
            self.lengthen(&mut play);
        }
        play
    }

    /// The first fault of a unit stands on an earlier one than the second.
    fn spoil_units(&self, random: &mut Random, rules: &Rules, play: &mut Play) {
        let first = random.below(play.types.len() - 1);
        let second = first + 1 + random.below(play.types.len() - first - 1);
        let mut places = [first, second];
        if self.exchanged {
            places.reverse();
        }
        if self.one_unit {
            places = [first; 2];
        }
        let faults = self.all.iter().filter(|fault| of_unit(**fault));
        for (fault, unit) in faults.zip(places) {
            let ty = play.types[unit];
            match fault {
                Absent => play.types[unit] = absent(random, rules.types.len() as u32, ty),
                TooMany => play.types[unit] = *random.pick(&lines(rules, false)),
                _ => {
                    let count = rules.types.get(ty as usize).map_or(1, |ty| values(ty));
                    let high =
                        [count, count.saturating_add(1), VALUES].map(|number| number.min(VALUES));
                    play.settings[unit] = *random.pick(&high) as u32;
                }
            }
        }
    }

    /// One unit too many, or one line, in front of all others.
    fn lengthen(&self, play: &mut Play) {
        if self.exchanged {
            let lines = play.script.split_inclusive(|byte| *byte == b'\n').count();
            let more = b"S,0,0,0\n".repeat(LINES + 1 - lines);
            play.script.splice(0..0, more);
        } else {
            play.types.resize(UNITS + 1, 0);
            play.settings.resize(UNITS + 1, 0);
        }
    }

    /// A short table or work area, or units of unequal length.
    fn shorten(&self, random: &mut Random, play: &mut Play) -> [Kind; 2] {
        let mut kinds = [Kind::Exact, Kind::Longer];
        random.shuffle(&mut kinds);
        if !self.has(ShortArea) {
            return kinds;
        }
        if self.exchanged {
            let less = 1 + random.below(play.types.len());
            let area = if random.chance(50) {
                &mut play.types
            } else {
                &mut play.settings
            };
            area.truncate(area.len() - less);
        } else {
            kinds[random.below(2)] = too_short(random);
        }
        kinds
    }

    /// The number that such a play has to be given: of two faults of units the
    /// one on the earlier unit.
    fn wanted(&self, known: &Known) -> u32 {
        let both = self.all.iter().all(|fault| of_unit(*fault));
        let later = both && self.exchanged && self.all.len() == 2;
        match (self.all[usize::from(later)], &known.checked) {
            (ShortArea, _) => 1,
            (TooLong, _) => 2,
            (RefusedFile, Err(refusal)) if refusal.number > 2 => refusal.number.into(),
            (RefusedFile, _) => unreachable!("the file is made to be refused"),
            (Absent, _) => 15,
            (TooMany, _) => 18,
            (TooHigh, _) => 19,
            (BadScript, _) => 22,
        }
    }
}

impl<S: Services> Calls<S> {
    /// All pairs of faults, in both orders and each alone.
    pub fn play_faults(&mut self, random: &mut Random, tally: &mut Tally) {
        let (file, rules) = base(random);
        for (row, pair) in pairs().into_iter().enumerate() {
            let alone = random.chance(50);
            for (column, all, exchanged) in [
                (0, &pair[..], false),
                (EXCHANGED, &pair, true),
                (ONE_UNIT, &pair, false),
                (3, &pair[..1], alone),
                (4, &pair[1..], alone),
            ] {
                let one_unit = column == ONE_UNIT;
                if one_unit && !on_one_unit(pair) {
                    continue;
                }
                let faults = Faults {
                    all,
                    exchanged,
                    one_unit,
                };
                self.faulty_play(random, tally, (&file, &rules), &faults);
                tally.plays.faults.hit(row, column);
            }
        }
    }

    /// One play with these faults, held to the number that it has to be given.
    fn faulty_play(
        &mut self,
        random: &mut Random,
        tally: &mut Tally,
        (file, rules): (&[u8], &Rules),
        faults: &Faults,
    ) {
        let file = faults.file(random, file);
        let mut play = faults.play(random, rules);
        let kinds = faults.shorten(random, &mut play);
        let known = Known::of(&file);
        let played = self.play(random, tally, &known, &play, kinds);
        let wanted = faults.wanted(&known);
        if played.number != wanted {
            let all = faults.all;
            let given = (played.number, played.line);
            let text = format!("{all:?} have to give {wanted}, there {given:?}");
            tally.mismatch(text, input(&file, &play));
        }
    }
}
