//! Request 12: plays of scripts on units, what is hit, and the law of the way
//! back.

use crate::areas::{Buffer, Kind, Noise, Shape};
use crate::calls::{too_short, Calls};
use crate::case::Case;
use crate::grid::Grid;
use crate::play_faults;
use crate::service::Services;
use crate::settings::{GIVEN, HERE, SHORT, THERE};
use crate::sizes;
use crate::tally::{file_number, names, Tally, PLAY_AREAS};
use apart::areas::{Known, TABLE, WORK};
use apart::bounds::exact;
use apart::generate::played::{bad_lines, script, turned, units};
use apart::generate::random::Random;
use apart::lines::{split, LISTS};
use apart::recursion::has_lists;
use apart::units::{play_rules, Lent, LINES, UNITS};
use apart::{units, Rules};

/// What is asked: the units, the script and the budget of a visit.
#[derive(Debug, Clone, PartialEq, Eq)]
pub struct Play {
    pub types: Vec<u32>,
    pub settings: Vec<u32>,
    pub script: Vec<u8>,
    pub budget: u32,
}

/// The areas lent for a play. The record stands between two others.
pub struct Board {
    table: Buffer<u16>,
    work: Buffer<u8>,
    types: Buffer<u32>,
    settings: Buffer<u32>,
    tally: [units::Tally; 3],
}

impl Board {
    /// Areas with these units; those made from equal shapes are equal.
    pub fn new(play: &Play, shapes: &[Shape; 4], noise: &Noise) -> Board {
        let [table, work, types, settings] = *shapes;
        let record = |place: usize| units::Tally {
            done: noise.wide[place],
            skipped: noise.wide[place + 1],
            spent: noise.wide[place + 2],
        };
        let mut board = Board {
            table: Buffer::new(),
            work: Buffer::new(),
            types: Buffer::new(),
            settings: Buffer::new(),
            tally: [0, 3, 6].map(record),
        };
        board.table.fill(table, &noise.narrow);
        board.work.fill(work, &noise.bytes);
        board.types.fill(types, &noise.wide);
        board.settings.fill(settings, &noise.wide);
        board.types.lent().copy_from_slice(&play.types);
        board.settings.lent().copy_from_slice(&play.settings);
        board
    }

    pub fn lend(&mut self) -> Lent<'_> {
        Lent {
            table: self.table.lent(),
            work: self.work.lent(),
            types: self.types.lent(),
            settings: self.settings.lent(),
            tally: &mut self.tally[1],
        }
    }

    /// The first element in which the areas differ.
    pub fn difference(&self, other: &Board) -> Option<String> {
        let table = self.table.difference(&other.table, "table");
        let work = table.or_else(|| self.work.difference(&other.work, "work"));
        let types = work.or_else(|| self.types.difference(&other.types, "types"));
        let units = types.or_else(|| self.settings.difference(&other.settings, "settings"));
        let (ours, theirs) = (self.tally, other.tally);
        let record = || format!("records: here {ours:?}, there {theirs:?}");
        units.or_else(|| (ours != theirs).then(record))
    }
}

/// What a play has given and left in the units and the record.
#[derive(Debug, Clone, PartialEq, Eq)]
pub struct Played {
    pub number: u32,
    pub line: usize,
    pub types: Vec<u32>,
    pub settings: Vec<u32>,
    pub tally: units::Tally,
}

/// Rows of the table of plays.
const DONE: usize = 0;
const SKIPPED: usize = 1;
const SPENT: usize = 2;
const ALL_THREE: usize = 3;
const NO_UNITS: usize = 4;
const NO_VISITS: usize = 5;
const ALL_UNITS: usize = 6;
const OVER_UNITS: usize = 7;
const ALL_LINES: usize = 8;
const OVER_LINES: usize = 9;
const UNFED: usize = 10;
const ALL_UNFED: usize = 11;
const OVER_UNFED: usize = 12;
const FEEDS: usize = 13;
const RETURNS: usize = 14;
const SOME_RETURNS: usize = 15;
const LAST_UNIT: usize = 16;
pub const BACK: usize = 17;
pub const OTHER_LINE: usize = 18;
const SAME_UNIT: usize = 19;

/// What was hit.
pub struct Grids {
    pub numbers: Grid,
    pub likeness: Grid,
    pub faults: Grid,
}

impl Default for Grids {
    fn default() -> Grids {
        Grids {
            numbers: numbers(),
            likeness: likeness(),
            faults: play_faults::grid(),
        }
    }
}

impl Grids {
    pub fn add(&mut self, other: &Grids) {
        self.numbers.add(&other.numbers);
        self.likeness.add(&other.likeness);
        self.faults.add(&other.faults);
    }

    pub fn all(&self) -> [&Grid; 3] {
        [&self.numbers, &self.likeness, &self.faults]
    }
}

/// The numbers up to 22, with the lines of request 14 up to 24.
const NUMBERS: usize = if LISTS { 25 } else { 23 };

fn numbers() -> Grid {
    let rows = (0..NUMBERS).map(|number| number.to_string()).collect();
    let needed = |number, column| {
        let given = file_number(number) || matches!(number, 15 | 18 | 19 | 22);
        given && (number, column) != (1, SHORT)
    };
    Grid::new("rulefile_play", rows, GIVEN, needed)
}

fn likeness() -> Grid {
    let rows = names(&[
        "visits done",
        "visits skipped",
        "visits spent",
        "all three in one play",
        "no units",
        "no visits",
        "1,000 units",
        "1,001 units: 2",
        "4,096 lines",
        "4,097 lines: 2",
        "last line unfed: 22",
        "4,096 lines, the last unfed: 22",
        "4,097 lines, the last unfed: 2",
        "line feeds alone",
        "carriage returns in all lines",
        "carriage returns in some",
        "unit 999 visited",
        "the way back restores",
        "restored with another T line",
        "a unit visited again",
    ]);
    Grid::new("plays", rows, &["plays"], |_, _| true)
}

/// Counts what a play is given, on both sides.
fn count(tally: &mut Tally, known: &Known, play: &Play, ours: &Played, theirs: u32) {
    tally.calls += 1;
    let grid = &mut tally.plays.numbers;
    grid.hit(ours.number as usize, HERE);
    if (theirs as usize) < NUMBERS {
        grid.hit(theirs as usize, THERE);
    }
    if ours.number == 1 {
        grid.hit(otherwise(known, play), SHORT);
    }
    for (row, is) in like(play, ours) {
        if is {
            tally.plays.likeness.hit(row, 0);
        }
    }
}

/// The number that a play would be given if its areas were long enough.
fn otherwise(known: &Known, play: &Play) -> usize {
    let count = play.types.len().max(play.settings.len());
    if count > UNITS || split(&play.script).len() > LINES {
        return 2;
    }
    let given = match &known.checked {
        Err(refusal) => return refusal.number.into(),
        Ok(rules) => {
            let (types, settings) = (play.types.iter(), play.settings.iter());
            let units: Vec<(u32, u32)> = types.copied().zip(settings.copied()).collect();
            play_rules(rules, &units, &play.script, play.budget)
        }
    };
    given.err().map_or(0, |refusal| refusal.number.into())
}

/// Rows of a play, each with whether it is so.
type Rows = Vec<(usize, bool)>;

/// What a play is like.
fn like(play: &Play, ours: &Played) -> Rows {
    let lines = split(&play.script);
    let mut rows = of_lengths(play, &lines, ours.number);
    if ours.number == 0 {
        rows.extend(of_visits(&lines, ours.tally));
    }
    rows
}

/// How many units and lines there are, and whether the last line is fed.
fn of_lengths(play: &Play, lines: &[&[u8]], number: u32) -> Rows {
    let (units, lines) = (play.types.len(), lines.len());
    let (given, many, bad) = (number == 0, number == 2, number == 22);
    let unfed = lines > 0 && !play.script.ends_with(b"\n");
    let over = many && units <= UNITS && lines == LINES + 1;
    vec![
        (NO_UNITS, given && units == 0),
        (NO_VISITS, given && units > 0 && lines == 0),
        (ALL_UNITS, given && units == UNITS),
        (OVER_UNITS, many && units == UNITS + 1 && lines <= LINES),
        (ALL_LINES, given && lines == LINES),
        (OVER_LINES, over && !unfed),
        (UNFED, bad && unfed),
        (ALL_UNFED, bad && unfed && lines == LINES),
        (OVER_UNFED, over && unfed),
    ]
}

/// What comes of the visits of a play, and how their lines end.
fn of_visits(lines: &[&[u8]], tally: units::Tally) -> Rows {
    let [done, skipped, spent] = [tally.done, tally.skipped, tally.spent].map(|count| count > 0);
    let returns = lines.iter().filter(|line| line.ends_with(b"\r\n")).count();
    let visits = |unit: &[u8]| lines.iter().filter(|line| line.starts_with(unit)).count();
    vec![
        (DONE, done),
        (SKIPPED, skipped),
        (SPENT, spent),
        (ALL_THREE, done && skipped && spent),
        (FEEDS, !lines.is_empty() && returns == 0),
        (RETURNS, !lines.is_empty() && returns == lines.len()),
        (SOME_RETURNS, 0 < returns && returns < lines.len()),
        (LAST_UNIT, visits(b"S,999,") > 0),
        (SAME_UNIT, visits(b"S,0,") > 1),
    ]
}

/// The file and the script of a play, the units as lines `U,type,setting`.
pub fn input(file: &[u8], play: &Play) -> Vec<u8> {
    let units = play.types.iter().zip(&play.settings);
    let units: String = units
        .map(|(ty, setting)| format!("U,{ty},{setting}\n"))
        .collect();
    [file, units.as_bytes(), &play.script].concat()
}

/// The budgets of a visit, where an iso may need more than any of them.
const BUDGETS: [u32; 7] = [0, 1, 1, 2, 5, 50, 3_000];

/// A budget of these, or around what the isos need at the most.
fn any_budget(random: &mut Random, rules: &Rules) -> u32 {
    let needs = exact(&rules.isos).into_iter().map(|iso| iso.greatest);
    let any = *random.pick(&BUDGETS);
    match needs.max().map(u32::try_from) {
        Some(Ok(need @ 1..=3_000)) => *random.pick(&[any, any, need - 1, need, u32::MAX]),
        _ => any,
    }
}

/// A play that no unit and no line is refused for.
pub fn good(random: &mut Random, rules: &Rules, count: usize, lines: usize) -> Play {
    let (types, settings) = units(random, rules, count);
    let fitting = *random.pick(&[100, 100, 90, 50]);
    let script = script(random, rules, &types, lines, fitting);
    let budget = any_budget(random, rules);
    Play {
        types,
        settings,
        script,
        budget,
    }
}

/// A play on any file: units and visits that mostly fit an accepted one.
fn any(random: &mut Random, known: &Known) -> Play {
    let count = *random.pick(&[0, 1, 2, 5, 20]);
    let lines = *random.pick(&[0, 1, 3, 10, 30]);
    match &known.checked {
        Ok(rules) => good(random, rules, count, lines),
        Err(_) => Play {
            types: vec![0; count],
            settings: vec![0; count],
            script: b"S,0,0,0\n".repeat(lines),
            budget: *random.pick(&BUDGETS),
        },
    }
}

impl<S: Services> Calls<S> {
    /// Plays on a file: with areas long enough and with a short one, and the way
    /// back; in some cases those at the limits and those with two faults.
    pub fn plays(&mut self, random: &mut Random, tally: &mut Tally, case: Case, known: &Known) {
        let play = any(random, known);
        let played = self.play(random, tally, known, &play, [Kind::Exact; 2]);
        self.restored(random, tally, known, &play, &played);
        if random.chance(50) {
            self.flawed_play(random, tally, known, play);
        }
        match case {
            Case::Full(_) => self.play_limits(random, tally, known),
            Case::Counted(_) if random.chance(15) => self.play_faults(random, tally),
            _ => {}
        }
    }

    /// Plays on both sides with a table and a work area of these kinds, compares
    /// the answers and every element, and gives what the services have given.
    pub fn play(
        &mut self,
        random: &mut Random,
        tally: &mut Tally,
        known: &Known,
        play: &Play,
        [table, work]: [Kind; 2],
    ) -> Played {
        let least = [TABLE, WORK, play.types.len(), play.settings.len()];
        let kinds = [table, work, Kind::Exact, Kind::Exact];
        let shapes = [0, 1, 2, 3].map(|area| Shape::new(random, least[area], kinds[area]));
        let [mut ours, mut theirs] = [0; 2].map(|_| Board::new(play, &shapes, &self.noise));
        let given = units::play(known, &play.script, play.budget, ours.lend());
        let here = left(&mut ours, (given.number.into(), given.line));
        let answer = self
            .services
            .play(known.file, (&play.script, play.budget), theirs.lend());
        let there = left(&mut theirs, answer);
        count(tally, known, play, &here, there.number);
        count_areas(tally, shapes.map(|shape| shape.length));
        sizes::count(tally, sizes::PLAY, ours.table.lent(), here.number);
        let answers = [(here.number, here.line), (there.number, there.line)];
        let differs = (answers[0] != answers[1])
            .then(|| format!("here {:?}, there {:?}", answers[0], answers[1]));
        if let Some(what) = differs.or_else(|| ours.difference(&theirs)) {
            let bytes = play.script.len();
            let text = format!(
                "Play, budget {}, the last {bytes} bytes the script: {what}",
                play.budget
            );
            tally.mismatch(text, input(known.file, play));
        }
        there
    }

    /// A play with a short area, or with a line that is bad or lacks its line
    /// feed.
    fn flawed_play(&mut self, random: &mut Random, tally: &mut Tally, known: &Known, play: Play) {
        let mut play = play;
        let mut kinds = [Kind::Exact, Kind::Longer];
        random.shuffle(&mut kinds);
        match random.below(6) {
            0 => kinds[0] = too_short(random),
            1 => kinds[1] = too_short(random),
            2 => shorten(random, &mut play.types),
            3 => shorten(random, &mut play.settings),
            4 => drop(play.script.pop()),
            _ => {
                let isos = known.checked.as_ref().map_or(1, |rules| rules.isos.len());
                let lines = bad_lines(play.types.len(), isos);
                play.script.extend(random.pick(&lines).as_bytes());
            }
        }
        self.play(random, tally, known, &play, kinds);
    }

    /// "If none was skipped or spent, playing the script last line first with
    /// directions exchanged, under the same budget, restores each type tree and
    /// number."
    pub fn restored(
        &mut self,
        random: &mut Random,
        tally: &mut Tally,
        known: &Known,
        before: &Play,
        played: &Played,
    ) {
        let Ok(rules) = &known.checked else { return };
        let units::Tally {
            done,
            skipped,
            spent,
        } = played.tally;
        if played.number != 0 || done == 0 || skipped > 0 || spent > 0 {
            return;
        }
        let back = Play {
            types: played.types.clone(),
            settings: played.settings.clone(),
            script: turned(&before.script),
            budget: before.budget,
        };
        let again = self.play(random, tally, known, &back, [Kind::Exact; 2]);
        if let Some(what) = broken(rules, before, &again) {
            tally.mismatch(what, input(known.file, &back));
            return;
        }
        tally.plays.likeness.hit(BACK, 0);
        if again.types != before.types {
            tally.plays.likeness.hit(OTHER_LINE, 0);
        }
    }

    /// As many units and lines as there may be, and one more of either; the last
    /// line fed and not.
    pub fn play_limits(&mut self, random: &mut Random, tally: &mut Tally, known: &Known) {
        let Ok(rules) = &known.checked else { return };
        let kinds = [Kind::Exact, Kind::Longer];
        for (count, lines) in [(UNITS, 40), (UNITS + 1, 40), (3, LINES), (3, LINES + 1)] {
            let mut play = good(random, rules, count, lines);
            play.budget = play.budget.min(5);
            let free = (0..rules.isos.len()).find(|iso| !has_lists(&rules.isos, *iso));
            if let (UNITS, false, Some(iso)) = (count, play.types.is_empty(), free) {
                play.script.extend(format!("S,999,{iso},0\n").as_bytes());
            }
            let played = self.play(random, tally, known, &play, kinds);
            self.restored(random, tally, known, &play, &played);
            play.script.pop();
            self.play(random, tally, known, &play, kinds);
        }
    }
}

/// Takes some elements away, one most often.
fn shorten(random: &mut Random, area: &mut Vec<u32>) {
    let count = area.len();
    let left = [count.saturating_sub(1), count / 2, 0];
    area.truncate(*random.pick(&left));
}

/// What is in the units and the record.
fn left(board: &mut Board, (number, line): (u32, usize)) -> Played {
    let lent = board.lend();
    Played {
        number,
        line,
        types: lent.types.to_vec(),
        settings: lent.settings.to_vec(),
        tally: *lent.tally,
    }
}

/// Counts the kinds of the areas; one that is short where it is the only one.
fn count_areas(tally: &mut Tally, lengths: [usize; 4]) {
    let units = lengths[2].max(lengths[3]);
    let least = [TABLE, WORK, units, units];
    let lacking: Vec<usize> = (0..4)
        .filter(|area| lengths[*area] < least[*area])
        .collect();
    for area in 0..4 {
        if lacking.is_empty() || lacking == [area] {
            let kind = Kind::of(lengths[area], least[area]);
            tally.areas.hit(PLAY_AREAS + area, kind as usize);
        }
    }
}

/// How the way back breaks the law.
pub fn broken(rules: &Rules, before: &Play, again: &Played) -> Option<String> {
    let trees = |types: &[u32]| {
        let line = |ty: &u32| rules.types.get(*ty as usize).cloned();
        types.iter().map(line).collect::<Vec<_>>()
    };
    if again.number != 0 {
        return Some(format!("the way back is refused with {}", again.number));
    }
    if trees(&again.types) != trees(&before.types) || again.settings != before.settings {
        return Some("the way back does not restore".to_string());
    }
    None
}
