//! Settings as numbers: what is asked, what is hit, and the laws of the two
//! ways.

use crate::calls::{fit, input, otherwise, short, Calls};
use crate::case::Case;
use crate::faults;
use crate::grid::Grid;
use crate::input::letters as odd_letters;
use crate::service::{Answer, Call, Services};
use crate::tally::{names, number_rows, Tally, NUMBERS};
use apart::areas::{Known, RESULT};
use apart::generate::counted::{self, COUNTS};
use apart::generate::query::{damage, sample};
use apart::generate::random::Random;
use apart::numbering::{values, VALUES};
use apart::tree::Type;
use apart::Rules;

/// Columns of the tables of the numbers given: by the checker written apart, by
/// the library, and to calls with a short area if it were long enough.
pub const HERE: usize = 0;
pub const THERE: usize = 1;
pub const SHORT: usize = 2;

pub const GIVEN: &[&str] = &["here", "there", "if short"];

/// What was hit.
pub struct Grids {
    /// The numbers given to letters.
    pub number_of: Grid,
    /// The numbers given to numbers of settings.
    pub setting_of: Grid,
    pub likeness: Grid,
    pub faults: Grid,
}

impl Default for Grids {
    fn default() -> Grids {
        Grids {
            number_of: number_of(),
            setting_of: setting_of(),
            likeness: likeness(),
            faults: faults::grid(),
        }
    }
}

impl Grids {
    pub fn add(&mut self, other: &Grids) {
        self.number_of.add(&other.number_of);
        self.setting_of.add(&other.setting_of);
        self.likeness.add(&other.likeness);
        self.faults.add(&other.faults);
    }

    pub fn all(&self) -> [&Grid; 4] {
        [
            &self.number_of,
            &self.setting_of,
            &self.likeness,
            &self.faults,
        ]
    }
}

/// The cases that every run has: each count around the limit, ten times.
pub fn cases() -> Vec<Case> {
    (0..COUNTS.len())
        .map(Case::Counted)
        .collect::<Vec<Case>>()
        .repeat(10)
}

/// An accepted file with a type of one of the counts, by its place.
pub fn file(random: &mut Random, place: usize) -> Vec<u8> {
    counted::file(random, place)
}

/// The numbers that a file can be given, and 15 to 19.
fn rows() -> Vec<String> {
    number_rows()
}

fn number_of() -> Grid {
    let needed =
        |number, column| !matches!((number, column), (1, SHORT) | (17 | 19 | 20 | 22 | 24, _));
    Grid::new("rulefile_number_of", rows(), GIVEN, needed)
}

fn setting_of() -> Grid {
    let needed =
        |number, column| !matches!((number, column), (1, SHORT) | (16 | 17 | 20 | 22 | 24, _));
    Grid::new("rulefile_setting_of", rows(), GIVEN, needed)
}

/// Columns of the table of settings.
const NUMBER: usize = 0;
const LETTERS: usize = 1;

/// Rows of the table of settings; those of the counts follow.
const THERE_AND_BACK: usize = 0;
const ORDER: usize = 1;
const LOWEST: usize = 2;
const HIGHEST: usize = 3;
const LONGEST: usize = 4;
const LAST_LINE: usize = 5;
const FIRST_ABSENT: usize = 6;
const ABOVE_65535: usize = 7;
const NO_LETTERS: usize = 8;
const OVER_127: usize = 9;
const AT_COUNT: usize = 10;
const LARGEST: usize = 11;
const FIRST_COUNT: usize = 12;

/// Of letters that are no setting only the one way knows, of numbers that are
/// too high the other.
fn needed(row: usize, column: usize) -> bool {
    match row {
        NO_LETTERS | OVER_127 => column == NUMBER,
        AT_COUNT | LARGEST => column == LETTERS,
        _ => true,
    }
}

/// The counts around the limit, each once.
fn counts() -> Vec<u64> {
    let mut counts = COUNTS.map(|(count, _)| count).to_vec();
    counts.sort_unstable();
    counts.dedup();
    counts
}

fn likeness() -> Grid {
    let mut rows = names(&[
        "there and back",
        "order of two settings",
        "number 0",
        "highest number",
        "127 letters",
        "T line 255",
        "first absent T line",
        "T line above 65,535",
        "no letters",
        "over 127 letters",
        "number at the count",
        "number 4,294,967,295",
    ]);
    rows.extend(counts().iter().map(|count| format!("{count} values")));
    Grid::new("settings as numbers", rows, &["number", "letters"], needed)
}

/// The T line that a call asks for, where the file has it.
fn asked<'a>(known: &'a Known, call: Call) -> Option<&'a Type> {
    let (Call::NumberOf(ty, _) | Call::SettingOf(ty, _)) = call else {
        return None;
    };
    let rules = known.checked.as_ref().ok()?;
    rules.types.get(ty as usize).map(|ty| &**ty)
}

/// Counts what a call of either way is given, on both sides, and what it is
/// like.
pub fn count(tally: &mut Tally, known: &Known, call: Call, ours: &Answer, theirs: &Answer) {
    let (grid, column) = match call {
        Call::NumberOf(..) => (&mut tally.settings.number_of, NUMBER),
        Call::SettingOf(..) => (&mut tally.settings.setting_of, LETTERS),
        _ => return,
    };
    grid.hit(ours.number as usize, HERE);
    if (theirs.number as usize) < NUMBERS {
        grid.hit(theirs.number as usize, THERE);
    }
    if ours.number == 1 {
        grid.hit(otherwise(known, call), SHORT);
    }
    for (row, is) in alike(known, call, ours) {
        if is {
            tally.settings.likeness.hit(row, column);
        }
    }
    count_of(tally, known, call, ours, column);
}

/// The rows of a call, each with whether it is so.
fn alike(known: &Known, call: Call, ours: &Answer) -> [(usize, bool); 10] {
    let count = asked(known, call).map(values);
    let types = known.checked.as_ref().map_or(0, |rules| rules.types.len());
    let (ty, letters, setting) = match call {
        Call::NumberOf(ty, letters) => (ty, Some(letters.len()), ours.setting),
        Call::SettingOf(ty, setting) => (ty, None, setting),
        _ => unreachable!("only settings as numbers get here"),
    };
    let (given, absent) = (ours.number == 0, ours.number == 15);
    let length = letters.unwrap_or(ours.length);
    let highest = count.is_some_and(|count| u64::from(setting) + 1 == count);
    let high = letters.is_none() && ours.number == 19;
    [
        (LOWEST, given && setting == 0),
        (HIGHEST, given && highest),
        (LONGEST, given && length == RESULT),
        (LAST_LINE, given && ty == 255),
        (FIRST_ABSENT, absent && ty as usize == types),
        (ABOVE_65535, absent && ty > 65_535),
        (NO_LETTERS, ours.number == 16 && length == 0),
        (OVER_127, ours.number == 16 && length > RESULT),
        (AT_COUNT, high && count == Some(setting.into())),
        (LARGEST, high && setting == u32::MAX),
    ]
}

/// Counts a type of one of the counts around the limit: a setting of it that is
/// given, or 18.
fn count_of(tally: &mut Tally, known: &Known, call: Call, ours: &Answer, column: usize) {
    let Some(count) = asked(known, call).map(values) else {
        return;
    };
    let wanted = if count > VALUES { 18 } else { 0 };
    let place = counts().binary_search(&count);
    if let (Ok(place), true) = (place, ours.number == wanted) {
        tally.settings.likeness.hit(FIRST_COUNT + place, column);
    }
}

/// T lines to ask for: the one of the case, or the one of most values; and any
/// other.
fn lines(random: &mut Random, case: Case, rules: &Rules) -> Vec<u32> {
    let types = &rules.types;
    if types.is_empty() {
        return Vec::new();
    }
    let place = match case {
        Case::Counted(place) => {
            let is = |ty: &_| values(ty) == COUNTS[place].0;
            types.iter().position(|ty| is(ty)).expect("the case has it")
        }
        _ => {
            let most = (0..types.len()).max_by_key(|place| values(&types[*place]));
            most.expect("there is one")
        }
    };
    let any = random.below(types.len());
    let other = *random.pick(&[any, types.len() - 1]);
    vec![place as u32, other as u32]
}

/// A T line that may be far above all.
pub fn any_line(random: &mut Random, known: &Known) -> u32 {
    let types = known.checked.as_ref().map_or(1, |rules| rules.types.len()) as u32;
    let near = random.below(types as usize + 1) as u32;
    let above = [near + 256, near + 65_536, near + (1 << 31), u32::MAX];
    match random.below(10) {
        0..=5 => near,
        6 => types,
        _ => *random.pick(&above),
    }
}

/// A number of a type, or one that is too high.
fn any_number(random: &mut Random, count: u64) -> u32 {
    let count = count.min(VALUES);
    let below = (random.number() % count) as u32;
    let near = [0, count - 1, count, count + 1].map(|number| number.min(VALUES) as u32);
    let small = random.below(200) as u32;
    let near = *random.pick(&near);
    *random.pick(&[below, below, near, near, small, u32::MAX])
}

impl<S: Services> Calls<S> {
    /// Settings of a file as numbers: any calls, with a short area and with
    /// areas long enough, and the laws of some of its types.
    pub fn settings(&mut self, random: &mut Random, tally: &mut Tally, case: Case, known: &Known) {
        let letters = odd_letters(random);
        let ty = any_line(random, known);
        let number = u32::MAX >> random.below(32);
        for call in [Call::NumberOf(ty, &letters), Call::SettingOf(ty, number)] {
            self.fit_and_short(random, tally, known, call);
        }
        let Ok(rules) = &known.checked else { return };
        for ty in lines(random, case, rules) {
            self.of_line(random, tally, known, ty);
        }
    }

    fn fit_and_short(&mut self, random: &mut Random, tally: &mut Tally, known: &Known, call: Call) {
        let kinds = short(random, call);
        self.call(random, tally, known, call, kinds);
        let kinds = fit(random);
        self.call(random, tally, known, call, kinds);
    }

    /// A setting and a number of a T line, and letters that are near a setting.
    fn of_line(&mut self, random: &mut Random, tally: &mut Tally, known: &Known, ty: u32) {
        let kind = asked(known, Call::SettingOf(ty, 0)).expect("a T line of the file");
        let mut letters = Vec::new();
        sample(random, kind, &mut letters);
        let number = any_number(random, values(kind));
        self.fit_and_short(random, tally, known, Call::SettingOf(ty, number));
        let call = Call::NumberOf(ty, &letters);
        let kinds = short(random, call);
        self.call(random, tally, known, call, kinds);
        if values(kind) <= VALUES {
            self.laws(random, tally, known, ty, &letters);
        } else {
            self.fit_call(random, tally, known, call);
        }
        damage(random, &mut letters);
        self.fit_call(random, tally, known, Call::NumberOf(ty, &letters));
    }

    /// "each undoing the other, and numbers of one type rise exactly as the
    /// letters do in byte order", of what the services give.
    fn laws(
        &mut self,
        random: &mut Random,
        tally: &mut Tally,
        known: &Known,
        ty: u32,
        letters: &[u8],
    ) {
        let call = Call::NumberOf(ty, letters);
        let number = self.fit_call(random, tally, known, call).setting;
        let again = self.letters(random, tally, known, ty, number);
        let count = asked(known, call).map_or(1, values);
        let near = u64::from(number) + 1;
        let any = random.number() % count;
        let other = *random.pick(&[any, any, near.min(count - 1), 0, count - 1]) as u32;
        let others = self.letters(random, tally, known, ty, other);
        let back = Call::NumberOf(ty, &others);
        let back = self.fit_call(random, tally, known, back).setting;
        if let Some(what) = broken((letters, number, &again), (&others, other, back)) {
            tally.mismatch(what, input(known.file, call));
        }
        tally.settings.likeness.hit(THERE_AND_BACK, NUMBER);
        tally.settings.likeness.hit(THERE_AND_BACK, LETTERS);
        if number != other {
            tally.settings.likeness.hit(ORDER, NUMBER);
            tally.settings.likeness.hit(ORDER, LETTERS);
        }
    }

    fn fit_call(
        &mut self,
        random: &mut Random,
        tally: &mut Tally,
        known: &Known,
        call: Call,
    ) -> Answer {
        let kinds = fit(random);
        self.call(random, tally, known, call, kinds)
    }

    /// The letters that the services give for a number.
    fn letters(
        &mut self,
        random: &mut Random,
        tally: &mut Tally,
        known: &Known,
        ty: u32,
        number: u32,
    ) -> Vec<u8> {
        let call = Call::SettingOf(ty, number);
        let length = self.fit_call(random, tally, known, call).length;
        self.written(length).to_vec()
    }
}

/// Which law two settings break: letters, their number and the letters of that;
/// the letters of a number, that number and the number of those.
pub fn broken(
    (letters, number, again): (&[u8], u32, &[u8]),
    (others, other, back): (&[u8], u32, u32),
) -> Option<String> {
    let show = |letters| String::from_utf8_lossy(letters).to_string();
    if letters != again {
        let (one, two) = (show(letters), show(again));
        return Some(format!("{one} has number {number}, and that is {two}"));
    }
    if other != back {
        let letters = show(others);
        return Some(format!("number {other} is {letters}, and that has {back}"));
    }
    if letters.cmp(others) != number.cmp(&other) {
        let (one, two) = (show(letters), show(others));
        return Some(format!("{one} is {number}, {two} is {other}: out of order"));
    }
    None
}
