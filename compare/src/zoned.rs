//! Request 14: isos on lists that call themselves, 23 and 24, and 18 for lists.

use crate::areas::Kind;
use crate::calls::{fit, input, short, Calls};
use crate::case::Case;
use crate::grid::Grid;
use crate::play::{self, Play};
use crate::service::{Answer, Ask, Call, Services};
use crate::sheets::Given;
use crate::tally::{names, Tally};
use crate::trip::Trip;
use apart::areas::{Known, RESULT};
use apart::generate::breach::{self, BREACHES};
use apart::generate::large::{self, Large, CAUSES};
use apart::generate::query::line;
use apart::generate::random::Random;
use apart::generate::zoned::{self, Ending, ENDINGS};
use apart::lines::{parse, split, LISTS};
use apart::recursion::{calls_itself, ends, has_lists, reached};
use apart::sheet::NUMBERS;
use apart::{check_with, turn_rules, Refusal, Rules};

/// Rows of the table of 23 before those of `BREACHES`; those beside 8 to 14
/// follow.
const AT_ISO: usize = 0;
const AT_CLAUSE: usize = 1;
const FIRST_BREACH: usize = 2;
const FIRST_BESIDE: usize = FIRST_BREACH + BREACHES.len();

/// Columns of the table of files that have an iso that calls itself.
pub const RULES: usize = 0;
pub const LIBRARY: usize = 1;
pub const SHEET: usize = 2;
pub const SHUFFLED: usize = 3;
pub const TURNED: usize = 4;
pub const TRIPS: usize = 5;
const STOPPED: usize = 6;

/// Columns of the table of 24.
const SPENT: usize = 0;
const GIVEN: usize = 1;
const LARGE: usize = 2;
const BY_SHEET: usize = 3;
const BY_TURNED: usize = 4;

/// Rows of the table of 18 for lists.
const NUMBER_OF: usize = 0;
const SETTING_OF: usize = 1;
const BOUNDS: usize = 2;
const EXPORT: usize = 3;
const IMPORT_FROM: usize = 4;
const IMPORT_TO: usize = 5;
const UNIT: usize = 6;
const SCRIPT: usize = 7;
const BAD_FIRST: usize = 8;
const LISTS_FIRST: usize = 9;
const BAD_BEFORE: usize = 10;

/// Rows of the table of what the check before request 14 gives.
const ALIKE: usize = 0;
const LISTED: usize = 1;
const OWN_ISO: usize = 2;

/// What was hit.
pub struct Grids {
    pub recursion: Grid,
    pub files: Grid,
    pub large: Grid,
    pub refused: Grid,
    pub before: Grid,
}

impl Default for Grids {
    fn default() -> Grids {
        Grids {
            recursion: recursion(),
            files: files(),
            large: large_runs(),
            refused: refused(),
            before: before(),
        }
    }
}

impl Grids {
    pub fn add(&mut self, other: &Grids) {
        self.recursion.add(&other.recursion);
        self.files.add(&other.files);
        self.large.add(&other.large);
        self.refused.add(&other.refused);
        self.before.add(&other.before);
    }

    /// None without the lines of request 14.
    pub fn all(&self) -> Vec<&Grid> {
        let all = [&self.recursion, &self.files, &self.large, &self.refused];
        let all = all.into_iter().chain([&self.before]);
        all.filter(|_| LISTS).collect()
    }
}

fn recursion() -> Grid {
    let mut rows = names(&["at the I line", "at a C line"]);
    rows.extend(BREACHES.map(|breach| format!("{breach:?}")));
    rows.extend((8..15).map(|number| format!("beside {number}")));
    Grid::new("23 for", rows, &["files"], |_, _| true)
}

/// Where it ends both ways no run of it goes on for ever; but it may be too large.
fn files() -> Grid {
    let rows = ENDINGS.map(|ending| format!("ends {ending:?}")).to_vec();
    let columns = &[
        "rules", "library", "sheet", "shuffled", "turned", "trips", "17 or 24",
    ];
    Grid::new("isos that call themselves", rows, columns, |_, _| true)
}

/// Each cause with each of its sizes.
fn sizes() -> Vec<(usize, usize)> {
    let of = |place: usize| {
        large::sizes(CAUSES[place])
            .iter()
            .map(move |size| (place, *size))
    };
    (0..CAUSES.len()).flat_map(of).collect()
}

/// Whether the size passes the ceiling.
fn over(size: usize) -> bool {
    size == 41 || size == RESULT + 1
}

fn large_runs() -> Grid {
    let row = |(place, size): (usize, usize)| format!("{:?} of {size}", CAUSES[place]);
    let rows = sizes().into_iter().map(row).collect();
    let columns = &["17 below", "given", "24", "in sheet", "turned"];
    let needed = |row: usize, column: usize| match column {
        GIVEN => !over(sizes()[row].1),
        LARGE => over(sizes()[row].1),
        _ => true,
    };
    Grid::new("24 by", rows, columns, needed)
}

fn refused() -> Grid {
    let rows = names(&[
        "number_of",
        "setting_of",
        "bounds",
        "export",
        "import, from-type",
        "import, to-type",
        "a unit of a play",
        "an iso of a script",
        "22 before 18 on a line",
        "18 on a line above 22",
        "22 on a line above 18",
    ]);
    Grid::new("18 for lists", rows, &["calls"], |_, _| true)
}

fn before() -> Grid {
    let rows = names(&["alike", "5 for a list", "6 for the own iso"]);
    Grid::new("before request 14", rows, &["files"], |_, _| true)
}

/// Holds the check to the one before request 14: that gives the same, or 5 or 6 at
/// a line that the request admits.
pub fn hold_before(tally: &mut Tally, known: &Known) {
    if !LISTS {
        return;
    }
    let former = check_with(known.file, false).err();
    let now = known.checked.as_ref().err().copied();
    let admitted = former.and_then(|refusal| admitted(known.file, refusal));
    match admitted {
        _ if former == now => tally.zoned.before.hit(ALIKE, 0),
        Some(row) => tally.zoned.before.hit(row, 0),
        None => {
            let text = format!("before request 14 {former:?}, now {now:?}");
            tally.mismatch(text, known.file.to_vec());
        }
    }
}

/// The row of a refusal at a line that the request admits.
fn admitted(file: &[u8], refusal: Refusal) -> Option<usize> {
    let lines = split(file);
    let row = parse(lines.get(refusal.line.checked_sub(1)?)?)?;
    let above = lines[..refusal.line].iter().filter(|line| line[0] == b'I');
    match (refusal.number, row.letter, row.fields) {
        (5, b'T', [3, ..]) | (5, b'P', [5 | 6, ..]) => Some(LISTED),
        (6, b'L', [_, iso, _]) if usize::from(iso) + 1 == above.count() => Some(OWN_ISO),
        _ => None,
    }
}

/// The cases that every run has; none without the lines of request 14.
pub fn cases() -> Vec<Case> {
    if !LISTS {
        return Vec::new();
    }
    let mut cases: Vec<Case> = ENDINGS.map(Case::Zoned).repeat(4);
    cases.extend((0..BREACHES.len()).map(Case::Breach));
    cases.extend((8..15).map(Case::Beside));
    let large = sizes().into_iter();
    cases.extend(large.map(|(place, size)| Case::Large(place, size)));
    cases.repeat(3)
}

/// A file of one of these cases, and what Check has to give.
pub fn file(random: &mut Random, case: Case) -> (Vec<u8>, Option<(u8, usize)>) {
    match case {
        Case::Zoned(ending) => (zoned::file(random, ending), Some((0, 0))),
        Case::Breach(place) => {
            let (file, line) = breach::file(random, BREACHES[place]);
            (file, Some((23, line)))
        }
        Case::Beside(number) => {
            let (file, number, line) = breach::beside(random, number);
            (file, Some((number, line)))
        }
        Case::Large(place, size) => {
            let made = large::made(random, CAUSES[place], size);
            (made.file, Some((0, 0)))
        }
        _ => unreachable!("one of these cases"),
    }
}

/// Counts a file that is refused with 23, and what it is made for.
pub fn count_refused(tally: &mut Tally, case: Case, known: &Known) {
    let row = match case {
        Case::Breach(place) => Some(FIRST_BREACH + place),
        Case::Beside(number) => Some(FIRST_BESIDE + usize::from(number) - 8),
        _ => None,
    };
    let grid = &mut tally.zoned.recursion;
    if let Some(row) = row {
        grid.hit(row, 0);
    }
    if let Err(Refusal { number: 23, line }) = known.checked {
        let isos = apart::lines::read(known.file).map_or(Vec::new(), |reader| reader.isos);
        let at_iso = isos.iter().any(|iso| iso.line == line);
        grid.hit(if at_iso { AT_ISO } else { AT_CLAUSE }, 0);
    }
}

/// In which directions an iso ends, if it reaches one that calls itself.
fn ending(rules: &Rules, iso: usize) -> Option<usize> {
    let own = |place: &usize| calls_itself(&rules.isos[*place], *place);
    if !reached(&rules.isos, iso).iter().any(own) {
        return None;
    }
    let ending = match [ends(&rules.isos, iso), ends(&rules.turned, iso)] {
        [true, true] => Ending::Both,
        [true, false] => Ending::Written,
        [false, true] => Ending::Turned,
        [false, false] => Ending::Neither,
    };
    ENDINGS.iter().position(|other| *other == ending)
}

/// Counts an accepted file by its isos that call themselves.
pub fn count(tally: &mut Tally, known: &Known, column: usize) {
    let Ok(rules) = &known.checked else { return };
    for iso in 0..rules.isos.len() {
        if let Some(row) = ending(rules, iso) {
            tally.zoned.files.hit(row, column);
        }
    }
}

/// Counts a trip through such an iso, which was made in both directions.
pub fn count_trip(tally: &mut Tally, known: &Known, trip: &Trip) {
    let Ok(rules) = &known.checked else { return };
    if let Some(row) = ending(rules, trip.iso.into()) {
        tally.zoned.files.hit(row, TRIPS);
    }
}

/// Counts a run of such an iso that is 17 or 24.
pub fn count_run(tally: &mut Tally, known: &Known, call: Call, ours: &Answer) {
    let (Call::Run(ask), Ok(rules)) = (call, &known.checked) else {
        return;
    };
    let there = (ask.iso as usize) < rules.isos.len();
    if LISTS && there && matches!(ours.number, 17 | 24) {
        if let Some(row) = ending(rules, ask.iso as usize) {
            tally.zoned.files.hit(row, STOPPED);
        }
    }
}

impl<S: Services> Calls<S> {
    /// What the lines of request 14 are asked beside the services on any file: runs
    /// to a ceiling, and 18.
    pub fn zoned(&mut self, random: &mut Random, tally: &mut Tally, case: Case, known: &Known) {
        if let Case::Large(place, size) = case {
            let made = large::made(random, CAUSES[place], size);
            self.large(random, tally, (place, size), &made);
        }
        let Ok(rules) = &known.checked else { return };
        let lists = |iso: &usize| has_lists(&rules.isos, *iso);
        let isos: Vec<usize> = (0..rules.isos.len()).filter(lists).collect();
        if LISTS && !isos.is_empty() && random.chance(50) {
            let iso = *random.pick(&isos) as u32;
            self.lists_refused(random, tally, known, iso);
            self.lists_played(random, tally, (known, rules), iso);
        }
    }

    /// A run with one application less than it needs, with as many and with more,
    /// of the file and of the turned one, with a short area, and in a sheet.
    fn large(&mut self, random: &mut Random, tally: &mut Tally, at: (usize, usize), made: &Large) {
        let row = sizes().iter().position(|other| *other == at);
        let row = row.expect("one of the sizes");
        let known = Known::of(&made.file);
        let Ok(rules) = &known.checked else {
            let text = format!("{:?} is refused", CAUSES[at.0]);
            return tally.mismatch(text, made.file.clone());
        };
        let turned = turn_rules(rules);
        let other = Known::of(&turned);
        for more in 0..3 {
            for (known, back) in [(&known, made.back), (&other, !made.back)] {
                let ask = Ask {
                    iso: made.iso.into(),
                    back,
                    budget: made.count - 1 + more,
                    letters: &made.letters,
                };
                self.large_run(random, tally, known, ask, made, row);
                tally.zoned.large.hit(row, BY_TURNED);
            }
        }
        let call = Call::Run(Ask {
            iso: made.iso.into(),
            back: made.back,
            budget: made.count,
            letters: &made.letters,
        });
        let kinds = short(random, call);
        self.call(random, tally, &known, call, kinds);
        self.large_sheet(random, tally, &known, made, row);
    }

    /// One such run, held to what it has to give.
    fn large_run(
        &mut self,
        random: &mut Random,
        tally: &mut Tally,
        known: &Known,
        ask: Ask,
        made: &Large,
        row: usize,
    ) {
        let kinds = fit(random);
        let answer = self.call(random, tally, known, Call::Run(ask), kinds);
        let written = self.written(answer.length).to_vec();
        let (column, number, letters) = match &made.given {
            _ if ask.budget < made.count => (SPENT, 17, &[][..]),
            None => (LARGE, 24, &[][..]),
            Some(given) => (GIVEN, 0, &given[..]),
        };
        let count = if number == 0 { made.count.into() } else { 0 };
        if (answer.number, answer.count) != (number, count) || written != letters {
            let text = format!("{ask:?} has to give {number} and {count}, there {answer:?}");
            tally.mismatch(text, input(known.file, Call::Run(ask)));
        }
        tally.zoned.large.hit(row, column);
    }

    /// The same run as a query of a sheet.
    fn large_sheet(
        &mut self,
        random: &mut Random,
        tally: &mut Tally,
        known: &Known,
        made: &Large,
        row: usize,
    ) {
        let asked = |budget| line(made.iso.into(), made.back, budget, &made.letters);
        let list = [asked(made.count - 1), asked(made.count)].concat();
        let kinds = fit(random);
        let call = Call::Sheet(&list);
        self.call(random, tally, known, call, kinds);
        let Given { numbers, .. } = self.given();
        let wanted = if made.given.is_some() { 0 } else { 24 };
        if [numbers.first(), numbers.get(NUMBERS)] != [Some(&17), Some(&wanted)] {
            let text = format!("in a sheet {numbers:?}, not 17 and {wanted}");
            tally.mismatch(text, input(known.file, call));
        }
        tally.zoned.large.hit(row, BY_SHEET);
    }

    /// A call that has to be refused with 18.
    fn refused_18(
        &mut self,
        random: &mut Random,
        tally: &mut Tally,
        known: &Known,
        (call, row): (Call, usize),
    ) {
        let kinds = fit(random);
        let answer = self.call(random, tally, known, call, kinds);
        if answer.number != 18 {
            let text = format!("{call:?} has to give 18, there {answer:?}");
            tally.mismatch(text, input(known.file, call));
        }
        tally.zoned.refused.hit(row, 0);
    }

    /// "Reqs 02, 05, 07 and 12 refuse 18 where a type they are given, or a type of
    /// the iso or of one it calls, holds a list".
    fn lists_refused(&mut self, random: &mut Random, tally: &mut Tally, known: &Known, iso: u32) {
        let Ok(rules) = &known.checked else { return };
        let holds = |ty: &usize| rules.types[*ty].holds_list();
        let types: Vec<usize> = (0..rules.types.len()).filter(holds).collect();
        let plain = (0..rules.types.len()).find(|ty| !holds(ty)).unwrap_or(0) as u32;
        let ty = *random.pick(&types) as u32;
        let setting = random.below(3) as u32;
        let budget = *random.pick(&[0, 1, u32::MAX]);
        for (call, row) in [
            (Call::NumberOf(ty, b"N"), NUMBER_OF),
            (Call::SettingOf(ty, setting), SETTING_OF),
            (Call::Bounds(iso), BOUNDS),
            (Call::Export(iso, budget), EXPORT),
            (Call::Import(ty, plain, b"0,0\n"), IMPORT_FROM),
            (Call::Import(plain, ty, b"0,0\n"), IMPORT_TO),
        ] {
            // A plain type may have too many values, which is 18 too.
            self.refused_18(random, tally, known, (call, row));
        }
    }

    /// Plays with a unit or a line that has to do with lists: "a script is tested
    /// line by line, on each 22 before 18".
    fn lists_played(
        &mut self,
        random: &mut Random,
        tally: &mut Tally,
        (known, rules): (&Known, &Rules),
        iso: u32,
    ) {
        let plain = |ty: &usize| !rules.types[*ty].holds_list();
        let holds = |ty: &usize| !plain(ty);
        let plain = (0..rules.types.len()).find(plain).map(|ty| ty as u32);
        let lists = (0..rules.types.len()).find(holds).map(|ty| ty as u32);
        let (Some(plain), Some(lists)) = (plain, lists) else {
            return;
        };
        let absent = rules.isos.len();
        for (ty, script, wanted, row) in [
            (lists, String::new(), 18, UNIT),
            (plain, format!("S,0,{iso},0\n"), 18, SCRIPT),
            (plain, format!("S,1,{iso},0\n"), 22, BAD_FIRST),
            (
                plain,
                format!("S,0,{iso},1\nS,0,{absent},0\n"),
                18,
                LISTS_FIRST,
            ),
            (
                plain,
                format!("S,0,{absent},0\nS,0,{iso},0\n"),
                22,
                BAD_BEFORE,
            ),
        ] {
            let play = Play {
                types: vec![ty],
                settings: vec![0],
                script: script.into_bytes(),
                budget: 9,
            };
            let played = self.play(random, tally, known, &play, [Kind::Exact; 2]);
            // A plain type with too many values is 18 before the script.
            let many = apart::numbering::values(&rules.types[plain as usize]);
            if many <= apart::numbering::VALUES || row == UNIT {
                if played.number != wanted {
                    let text = format!("a play has to give {wanted}, there {}", played.number);
                    tally.mismatch(text, play::input(known.file, &play));
                }
                tally.zoned.refused.hit(row, 0);
            }
        }
    }
}
