//! Pair lists in and out: what is asked, and what is hit.

use crate::bounds::any_iso;
use crate::calls::{fit, otherwise, short, Calls};
use crate::case::Case;
use crate::grid::Grid;
use crate::list_faults;
use crate::longer;
use crate::service::{Answer, Call, Services};
use crate::settings::{any_line, GIVEN, HERE, SHORT, THERE};
use crate::tally::{names, number_rows, Tally, NUMBERS};
use apart::areas::Known;
use apart::bounds::exact;
use apart::generate::listed::{self, Flaw, Limit, FLAWS, LINES};
use apart::generate::random::Random;
use apart::generate::shape::most_sides;
use apart::lines::{split, CLAUSES, SIDES};
use apart::numbering::values;
use apart::pair_lists::{settings, unjudged, VALUES};
use apart::tree::Type;
use apart::{run_rules, Rules};
use std::rc::Rc;

/// Columns of the table of likeness.
pub const EXPORT: usize = 0;
pub const IMPORT: usize = 1;

/// Rows of the table of likeness; those of `LINES` and of left and right nodes
/// follow.
pub const ONE: usize = 0;
const FULL: usize = 1;
const OVER_FULL: usize = 2;
const LARGEST: usize = 3;
const OVER_LARGEST: usize = 4;
const FIRST_ABSENT: usize = 5;
const ABOVE_65535: usize = 6;
const LAST: usize = 7;
pub const BUDGET_0: usize = 8;
pub const AT_NEED: usize = 9;
pub const BELOW_NEED: usize = 10;
const LATER: usize = 11;
const MANY_FROM: usize = 12;
const MANY_TO: usize = 13;
const UNFED: usize = 14;
pub const SAME_LINE: usize = 15;
const EQUAL: usize = 16;
const SHARED: usize = 17;
pub const FEEDS: usize = 18;
pub const RETURNS: usize = 19;
const SOME_RETURNS: usize = 20;
pub const FIRST_LINES: usize = 21;
const ALL_SIDES: usize = FIRST_LINES + LINES.len();
const OVER_SIDES: usize = ALL_SIDES + 1;
const DEEP_FROM: usize = ALL_SIDES + 2;
const DEEP_TO: usize = ALL_SIDES + 3;

/// Rows of the table of laws.
pub const IMPORT_EXPORT: usize = 0;
pub const EXPORT_IMPORT_EXPORT: usize = 1;
pub const RUNS_ALIKE: usize = 2;
pub const IMPORTED_AGAIN: usize = 3;
pub const TURNED: usize = 4;

/// The most applications of an export.
const LONGEST: u128 = 20_000;

/// What was hit.
pub struct Grids {
    /// The numbers given to isos.
    pub export: Grid,
    /// The numbers given to lists.
    pub import: Grid,
    pub likeness: Grid,
    pub flaws: Grid,
    pub laws: Grid,
    pub faults: Grid,
}

impl Default for Grids {
    fn default() -> Grids {
        Grids {
            export: export(),
            import: import(),
            likeness: likeness(),
            flaws: flaws(),
            laws: laws(),
            faults: list_faults::grid(),
        }
    }
}

impl Grids {
    pub fn add(&mut self, other: &Grids) {
        self.export.add(&other.export);
        self.import.add(&other.import);
        self.likeness.add(&other.likeness);
        self.flaws.add(&other.flaws);
        self.laws.add(&other.laws);
        self.faults.add(&other.faults);
    }

    pub fn all(&self) -> [&Grid; 6] {
        [
            &self.export,
            &self.import,
            &self.likeness,
            &self.flaws,
            &self.laws,
            &self.faults,
        ]
    }
}

fn export() -> Grid {
    let needed =
        |number, column| !matches!((number, column), (1, SHORT) | (16 | 19 | 20 | 22 | 24, _));
    Grid::new("rulefile_export", number_rows(), GIVEN, needed)
}

fn import() -> Grid {
    let needed =
        |number, column| !matches!((number, column), (1, SHORT) | (16 | 17 | 19 | 22 | 24, _));
    Grid::new("rulefile_import", number_rows(), GIVEN, needed)
}

/// Budgets are of use to the one way alone, lists to the other.
fn needed(row: usize, column: usize) -> bool {
    match row {
        BUDGET_0..=LATER => column == EXPORT,
        MANY_FROM.. => column == IMPORT,
        _ => true,
    }
}

fn likeness() -> Grid {
    let mut rows = names(&[
        "one value",
        "128 values",
        "129 values",
        "4,096 values",
        "4,097 values: 18",
        "first absent line: 15",
        "line above 65,535: 15",
        "iso 31, T line 255",
        "budget 0: 17",
        "budget at the need",
        "budget one below the need: 17",
        "17 by one pair, not the first",
        "18 for the from-type alone",
        "18 for the to-type alone",
        "129 lines, the last unfed: 7",
        "from and to one T line",
        "equal types, other T lines",
        "types that share parts",
        "line feeds alone",
        "carriage returns in all lines",
        "carriage returns in some",
    ]);
    rows.extend(LINES.map(|lines| match lines {
        0..=1_024 => format!("{lines} P lines"),
        _ => format!("{lines} P lines: 7"),
    }));
    rows.extend(names(&[
        "40 left and right nodes",
        "41 left and right nodes: 7",
        "over 40 of the from-type alone: 7",
        "over 40 of the to-type alone: 7",
    ]));
    Grid::new("pair lists", rows, &["export", "import"], needed)
}

fn flaws() -> Grid {
    let rows = FLAWS.map(|flaw| format!("{flaw:?}")).to_vec();
    Grid::new("flaw of a list", rows, &["20"], |_, _| true)
}

fn laws() -> Grid {
    let rows = names(&[
        "import, export",
        "export, import, export",
        "runs alike",
        "imported again",
        "turned: pairs exchanged",
    ]);
    Grid::new("trips of pair lists", rows, &["trips"], |_, _| true)
}

/// The cases that every run has: each limit, three times.
pub fn cases() -> Vec<Case> {
    let limits = listed::limits().into_iter();
    limits.map(Case::Listed).collect::<Vec<Case>>().repeat(3)
}

/// Counts what a call of either way is given, on both sides, and what it is
/// like.
pub fn count(tally: &mut Tally, known: &Known, call: Call, ours: &Answer, theirs: &Answer) {
    let grids = &mut tally.pair_lists;
    let (grid, column) = match call {
        Call::Export(..) => (&mut grids.export, EXPORT),
        Call::Import(..) => (&mut grids.import, IMPORT),
        _ => return,
    };
    grid.hit(ours.number as usize, HERE);
    if (theirs.number as usize) < NUMBERS {
        grid.hit(theirs.number as usize, THERE);
    }
    if ours.number == 1 {
        grid.hit(otherwise(known, call), SHORT);
    }
    let Ok(rules) = &known.checked else { return };
    let rows = match call {
        Call::Export(iso, budget) => of_export(rules, iso, budget, ours.number),
        Call::Import(from, to, list) => {
            longer::count_list(tally, rules, [from, to], list, ours.number);
            of_import(rules, [from, to], list, ours.number)
        }
        _ => return,
    };
    for (row, is) in rows {
        if is {
            tally.pair_lists.likeness.hit(row, column);
        }
    }
}

/// The rows of a call, each with whether it is so.
type Rows = Vec<(usize, bool)>;

fn of_export(rules: &Rules, iso: u32, budget: u32, number: u32) -> Rows {
    let count = rules.isos.get(iso as usize).map(|iso| values(&iso.from));
    let (given, absent) = (number == 0, number == 15);
    let mut rows = vec![
        (ONE, given && count == Some(1)),
        (FULL, given && count == Some(128)),
        (OVER_FULL, given && count == Some(129)),
        (LARGEST, given && count == Some(VALUES)),
        (OVER_LARGEST, number == 18 && count == Some(VALUES + 1)),
        (FIRST_ABSENT, absent && iso as usize == rules.isos.len()),
        (ABOVE_65535, absent && iso > 65_535),
        (LAST, given && iso == 31),
        (BUDGET_0, number == 17 && budget == 0),
    ];
    if matches!(number, 0 | 17) && budget < 50 && count.is_some_and(|count| count <= 64) {
        rows.extend(of_budget(rules, iso, budget));
    }
    rows
}

/// How the budget stands to what the pairs of an iso need.
fn of_budget(rules: &Rules, iso: u32, budget: u32) -> Rows {
    let from = &rules.isos[iso as usize].from;
    let needs = |letters: Vec<u8>| {
        let ran = run_rules(rules, iso as u16, false, budget + 1, &letters);
        ran.map_or(u64::from(budget) + 2, |(count, _)| count)
    };
    let needs: Vec<u64> = settings(from).into_iter().map(needs).collect();
    let most = needs.iter().copied().max().unwrap_or(0);
    let spent = needs.iter().filter(|need| **need > budget.into()).count();
    vec![
        (AT_NEED, most == u64::from(budget)),
        (BELOW_NEED, most == u64::from(budget) + 1),
        (LATER, spent == 1 && needs[0] <= budget.into()),
    ]
}

fn of_import(rules: &Rules, [from, to]: [u32; 2], list: &[u8], number: u32) -> Rows {
    let types = [from, to].map(|line| rules.types.get(line as usize));
    let [few, many] = [0, 1].map(|side| types[side].map_or(0, |ty| values(ty)));
    let counts = [few, many];
    let (given, absent) = (number == 0, number == 15);
    let both = |count| counts == [count; 2];
    let lines = split(list).len();
    let any = |line: u32| from == line || to == line;
    let mut rows = vec![
        (ONE, given && both(1)),
        (FULL, given && both(128)),
        (OVER_FULL, number == 7 && both(129) && lines == 129),
        (LARGEST, matches!(number, 7 | 20) && both(VALUES)),
        (OVER_LARGEST, number == 18 && counts.contains(&(VALUES + 1))),
        (FIRST_ABSENT, absent && any(rules.types.len() as u32)),
        (ABOVE_65535, absent && from.max(to) > 65_535),
        (LAST, given && any(255)),
        (MANY_FROM, number == 18 && counts[1] <= VALUES),
        (MANY_TO, number == 18 && counts[0] <= VALUES),
        (UNFED, number == 7 && lines == 129 && !list.ends_with(b"\n")),
    ];
    if let ([Some(one), Some(other)], true) = (types, given || number == 7) {
        rows.extend(of_types([from, to], [one, other], given));
        rows.extend(of_lines(rules, [from, to], list));
        if both(lines as u64) && lines <= CLAUSES {
            rows.extend(of_sides([one, other], given));
        }
    }
    if given {
        rows.extend(of_endings(list));
    }
    rows
}

fn of_types([from, to]: [u32; 2], [one, other]: [&Rc<Type>; 2], given: bool) -> Rows {
    let mut parts = Vec::new();
    below(one, &mut parts);
    let mut others = Vec::new();
    below(other, &mut others);
    let shared = parts.iter().any(|part| others.contains(part));
    vec![
        (SAME_LINE, given && from == to),
        (EQUAL, given && from != to && one == other),
        (SHARED, given && one != other && shared),
    ]
}

/// The parts of a type that are more than a unit, and itself.
fn below<'a>(ty: &'a Type, parts: &mut Vec<&'a Type>) {
    if let Type::Sum(a, b) | Type::Product(a, b) = ty {
        below(a, parts);
        below(b, parts);
        parts.push(ty);
    }
}

/// How many P lines are written, or would be.
fn of_lines(rules: &Rules, [from, to]: [u32; 2], list: &[u8]) -> Rows {
    let Ok(file) = unjudged(rules, from, to, list) else {
        return Vec::new();
    };
    let patterns = split(&file).iter().filter(|line| line[0] == b'P').count();
    let row = |(place, lines)| (FIRST_LINES + place, lines == patterns);
    LINES.into_iter().enumerate().map(row).collect()
}

/// The most left and right nodes of a value of either type.
fn of_sides(types: [&Rc<Type>; 2], given: bool) -> Rows {
    let [one, other] = types.map(|ty| most_sides(ty));
    vec![
        (ALL_SIDES, given && one.max(other) == SIDES),
        (OVER_SIDES, !given && one.max(other) == SIDES + 1),
        (DEEP_FROM, !given && one > SIDES && other <= SIDES),
        (DEEP_TO, !given && one <= SIDES && other > SIDES),
    ]
}

fn of_endings(list: &[u8]) -> Rows {
    let lines = split(list);
    let returns = lines.iter().filter(|line| line.ends_with(b"\r\n")).count();
    vec![
        (FEEDS, returns == 0),
        (RETURNS, returns == lines.len()),
        (SOME_RETURNS, 0 < returns && returns < lines.len()),
    ]
}

/// A budget under which an export is not too long: none, what the pairs need,
/// one less or more, or any.
fn any_budget(random: &mut Random, rules: &Rules, iso: u32) -> u32 {
    if rules.isos.get(iso as usize).is_none() {
        return *random.pick(&[0, 1, u32::MAX]);
    }
    let need = exact(&rules.isos)[iso as usize].greatest;
    let near = [
        0,
        1,
        need.saturating_sub(1),
        need,
        need,
        need + 1,
        u32::MAX.into(),
    ];
    affordable(rules, iso, need, *random.pick(&near))
}

/// A budget of what the pairs of an iso need at the most, if that is not too
/// long.
pub fn enough(rules: &Rules, iso: u32) -> u32 {
    let need = exact(&rules.isos)[iso as usize].greatest;
    affordable(rules, iso, need, need)
}

/// The budget, or a small one where an export would be too long under it.
fn affordable(rules: &Rules, iso: u32, need: u128, budget: u128) -> u32 {
    let count = u128::from(values(&rules.isos[iso as usize].from));
    let budget = budget.min(u32::MAX.into());
    if count > VALUES.into() || count * budget.min(need) <= LONGEST {
        budget as u32
    } else {
        2
    }
}

/// Two T lines, most of them of as many values, and a count for the list.
fn any_types(random: &mut Random, known: &Known) -> ([u32; 2], usize) {
    let mut types = [any_line(random, known), any_line(random, known)];
    let Ok(rules) = &known.checked else {
        return (types, 1 + random.below(5));
    };
    let counts: Vec<u64> = rules.types.iter().map(|ty| values(ty)).collect();
    let few = |place: &usize| counts[*place] <= CLAUSES as u64 + 1;
    let few: Vec<usize> = (0..counts.len()).filter(few).collect();
    if few.is_empty() {
        return (types, 1);
    }
    let two = [*random.pick(&few), *random.pick(&few)];
    let last = few[few.len() - 1];
    let larger = two.into_iter().max_by_key(|place| counts[*place]);
    let from = *random.pick(&[two[0], larger.unwrap_or(two[0]), last]);
    let alike = few.iter().filter(|place| counts[**place] == counts[from]);
    let alike: Vec<usize> = alike.copied().collect();
    let to = if random.chance(85) {
        *random.pick(&alike)
    } else {
        two[1]
    };
    for (side, place) in [from, to].into_iter().enumerate() {
        if random.chance(95) {
            types[side] = place as u32;
        }
    }
    (types, counts[from] as usize)
}

/// A list of so many pairs, good or with a flaw, or one of too many lines.
fn any_list(random: &mut Random, count: usize) -> (Option<Flaw>, Vec<u8>) {
    match random.below(20) {
        0 => {
            let lines = CLAUSES + 1 + random.below(3);
            (None, listed::list(random, lines))
        }
        1 => {
            let mut list = listed::list(random, CLAUSES);
            list.push(b'3');
            (None, list)
        }
        2 => (None, vec![b'\n'; 30 + random.below(6_000)]),
        3..=11 => {
            let flaw = *random.pick(&FLAWS);
            let place = random.below(count);
            (Some(flaw), listed::flawed(random, count, flaw, place))
        }
        _ => (None, listed::list(random, count)),
    }
}

impl<S: Services> Calls<S> {
    /// Pair lists of a file: any calls, the limit that the case is made for, and
    /// trips.
    pub fn pair_lists(
        &mut self,
        random: &mut Random,
        tally: &mut Tally,
        case: Case,
        known: &Known,
    ) {
        let share = if known.checked.is_ok() { 75 } else { 40 };
        if random.chance(share) {
            self.any_export(random, tally, known);
            self.any_import(random, tally, known);
        }
        if let Case::Listed(limit) = case {
            for _ in 0..3 {
                self.at_limit(random, tally, known, limit);
            }
            if random.chance(40) {
                self.list_faults(random, tally);
            }
        }
        if random.chance(60) {
            self.list_trip(random, tally, known);
        }
    }

    fn fit_or_short(
        &mut self,
        random: &mut Random,
        tally: &mut Tally,
        known: &Known,
        call: Call,
    ) -> Answer {
        if random.chance(25) {
            let kinds = short(random, call);
            self.call(random, tally, known, call, kinds);
        }
        let kinds = fit(random);
        self.call(random, tally, known, call, kinds)
    }

    fn any_export(&mut self, random: &mut Random, tally: &mut Tally, known: &Known) {
        let any = any_iso(random, known);
        let (iso, budget) = match &known.checked {
            Ok(rules) => {
                let last = rules.isos.len().saturating_sub(1) as u32;
                let iso = *random.pick(&[any, any, any, last]);
                (iso, any_budget(random, rules, iso))
            }
            Err(_) => (any, random.number() as u32),
        };
        self.fit_or_short(random, tally, known, Call::Export(iso, budget));
    }

    fn any_import(&mut self, random: &mut Random, tally: &mut Tally, known: &Known) {
        let ([from, to], count) = any_types(random, known);
        let (flaw, list) = any_list(random, count);
        let call = Call::Import(from, to, &list);
        let answer = self.fit_or_short(random, tally, known, call);
        if answer.number == 0 {
            let file = self.written(answer.length).to_vec();
            self.exported(random, tally, &file, &list);
        }
        if let (20, Some(flaw)) = (answer.number, flaw) {
            let row = FLAWS.iter().position(|other| *other == flaw);
            tally.pair_lists.flaws.hit(row.expect("one of all"), 0);
        }
    }

    /// Either way for a type of the limit that a file is made for, and a list of
    /// as many lines that has a flaw.
    fn at_limit(&mut self, random: &mut Random, tally: &mut Tally, known: &Known, limit: Limit) {
        let Ok(rules) = &known.checked else { return };
        let count = limit.values();
        let iso = limit_iso(random, rules, count);
        let budget = any_budget(random, rules, iso);
        self.fit_or_short(random, tally, known, Call::Export(iso, budget));
        let [from, to] = limit_types(random, rules, limit);
        let lines = *random.pick(&[count.min(136), count.min(128)]) as usize;
        let list = listed::list(random, lines);
        let call = Call::Import(from, to, &list);
        let answer = self.fit_or_short(random, tally, known, call);
        if answer.number == 0 {
            let file = self.written(answer.length).to_vec();
            self.exported(random, tally, &file, &list);
        }
        let flaw = *random.pick(&IN_LINES);
        let place = *random.pick(&[0, lines / 2, lines - 1]);
        let list = listed::flawed(random, lines, flaw, place);
        self.fit_or_short(random, tally, known, Call::Import(from, to, &list));
    }
}

/// Flaws that leave the number of lines.
const IN_LINES: [Flaw; 7] = [
    Flaw::Form,
    Flaw::Zero,
    Flaw::Wide,
    Flaw::Return,
    Flaw::From,
    Flaw::Repeated,
    Flaw::High,
];

/// An iso whose from-type has so many values.
fn limit_iso(random: &mut Random, rules: &Rules, count: u64) -> u32 {
    let is = |iso: &usize| values(&rules.isos[*iso].from) == count;
    let isos: Vec<usize> = (0..rules.isos.len()).filter(is).collect();
    *random.pick(&isos) as u32
}

/// Two T lines, one of them at least of the limit's values, and the one that the
/// limit is about.
fn limit_types(random: &mut Random, rules: &Rules, limit: Limit) -> [u32; 2] {
    let is = |ty: &usize| values(&rules.types[*ty]) == limit.values();
    let types: Vec<usize> = (0..rules.types.len()).filter(is).collect();
    let weight = |ty: &usize| match limit {
        Limit::Values(_) => random.below(types.len()),
        Limit::Lines(_) | Limit::Long(_) => rules.types[*ty].nodes(),
        Limit::Sides(_) | Limit::Deep(_) => most_sides(&rules.types[*ty]),
    };
    let mut types = types.clone();
    types.sort_by_cached_key(weight);
    let (other, from) = (types[0], types[types.len() - 1]);
    let any = random.below(rules.types.len());
    let to = *random.pick(&[from, other, other, any]);
    let mut sides = [from as u32, to as u32];
    random.shuffle(&mut sides);
    sides
}
