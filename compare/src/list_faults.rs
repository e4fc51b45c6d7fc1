//! Calls for pair lists with one fault and with two: which of the two is given,
//! whichever stands first, and what is given when either is mended.

use crate::calls::{fit, input, too_short, Calls};
use crate::faults::{absent, lengthened, refused};
use crate::grid::Grid;
use crate::service::{Call, Services};
use crate::tally::Tally;
use apart::areas::Known;
use apart::check;
use apart::generate::listed::{self, Flaw};
use apart::generate::random::Random;
use apart::lines::{Iso, CLAUSES};
use apart::numbering::values;
use apart::tree::Type;

/// What may be wrong with a call.
#[derive(Debug, Clone, Copy, PartialEq, Eq)]
pub enum Slip {
    ShortArea,
    LongFile,
    RefusedFile,
    /// An iso, or a T line, that the file has not.
    Absent,
    /// Over 4,096 values.
    TooMany,
    /// A budget that some pair passes.
    Spent,
    /// Over 128 lines in the list.
    ManyLines,
    BadList,
    /// Over 1,024 P lines in the file that would be written.
    Writing,
    /// Over 40 left and right nodes in one of them.
    Deep,
}

use Slip::*;

/// The slips of either way, in the order of the refusals.
pub const OF_EXPORT: [Slip; 6] = [ShortArea, LongFile, RefusedFile, Absent, TooMany, Spent];
pub const OF_IMPORT: [Slip; 9] = [
    ShortArea,
    LongFile,
    RefusedFile,
    Absent,
    TooMany,
    ManyLines,
    BadList,
    Writing,
    Deep,
];

/// Columns: both slips, both with their places exchanged, the first alone, the
/// second alone.
const COLUMNS: &[&str] = &["both", "exchanged", "first", "second"];
const EXCHANGED: usize = 1;

/// All pairs of the slips, the one that is given first. Those of the file itself
/// are Check's; the two last ones are not told apart.
pub fn pairs(slips: &[Slip]) -> Vec<[Slip; 2]> {
    let mut pairs = Vec::new();
    for (place, one) in slips.iter().enumerate() {
        pairs.extend(slips[place + 1..].iter().map(|other| [*one, *other]));
    }
    pairs.retain(|pair| ![[LongFile, RefusedFile], [Writing, Deep]].contains(pair));
    pairs
}

/// The number of a slip.
fn number(slip: Slip) -> &'static str {
    match slip {
        ShortArea => "1",
        LongFile => "2",
        RefusedFile => "3 to 14, 21",
        Absent => "15",
        TooMany => "18",
        Spent => "17",
        ManyLines => "7 for 129 lines",
        BadList => "20",
        Writing => "7 for P lines",
        Deep => "7 for nodes",
    }
}

/// A slip that stands at the from-type or the to-type, or in the first line of
/// a list or the last.
fn has_places(slip: Slip) -> bool {
    matches!(slip, Absent | TooMany | BadList)
}

fn needed(row: usize, column: usize) -> bool {
    let exports = pairs(&OF_EXPORT).len();
    column != EXCHANGED
        || row >= exports && pairs(&OF_IMPORT)[row - exports].into_iter().any(has_places)
}

/// A row for each pair and either way.
pub fn grid() -> Grid {
    let mut rows = Vec::new();
    for (way, slips) in [("export", &OF_EXPORT[..]), ("import", &OF_IMPORT)] {
        for [one, other] in pairs(slips) {
            rows.push(format!("{way}: {}, {}", number(one), number(other)));
        }
    }
    Grid::new("faults of a pair list", rows, COLUMNS, needed)
}

/// A file with isos and T lines that are right and wrong.
struct Base {
    file: Vec<u8>,
    isos: u32,
    types: u32,
    /// The T lines of a good conversion, and how many values they have.
    good: [u32; 2],
    count: usize,
    many: u32,
    long: u32,
    /// A T line with values of over 40 left and right nodes, and how many it has.
    deep: u32,
    deep_count: usize,
}

/// The places of the isos in a file of these.
const GOOD_ISO: usize = 1;
const MANY_ISO: usize = 2;
const LONG_ISO: usize = 3;
const DEEP_ISO: usize = 4;

impl Base {
    fn new(random: &mut Random) -> Base {
        let file = listed::mixed(random);
        let Ok(rules) = check(&file) else {
            unreachable!("the file is accepted")
        };
        let line = |ty: &Type| {
            let place = rules.types.iter().position(|other| **other == *ty);
            place.expect("an I line names it") as u32
        };
        let Iso { from, to, .. } = &rules.isos[GOOD_ISO];
        Base {
            good: [line(from), line(to)],
            count: values(from) as usize,
            many: line(&rules.isos[MANY_ISO].from),
            long: line(&rules.isos[LONG_ISO].from),
            deep: line(&rules.isos[DEEP_ISO].from),
            deep_count: values(&rules.isos[DEEP_ISO].from) as usize,
            isos: rules.isos.len() as u32,
            types: rules.types.len() as u32,
            file,
        }
    }
}

/// A call with slips, by turns of the one order of their places or the other.
struct Slips<'a> {
    all: &'a [Slip],
    exchanged: bool,
}

impl Slips<'_> {
    fn has(&self, slip: Slip) -> bool {
        self.all.contains(&slip)
    }

    /// The file, too long or refused where that is a slip.
    fn file(&self, random: &mut Random, file: &[u8]) -> Vec<u8> {
        match (self.has(LongFile), self.has(RefusedFile)) {
            (true, _) => lengthened(random, file),
            (_, true) => refused(random, file),
            _ => file.to_vec(),
        }
    }

    /// Iso and budget.
    fn export(&self, random: &mut Random, base: &Base) -> (u32, u32) {
        let iso = if self.has(TooMany) {
            MANY_ISO
        } else {
            GOOD_ISO
        } as u32;
        let iso = if self.has(Absent) {
            absent(random, base.isos, iso)
        } else {
            iso
        };
        let budget = if self.has(Spent) {
            random.below(2)
        } else {
            2 + random.below(9)
        };
        (iso, budget as u32)
    }

    fn types(&self, random: &mut Random, base: &Base) -> [u32; 2] {
        let mut types = base.good;
        if self.has(Writing) {
            types = [base.long; 2];
        }
        if self.has(Deep) {
            types = [base.deep; 2];
        }
        let side = usize::from(self.exchanged);
        if self.has(TooMany) {
            types[side] = base.many;
        }
        if self.has(Absent) {
            let side = if self.has(TooMany) { 1 - side } else { side };
            types[side] = absent(random, base.types, types[side]);
        }
        types
    }

    fn list(&self, random: &mut Random, base: &Base) -> Vec<u8> {
        let mut count = match (self.has(Writing), self.has(Deep)) {
            (true, _) => listed::SUMMED,
            (_, true) => base.deep_count,
            _ => base.count,
        };
        if self.has(ManyLines) {
            count = CLAUSES + 1 + random.below(3);
        }
        if !self.has(BadList) {
            return listed::list(random, count);
        }
        let flaws = [Flaw::Form, Flaw::Zero, Flaw::Wide, Flaw::Return, Flaw::From];
        let others = [Flaw::Repeated, Flaw::High, Flaw::NoFeed];
        let fewer = [Flaw::Fewer, Flaw::Empty];
        let mut flaws = [&flaws[..], &others].concat();
        if !self.has(ManyLines) {
            flaws.extend(fewer);
        }
        let place = if self.exchanged { 0 } else { count - 1 };
        let flaw = *random.pick(&flaws);
        listed::flawed(random, count, flaw, place)
    }

    /// The number that such a call has to be given.
    fn wanted(&self, known: &Known) -> u32 {
        match (self.all[0], &known.checked) {
            (ShortArea, _) => 1,
            (LongFile, _) => 2,
            (RefusedFile, Err(refusal)) if refusal.number > 2 => refusal.number.into(),
            (RefusedFile, _) => unreachable!("the file is made to be refused"),
            (Absent, _) => 15,
            (TooMany, _) => 18,
            (Spent, _) => 17,
            (ManyLines | Writing | Deep, _) => 7,
            (BadList, _) => 20,
        }
    }
}

impl<S: Services> Calls<S> {
    /// All pairs of slips, each on a file of its own, both ways.
    pub fn list_faults(&mut self, random: &mut Random, tally: &mut Tally) {
        let base = Base::new(random);
        let exports = pairs(&OF_EXPORT);
        for (place, pair) in exports.iter().enumerate() {
            for (column, all) in [(0, &pair[..]), (2, &pair[..1]), (3, &pair[1..])] {
                let slips = Slips {
                    all,
                    exchanged: false,
                };
                let (iso, budget) = slips.export(random, &base);
                self.slipped(random, tally, &base, &slips, Call::Export(iso, budget));
                tally.pair_lists.faults.hit(place, column);
            }
        }
        for (place, pair) in pairs(&OF_IMPORT).iter().enumerate() {
            let columns = [&pair[..], &pair[..], &pair[..1], &pair[1..]];
            for (column, all) in columns.into_iter().enumerate() {
                let exchanged = match column {
                    0 => false,
                    EXCHANGED => true,
                    _ => random.chance(50),
                };
                let slips = Slips { all, exchanged };
                let [from, to] = slips.types(random, &base);
                let list = slips.list(random, &base);
                let call = Call::Import(from, to, &list);
                self.slipped(random, tally, &base, &slips, call);
                tally.pair_lists.faults.hit(exports.len() + place, column);
            }
        }
    }

    /// One call with these slips, held to the number that it has to be given.
    fn slipped(
        &mut self,
        random: &mut Random,
        tally: &mut Tally,
        base: &Base,
        slips: &Slips,
        call: Call,
    ) {
        let file = slips.file(random, &base.file);
        let mut kinds = fit(random);
        if slips.has(ShortArea) {
            kinds[random.below(call.areas())] = too_short(random);
        }
        let known = Known::of(&file);
        let answer = self.call(random, tally, &known, call, kinds);
        let wanted = slips.wanted(&known);
        let line = match &known.checked {
            Err(refusal) if wanted == u32::from(refusal.number) => refusal.line,
            _ => 0,
        };
        if (answer.number, answer.line, answer.length) != (wanted, line, 0) {
            let text = format!(
                "{:?} have to give {wanted},{line}, there {answer:?}",
                slips.all
            );
            tally.mismatch(text, input(&file, call));
        }
    }
}
