//! The services with lent areas, as the library and the checker written apart
//! both offer them.

use apart::areas::{Known, Query, RESULT, TABLE, WORK};
use apart::bounds;
use apart::lines::split;
use apart::numbering;
use apart::overlap;
use apart::pair_lists::{self, FILE, LIST};
use apart::sheet::{self, NUMBERS};
use apart::units;
use apart::witness;

/// What Run is asked. The library takes an iso of 32 bits.
#[derive(Debug, Clone, Copy, PartialEq, Eq)]
pub struct Ask<'a> {
    pub iso: u32,
    pub back: bool,
    pub budget: u32,
    pub letters: &'a [u8],
}

#[derive(Debug, Clone, Copy, PartialEq, Eq)]
pub enum Call<'a> {
    Check,
    Turn,
    Run(Ask<'a>),
    /// With the list of query lines.
    Sheet(&'a [u8]),
    /// The number of a setting: the number of the T line, and letters.
    NumberOf(u32, &'a [u8]),
    /// The setting of a number: the number of the T line, and that number.
    SettingOf(u32, u32),
    /// The overlap of two P lines.
    Overlap(u32, u32),
    /// The bounds of an iso.
    Bounds(u32),
    /// A setting that shows the fault.
    Witness,
    /// An iso as a pair list: its number, and the budget.
    Export(u32, u32),
    /// A file out of a pair list: the numbers of two T lines, and the list.
    Import(u32, u32, &'a [u8]),
}

/// All that an answer holds; what the service does not give is 0.
#[derive(Debug, Default, Clone, Copy, PartialEq, Eq)]
pub struct Answer {
    pub number: u32,
    pub line: usize,
    pub count: u64,
    pub length: usize,
    /// The queries that a sheet has answered.
    pub queries: usize,
    /// The number of a setting.
    pub setting: u32,
    /// Whether two patterns clash, and the node pairs compared.
    pub clash: bool,
    pub pairs: u32,
    /// The bounds of an iso and their flags.
    pub least: u32,
    pub greatest: u32,
    pub least_over: bool,
    pub greatest_over: bool,
}

/// The lent areas; `out` is the output of Turn and of pair lists, Run's result,
/// a sheet's letters, the letters of a number or of a witness, and of no use to
/// others. `numbers` are of use to a sheet alone.
pub struct Lent<'a> {
    pub table: &'a mut [u16],
    pub work: &'a mut [u8],
    pub out: &'a mut [u8],
    pub numbers: &'a mut [u32],
}

pub trait Services {
    fn call(&mut self, file: &[u8], call: Call, lent: Lent) -> Answer;

    /// Plays a script on units under a budget: the number and the line. The one
    /// written apart where there is no other.
    fn play(
        &mut self,
        file: &[u8],
        (script, budget): (&[u8], u32),
        lent: units::Lent,
    ) -> (u32, usize) {
        let played = units::play(&Known::of(file), script, budget, lent);
        (played.number.into(), played.line)
    }
}

impl Call<'_> {
    /// How many areas it is lent, in the order of `least`.
    pub fn areas(&self) -> usize {
        match self {
            Call::Check | Call::NumberOf(..) | Call::Overlap(..) | Call::Bounds(_) => 2,
            Call::Turn | Call::Run(_) | Call::SettingOf(..) | Call::Witness => 3,
            Call::Export(..) | Call::Import(..) => 3,
            Call::Sheet(_) => 4,
        }
    }

    /// The least lengths of table, work, out and numbers.
    pub fn least(&self, file: &[u8]) -> [usize; 4] {
        let (out, numbers) = match self {
            Call::Check | Call::NumberOf(..) | Call::Overlap(..) | Call::Bounds(_) => (0, 0),
            Call::Turn => (file.len(), 0),
            Call::Run(_) | Call::SettingOf(..) | Call::Witness => (RESULT, 0),
            Call::Export(..) => (LIST, 0),
            Call::Import(..) => (FILE, 0),
            Call::Sheet(list) => {
                let queries = split(list).len();
                (queries * RESULT, queries * NUMBERS)
            }
        };
        [TABLE, WORK, out, numbers]
    }
}

/// What the checker written apart gives and leaves in the areas.
pub fn expected(known: &Known, call: Call, lent: Lent) -> Answer {
    match call {
        Call::Check => {
            let checked = known.check(lent.table, lent.work);
            Answer {
                number: checked.number.into(),
                line: checked.line,
                ..Answer::default()
            }
        }
        Call::Turn => {
            let turned = known.turn(lent.table, lent.work, lent.out);
            Answer {
                number: turned.number.into(),
                line: turned.line,
                length: turned.length,
                ..Answer::default()
            }
        }
        Call::Run(ask) => {
            let ran = known.run(lent.table, lent.work, query(ask), lent.out);
            Answer {
                number: ran.number.into(),
                count: ran.count,
                length: ran.length,
                ..Answer::default()
            }
        }
        Call::Sheet(list) => sheet(known, list, lent),
        Call::NumberOf(ty, letters) => number_of(known, ty, letters, lent),
        Call::SettingOf(ty, setting) => setting_of(known, ty, setting, lent),
        Call::Overlap(left, right) => overlap(known, left, right, lent),
        Call::Bounds(iso) => bounds(known, iso, lent),
        Call::Witness => witness(known, lent),
        Call::Export(..) | Call::Import(..) => pair_list(known, call, lent),
    }
}

fn sheet(known: &Known, list: &[u8], lent: Lent) -> Answer {
    let lent = sheet::Lent {
        table: lent.table,
        work: lent.work,
        numbers: lent.numbers,
        letters: lent.out,
    };
    let given = sheet::sheet(known, list, lent);
    Answer {
        number: given.number.into(),
        line: given.line,
        queries: given.queries,
        ..Answer::default()
    }
}

fn number_of(known: &Known, ty: u32, letters: &[u8], lent: Lent) -> Answer {
    let given = numbering::number_of(known, lent.table, lent.work, ty, letters);
    Answer {
        number: given.number.into(),
        setting: given.setting,
        ..Answer::default()
    }
}

fn setting_of(known: &Known, ty: u32, setting: u32, lent: Lent) -> Answer {
    let (table, work) = (lent.table, lent.work);
    let given = numbering::setting_of(known, table, work, ty, setting, lent.out);
    Answer {
        number: given.number.into(),
        length: given.length,
        ..Answer::default()
    }
}

fn overlap(known: &Known, left: u32, right: u32, lent: Lent) -> Answer {
    let given = overlap::overlap(known, lent.table, lent.work, left, right);
    Answer {
        number: given.number.into(),
        line: given.line,
        clash: given.clash,
        pairs: given.pairs,
        ..Answer::default()
    }
}

fn bounds(known: &Known, iso: u32, lent: Lent) -> Answer {
    let told = bounds::bounds(known, lent.table, lent.work, iso);
    Answer {
        number: told.number.into(),
        least: told.least,
        greatest: told.greatest,
        least_over: told.least_over,
        greatest_over: told.greatest_over,
        ..Answer::default()
    }
}

fn witness(known: &Known, lent: Lent) -> Answer {
    let given = witness::witness(known, lent.table, lent.work, lent.out);
    Answer {
        number: given.number.into(),
        line: given.line,
        length: given.length,
        ..Answer::default()
    }
}

/// Either way of pair lists.
fn pair_list(known: &Known, call: Call, lent: Lent) -> Answer {
    let (table, work, out) = (lent.table, lent.work, lent.out);
    let given = match call {
        Call::Export(iso, budget) => pair_lists::export(known, table, work, (iso, budget), out),
        Call::Import(from, to, list) => {
            pair_lists::import(known, table, work, (from, to, list), out)
        }
        _ => unreachable!("only pair lists get here"),
    };
    Answer {
        number: given.number.into(),
        line: given.line,
        length: given.length,
        ..Answer::default()
    }
}

/// No file has an iso 65,535, nor one above it.
pub fn query(ask: Ask) -> Query {
    Query {
        iso: u16::try_from(ask.iso).unwrap_or(u16::MAX),
        back: ask.back,
        budget: ask.budget,
        value: ask.letters,
    }
}

/// The run that a well formed query line asks for.
pub fn ask(query: Query) -> Ask {
    Ask {
        iso: query.iso.into(),
        back: query.back,
        budget: query.budget,
        letters: query.value,
    }
}
