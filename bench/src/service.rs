//! The services, asked of either implementation.

use crate::answer::Answer;
use crate::call::{Areas, Call};
use apart::areas::{check_areas, run_areas, turn_areas, Known};
use apart::bounds::bounds;
use apart::numbering::{number_of, setting_of};
use apart::overlap::overlap;
use apart::pair_lists::{export, import};
use apart::sheet::{sheet, Lent};
use apart::units;
use apart::witness::witness;
use rulefile::{Direction, Tally};

/// What a run forward is asked.
#[derive(Clone)]
pub struct Asked {
    pub iso: u16,
    pub value: Vec<u8>,
    pub budget: u32,
}

impl Asked {
    /// The line of a list of queries.
    pub fn line(&self) -> Vec<u8> {
        let head = format!("Q,{},0,{},", self.iso, self.budget).into_bytes();
        [head, self.value.clone(), b"\n".to_vec()].concat()
    }
}

/// A unit of a play.
#[derive(Clone, Copy, PartialEq, Eq, Debug)]
pub struct Unit {
    pub ty: u32,
    pub setting: u32,
}

/// A visit of a play, forward.
#[derive(Clone, Copy)]
pub struct Visit {
    pub unit: usize,
    pub iso: u16,
}

impl Visit {
    /// The line of a script.
    pub fn line(&self) -> String {
        format!("S,{},{},0\n", self.unit, self.iso)
    }
}

/// What a play is asked, and what is left of the units.
pub struct Play {
    pub script: Vec<u8>,
    pub budget: u32,
    pub before: Vec<Unit>,
    pub after: Vec<Unit>,
}

pub enum Service {
    Check,
    Turn,
    Run(Asked),
    /// A list of query lines in one call.
    Sheet(Vec<u8>),
    /// The same queries, each by a run of its own.
    Runs(Vec<Asked>),
    /// Several sheets, one call after the other.
    Sheets(Vec<Call>),
    /// A script of visits in one call.
    Play(Play),
    /// The number of a setting of a T line.
    Number(u32, Vec<u8>),
    /// The setting of a T line that has a number.
    Setting(u32, u32),
    /// Two P lines compared.
    Overlap(u32, u32),
    /// The bounds of an iso.
    Bounds(u32),
    /// A setting that shows the fault.
    Witness,
    /// An iso as a pair list, with a budget for each pair.
    Export(u32, u32),
    /// A file out of a pair list, from a T line to itself.
    Import(u32, Vec<u8>),
}

pub fn by_proved(file: &[u8], service: &Service, areas: &mut Areas) -> Answer {
    let Areas {
        table,
        work,
        output,
        numbers,
        ..
    } = areas;
    let given = match service {
        Service::Check => rulefile::check(file, table, work).map(|()| Answer::default()),
        Service::Turn => rulefile::turn(file, table, work, output).map(Answer::of_length),
        Service::Run(asked) => Ok(run_by_proved(file, asked, table, work, output)),
        Service::Sheet(queries) => {
            rulefile::sheet(file, table, work, queries, numbers, output).map(Answer::of_queries)
        }
        Service::Runs(_) | Service::Sheets(_) => unreachable!("made one by one"),
        Service::Play(play) => return play_by_proved(file, play, areas),
        Service::Number(ty, letters) => {
            rulefile::number_of(file, table, work, *ty, letters).map(Answer::of_setting)
        }
        Service::Setting(ty, setting) => {
            rulefile::setting_of(file, table, work, *ty, *setting, output).map(Answer::of_length)
        }
        Service::Overlap(left, right) => {
            rulefile::overlap(file, table, work, *left, *right).map(Answer::of_overlap)
        }
        Service::Bounds(iso) => rulefile::bounds(file, table, work, *iso).map(Answer::of_bounds),
        Service::Witness => {
            let shown = rulefile::witness(file, table, work, output);
            return shown.map_or_else(Answer::from, |()| Answer::default());
        }
        Service::Export(iso, budget) => {
            rulefile::export(file, table, work, *iso, *budget, output).map(Answer::of_length)
        }
        Service::Import(ty, list) => {
            rulefile::import(file, table, work, [*ty; 2], list, output).map(Answer::of_length)
        }
    };
    given.unwrap_or_else(Answer::from)
}

pub fn by_apart(file: &[u8], service: &Service, areas: &mut Areas) -> Answer {
    let Areas {
        table,
        work,
        output,
        numbers,
        ..
    } = areas;
    let known = || Known::of(file);
    match service {
        Service::Check => check_areas(file, table, work).into(),
        Service::Turn => turn_areas(file, table, work, output).into(),
        Service::Run(asked) => run_by_apart(file, asked, table, work, output),
        Service::Sheet(queries) => {
            let lent = Lent {
                table,
                work,
                numbers,
                letters: output,
            };
            sheet(&known(), queries, lent).into()
        }
        Service::Runs(_) | Service::Sheets(_) => unreachable!("made one by one"),
        Service::Play(play) => play_by_apart(file, play, areas),
        Service::Number(ty, letters) => number_of(&known(), table, work, *ty, letters).into(),
        Service::Setting(ty, setting) => {
            setting_of(&known(), table, work, *ty, *setting, output).into()
        }
        Service::Overlap(left, right) => overlap(&known(), table, work, *left, *right).into(),
        Service::Bounds(iso) => bounds(&known(), table, work, *iso).into(),
        Service::Witness => witness(&known(), table, work, output).into(),
        Service::Export(iso, budget) => {
            export(&known(), table, work, (*iso, *budget), output).into()
        }
        Service::Import(ty, list) => import(&known(), table, work, (*ty, *ty, list), output).into(),
    }
}

pub fn run_by_proved(
    file: &[u8],
    asked: &Asked,
    table: &mut [u16],
    work: &mut [u8],
    result: &mut [u8],
) -> Answer {
    let query = rulefile::Query {
        iso: u32::from(asked.iso),
        direction: Direction::Forward,
        budget: asked.budget,
        letters: &asked.value,
    };
    let ran = rulefile::run(file, table, work, query, result);
    ran.map_or_else(Answer::from, Answer::from)
}

pub fn run_by_apart(
    file: &[u8],
    asked: &Asked,
    table: &mut [u16],
    work: &mut [u8],
    result: &mut [u8],
) -> Answer {
    let query = apart::areas::Query {
        iso: asked.iso,
        back: false,
        budget: asked.budget,
        value: &asked.value,
    };
    run_areas(file, table, work, query, result).into()
}

fn play_by_proved(file: &[u8], play: &Play, areas: &mut Areas) -> Answer {
    let mut tally = Tally::default();
    let Areas { table, work, .. } = areas;
    let played = rulefile::play(
        file,
        table,
        work,
        &mut areas.types,
        &mut areas.settings,
        &play.script,
        play.budget,
        &mut tally,
    );
    played.map_or_else(Answer::from, |()| Answer::of_tally(tally))
}

fn play_by_apart(file: &[u8], play: &Play, areas: &mut Areas) -> Answer {
    let mut tally = units::Tally::default();
    let lent = units::Lent {
        table: &mut areas.table,
        work: &mut areas.work,
        types: &mut areas.types,
        settings: &mut areas.settings,
        tally: &mut tally,
    };
    let played = units::play(&Known::of(file), &play.script, play.budget, lent);
    Answer::played(played, tally)
}
