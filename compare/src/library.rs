//! The linked library: its exported functions and its Rust wrapper, of which
//! each call takes one at random.

use crate::foreign;
use crate::service::{Answer, Ask, Call, Lent, Services};
use apart::generate::random::Random;
use apart::units;
use rulefile::{Direction, Query, Refused, Witnessed};

pub struct Library {
    random: Random,
}

impl Library {
    pub fn new(seed: u64) -> Library {
        Library {
            random: Random::new(seed),
        }
    }
}

impl Services for Library {
    fn call(&mut self, file: &[u8], call: Call, lent: Lent) -> Answer {
        if self.random.chance(50) {
            foreign::call(file, call, lent)
        } else {
            wrapped(file, call, lent)
        }
    }

    fn play(
        &mut self,
        file: &[u8],
        (script, budget): (&[u8], u32),
        lent: units::Lent,
    ) -> (u32, usize) {
        if self.random.chance(50) {
            return foreign::play(file, script, budget, lent);
        }
        let mut record = rulefile::Tally {
            done: lent.tally.done,
            skipped: lent.tally.skipped,
            spent: lent.tally.spent,
        };
        let given = rulefile::play(
            file,
            lent.table,
            lent.work,
            lent.types,
            lent.settings,
            script,
            budget,
            &mut record,
        );
        *lent.tally = units::Tally {
            done: record.done,
            skipped: record.skipped,
            spent: record.spent,
        };
        match given {
            Ok(()) => (0, 0),
            Err(Refused { refusal, line }) => (refusal.number(), line),
        }
    }
}

/// Through the wrapper, which gives number and line alone on refusal, and the
/// length of a witness.
fn wrapped(file: &[u8], call: Call, lent: Lent) -> Answer {
    let Lent {
        table,
        work,
        out,
        numbers,
    } = lent;
    let none = Answer::default();
    let mut letters = 0;
    let given = match call {
        Call::Check => rulefile::check(file, table, work).map(|()| none),
        Call::Turn => {
            let turned = rulefile::turn(file, table, work, out);
            turned.map(|length| Answer { length, ..none })
        }
        Call::Run(ask) => {
            let ran = rulefile::run(file, table, work, query(ask), out);
            ran.map(|ran| Answer {
                count: ran.count.into(),
                length: ran.length,
                ..none
            })
        }
        Call::Sheet(list) => {
            let answered = rulefile::sheet(file, table, work, list, numbers, out);
            answered.map(|queries| Answer { queries, ..none })
        }
        Call::NumberOf(ty, letters) => {
            let given = rulefile::number_of(file, table, work, ty, letters);
            given.map(|setting| Answer { setting, ..none })
        }
        Call::SettingOf(ty, setting) => {
            let given = rulefile::setting_of(file, table, work, ty, setting, out);
            given.map(|length| Answer { length, ..none })
        }
        Call::Overlap(left, right) => {
            let given = rulefile::overlap(file, table, work, left, right);
            given.map(|given| Answer {
                clash: given.clash,
                pairs: given.pairs,
                ..none
            })
        }
        Call::Bounds(iso) => {
            let given = rulefile::bounds(file, table, work, iso);
            given.map(|bounds| Answer {
                least: bounds.least,
                greatest: bounds.greatest,
                least_over: bounds.least_over,
                greatest_over: bounds.greatest_over,
                ..none
            })
        }
        Call::Witness => {
            let given = rulefile::witness(file, table, work, out);
            given
                .map(|()| none)
                .map_err(|Witnessed { refused, length }| {
                    letters = length;
                    refused
                })
        }

        Call::Export(iso, budget) => {
            let given = rulefile::export(file, table, work, iso, budget, out);
            given.map(|length| Answer { length, ..none })
        }
        Call::Import(from, to, list) => {
            let given = rulefile::import(file, table, work, [from, to], list, out);
            given.map(|length| Answer { length, ..none })
        }
    };
    given.unwrap_or_else(|Refused { refusal, line }| Answer {
        number: refusal.number(),
        line: answered_line(file, call, Refused { refusal, line }),
        length: letters,
        ..none
    })
}

/// The line of a refusal as the library answers it. Where its answer has none,
/// the wrapper names the line of a refused file: that must be the one of Check.
fn answered_line(file: &[u8], call: Call, refused: Refused) -> usize {
    match call {
        Call::Run(_) | Call::NumberOf(..) | Call::SettingOf(..) | Call::Bounds(_) => {}
        _ => return refused.line,
    }
    let mut table = vec![0; rulefile::TABLE_LENGTH];
    let mut work = vec![0; rulefile::WORK_LENGTH];
    let checked = rulefile::check(file, &mut table, &mut work);
    let same = |checked: &Refused| checked.refusal == refused.refusal;
    let line = checked.err().filter(same).map_or(0, |checked| checked.line);
    match line == refused.line {
        true => 0,
        // which no answer has
        false => usize::MAX,
    }
}

fn query(ask: Ask) -> Query {
    let direction = if ask.back {
        Direction::Back
    } else {
        Direction::Forward
    };
    Query {
        iso: ask.iso,
        direction,
        budget: ask.budget,
        letters: ask.letters,
    }
}
