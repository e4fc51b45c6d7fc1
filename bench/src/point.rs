//! What is measured: points, each of a series of calls that grow.

use crate::call::Call;
use crate::desk::{Desk, Queries};
use crate::inputs;
use crate::long::long;
use crate::measure::{Lent, Timed};
use crate::service::{Unit, Visit};
use crate::single::SINGLES;
use crate::worst::CANDIDATES;

#[derive(Clone, Copy, PartialEq, Eq, Hash, Debug)]
pub enum Series {
    S,
    Lines,
    Clauses,
    Isos,
    Many,
    Closed,
    Pairs,
    Nodes,
    Worst,
    Turn,
    Single,
    Applications,
    Swap,
    Swaps,
    Sheet,
    Runs,
    LongSheet,
    LongRuns,
    Play,
    Sheets,
    LongPlay,
    LongSheets,
    Zoned,
    Desk,
}

use Series::{Applications, Clauses, Isos, Lines, Nodes, Single, Swap, Swaps, Turn, Worst, S};
use Series::{Closed, Many, Pairs, Zoned};
use Series::{LongPlay, LongRuns, LongSheet, LongSheets, Play, Runs, Sheet, Sheets};

const NAMES: [(Series, &str); 24] = [
    (S, "s"),
    (Lines, "lines"),
    (Clauses, "clauses"),
    (Isos, "isos"),
    (Many, "many"),
    (Closed, "closed"),
    (Pairs, "pairs"),
    (Nodes, "nodes"),
    (Worst, "worst"),
    (Turn, "turn"),
    (Single, "single"),
    (Applications, "applications"),
    (Swap, "swap"),
    (Swaps, "swaps"),
    (Sheet, "sheet"),
    (Runs, "runs"),
    (LongSheet, "long-sheet"),
    (LongRuns, "long-runs"),
    (Play, "play"),
    (Sheets, "sheets"),
    (LongPlay, "long-play"),
    (LongSheets, "long-sheets"),
    (Zoned, "zoned"),
    (Series::Desk, "desk"),
];

impl Series {
    pub fn name(self) -> &'static str {
        NAMES[self as usize].1
    }

    pub fn named(name: &str) -> Option<Series> {
        let entry = NAMES.iter().find(|entry| entry.1 == name)?;
        Some(entry.0)
    }
}

/// A series, and a size in it: lines, clauses, isos, nodes, queries or visits; the place of a candidate or of a
/// single call, from 1; a power of two, one above the number of applications; or zones, where 1 stands for Check and 2
/// for Turn.
#[derive(Clone, Copy, PartialEq, Eq, Hash, Debug)]
pub struct Point {
    pub series: Series,
    pub size: usize,
}

impl Point {
    pub fn new(series: Series, size: usize) -> Self {
        Point { series, size }
    }

    /// The call of a point, which the desk program has not.
    pub fn call(self) -> Call {
        let Point { series, size } = self;
        let level = size.ilog2();
        match series {
            S => Call::check(inputs::s()),
            Lines => Call::check(long(size)),
            Clauses => Call::check(inputs::wide(32, 5, level as usize)),
            Isos => Call::check(inputs::wide(size, 5, 5)),
            Many => Call::check(inputs::wide(1, 7, level as usize)),
            Closed => Call::check(inputs::wide(size, 7, 7)),
            Pairs => Call::check(inputs::units_and_pairs()),
            Nodes => Call::check(inputs::nodes(size)),
            Worst => (CANDIDATES[size - 1].call)(),
            Turn => Call::turn(long(size)),
            Single => (SINGLES[size - 1].call)(),
            Applications => self.tower(inputs::tower(), level as u16 - 1, b"LU".to_vec()),
            Swap => {
                let [value, given] = [false, true].map(inputs::swap_value);
                Call::run(inputs::swap(1), 0, value, 1, given)
            }
            Swaps => self.tower(inputs::swap(32), level as u16, inputs::swap_value(false)),
            Sheet => Call::sheet(inputs::s(), vec![inputs::asked_of_s(); size]),
            Runs => Call::runs(inputs::s(), vec![inputs::asked_of_s(); size]),
            LongSheet => Call::sheet(long(4_096), vec![inputs::asked_of_long(); size]),
            LongRuns => Call::runs(long(4_096), vec![inputs::asked_of_long(); size]),
            Play | Sheets => {
                let asked = inputs::asked_of_s();
                let (units, visits) = (inputs::units(2, [0, 1]), inputs::visits(asked.iso, size));
                self.played(inputs::s(), units, &visits, asked.budget)
            }
            LongPlay | LongSheets => {
                let asked = inputs::asked_of_long();
                let units = inputs::units(inputs::TYPE_OF_LONG, [0, 9]);
                let visits = inputs::visits(asked.iso, size);
                self.played(long(4_096), units, &visits, asked.budget)
            }
            Zoned => match size {
                1 => Call::check(inputs::zoned()),
                2 => Call::turn(inputs::zoned()),
                _ => inputs::zoned_run(size),
            },
            Series::Desk => unreachable!("the desk program is no call"),
        }
    }

    /// A run of a tower, which gives its value again.
    fn tower(self, file: Vec<u8>, iso: u16, value: Vec<u8>) -> Call {
        Call::run(file, iso, value.clone(), self.amount(), value)
    }

    /// A play, or the same runs in sheets.
    fn played(self, file: Vec<u8>, units: Vec<Unit>, visits: &[Visit], budget: u32) -> Call {
        match self.series {
            Play | LongPlay => Call::play(file, units, visits, budget),
            _ => Call::sheets(file, units, visits, budget),
        }
    }

    /// What is timed.
    pub fn timed(self, desk: &Desk) -> Box<dyn Timed + '_> {
        match self.series {
            Series::Desk => Box::new(Queries {
                desk,
                count: self.size,
            }),
            _ => Box::new(Lent::new(self.call())),
        }
    }

    /// What the size stands for: as many lines, applications, queries and so on.
    pub fn amount(self) -> u32 {
        match self.series {
            Applications | Swaps => self.size as u32 - 1,
            _ => self.size as u32,
        }
    }

    /// The applications or queries among which a cost is parted; 1 where it is a call's.
    pub fn parts(self) -> u32 {
        match self.series {
            Applications | Swaps | Series::Desk => self.amount(),
            Sheet | Runs | LongSheet | LongRuns => self.amount(),
            Play | Sheets | LongPlay | LongSheets => self.amount(),
            _ => 1,
        }
    }
}

#[cfg(test)]
mod tests {
    use super::*;

    #[test]
    fn every_series_has_its_name() {
        for (series, name) in NAMES {
            assert_eq!(series.name(), name);
            assert_eq!(Series::named(name), Some(series));
        }
    }

    #[test]
    fn runs_give_the_expected_answers() {
        for point in [(Applications, 1 << 10), (Swap, 127), (Swaps, 1 << 4)] {
            Point::new(point.0, point.1).call().agree();
        }
        for series in [Sheet, Runs, LongSheet, LongRuns] {
            for size in [1, 3] {
                Point::new(series, size).call().agree();
            }
        }
        Point::new(Sheet, 600).call().agree();
        for size in [1, 2, inputs::ZONES] {
            Point::new(Zoned, size).call().agree();
        }
        for series in [Play, Sheets, LongPlay, LongSheets] {
            for size in [1, 1_201] {
                Point::new(series, size).call().agree();
            }
        }
    }
}
