//! What a call gives, whichever implementation makes it.

use apart::areas::{Checked, Ran, Turned};
use apart::bounds::Bounded;
use apart::numbering::{Lettered, Numbered};
use apart::overlap::Overlapped;
use apart::pair_lists::Written;
use apart::sheet::Sheet;
use apart::units::{self, Played};
use apart::witness;
use rulefile::{Bounds, Overlap, Refused, Tally, Witnessed};

/// 0 and none where the service gives nothing of the kind.
#[derive(Clone, Copy, PartialEq, Eq, Debug, Default)]
pub struct Answer {
    pub number: u32,
    pub line: usize,
    pub count: u64,
    pub length: usize,
    pub queries: usize,
    pub setting: u32,
    pub overlap: Option<Overlap>,
    pub bounds: Option<Bounds>,
    pub tally: Option<Tally>,
}

impl Answer {
    pub fn refused(number: u32, line: usize) -> Self {
        Answer {
            number,
            line,
            ..Answer::default()
        }
    }

    pub fn of_length(length: usize) -> Self {
        Answer {
            length,
            ..Answer::default()
        }
    }

    pub fn of_queries(queries: usize) -> Self {
        Answer {
            queries,
            ..Answer::default()
        }
    }

    pub fn of_setting(setting: u32) -> Self {
        Answer {
            setting,
            ..Answer::default()
        }
    }

    pub fn of_overlap(overlap: Overlap) -> Self {
        Answer {
            overlap: Some(overlap),
            ..Answer::default()
        }
    }

    pub fn of_bounds(bounds: Bounds) -> Self {
        Answer {
            bounds: Some(bounds),
            ..Answer::default()
        }
    }

    pub fn of_tally(tally: Tally) -> Self {
        Answer {
            tally: Some(tally),
            ..Answer::default()
        }
    }

    /// What the checker written apart gives for a play.
    pub fn played(given: Played, tally: units::Tally) -> Self {
        let units::Tally {
            done,
            skipped,
            spent,
        } = tally;
        let tally = Tally {
            done,
            skipped,
            spent,
        };
        Answer {
            tally: (given.number == 0).then_some(tally),
            ..Answer::lined(given.number, given.line, 0)
        }
    }

    /// A number, a line and a length, as several services give them.
    fn lined(number: u8, line: usize, length: usize) -> Self {
        Answer {
            length,
            ..Answer::refused(number.into(), line)
        }
    }
}

impl From<Refused> for Answer {
    fn from(refused: Refused) -> Self {
        Answer::refused(refused.refusal.number(), refused.line)
    }
}

impl From<Witnessed> for Answer {
    fn from(Witnessed { refused, length }: Witnessed) -> Self {
        Answer {
            length,
            ..Answer::from(refused)
        }
    }
}

impl From<rulefile::Ran> for Answer {
    fn from(ran: rulefile::Ran) -> Self {
        Answer {
            count: u64::from(ran.count),
            ..Answer::of_length(ran.length)
        }
    }
}

impl From<Checked> for Answer {
    fn from(given: Checked) -> Self {
        Answer::lined(given.number, given.line, 0)
    }
}

impl From<Turned> for Answer {
    fn from(given: Turned) -> Self {
        Answer::lined(given.number, given.line, given.length)
    }
}

impl From<Ran> for Answer {
    fn from(given: Ran) -> Self {
        Answer {
            count: given.count,
            ..Answer::lined(given.number, 0, given.length)
        }
    }
}

impl From<Sheet> for Answer {
    fn from(given: Sheet) -> Self {
        Answer {
            queries: given.queries,
            ..Answer::lined(given.number, given.line, 0)
        }
    }
}

impl From<Numbered> for Answer {
    fn from(given: Numbered) -> Self {
        Answer {
            setting: given.setting,
            ..Answer::lined(given.number, 0, 0)
        }
    }
}

impl From<Lettered> for Answer {
    fn from(given: Lettered) -> Self {
        Answer::lined(given.number, 0, given.length)
    }
}

impl From<Overlapped> for Answer {
    fn from(given: Overlapped) -> Self {
        let overlap = Overlap {
            clash: given.clash,
            pairs: given.pairs,
        };
        Answer {
            overlap: (given.number == 0).then_some(overlap),
            ..Answer::lined(given.number, given.line, 0)
        }
    }
}

impl From<Bounded> for Answer {
    fn from(given: Bounded) -> Self {
        let bounds = Bounds {
            least: given.least,
            greatest: given.greatest,
            least_over: given.least_over,
            greatest_over: given.greatest_over,
        };
        Answer {
            bounds: (given.number == 0).then_some(bounds),
            ..Answer::lined(given.number, 0, 0)
        }
    }
}

impl From<witness::Witnessed> for Answer {
    fn from(given: witness::Witnessed) -> Self {
        Answer::lined(given.number, given.line, given.length)
    }
}

impl From<Written> for Answer {
    fn from(given: Written) -> Self {
        Answer::lined(given.number, given.line, given.length)
    }
}
