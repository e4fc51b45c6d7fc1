//! Times: the best of many rounds. The rounds of a group take turns, and so do the two implementations, so that
//! what slows the machine for a while hits all alike.

use crate::call::{Apart, Areas, Call, Implementation, Proved};
use crate::clock;
use std::hint::black_box;
use std::time::Duration;

/// How long a round takes at least, and how many rounds there are.
#[derive(Clone, Copy)]
pub struct Plan {
    pub round: Duration,
    pub rounds: usize,
}

/// A number for each implementation.
#[derive(Clone, Copy, Debug)]
pub struct Both {
    pub proved: f64,
    pub apart: f64,
}

impl Both {
    /// Above 1 where the proved one costs less.
    pub fn ratio(self) -> f64 {
        self.apart / self.proved
    }

    pub fn map(self, change: impl Fn(f64) -> f64) -> Both {
        Both {
            proved: change(self.proved),
            apart: change(self.apart),
        }
    }
}

/// What can be done a number of times under the clock.
pub trait Timed {
    fn time(&mut self, by: Implementation, count: u32) -> Duration;
}

/// A call and its areas.
pub struct Lent {
    call: Call,
    areas: Areas,
}

impl Lent {
    pub fn new(call: Call) -> Self {
        call.agree();
        let areas = Areas::new();
        Lent { call, areas }
    }
}

impl Timed for Lent {
    /// In areas as no call leaves them.
    fn time(&mut self, by: Implementation, count: u32) -> Duration {
        self.areas.soil();
        let begin = clock::own();
        for _ in 0..count {
            black_box(&self.call).make(by, black_box(&mut self.areas));
        }
        clock::own() - begin
    }
}

/// Nanoseconds each time, for each of a group.
pub fn times(group: &mut [Box<dyn Timed + '_>], plan: Plan) -> Vec<Both> {
    let mut clocks: Vec<[Clock; 2]> = group
        .iter_mut()
        .map(|one| [Proved, Apart].map(|by| Clock::new(by, one.as_mut(), plan.round)))
        .collect();
    for _ in 0..plan.rounds {
        for (one, clocks) in group.iter_mut().zip(&mut clocks) {
            clocks
                .iter_mut()
                .for_each(|clock| clock.round(one.as_mut()));
        }
    }
    let both = |[proved, apart]: [Clock; 2]| Both {
        proved: proved.best,
        apart: apart.best,
    };
    clocks.into_iter().map(both).collect()
}

/// How often something is done in a round, and nanoseconds each time in the best round.
struct Clock {
    by: Implementation,
    count: u32,
    best: f64,
}

impl Clock {
    /// With a count that fills a round.
    fn new(by: Implementation, timed: &mut dyn Timed, round: Duration) -> Self {
        let mut count = 1;
        loop {
            let spent = timed.time(by, count).as_secs_f64();
            let missing = round.as_secs_f64() / spent.max(1e-9);
            if missing <= 1.0 {
                let best = f64::INFINITY;
                return Clock { by, count, best };
            }
            count = (f64::from(count) * (missing * 1.1).clamp(1.5, 100.0)).ceil() as u32;
        }
    }

    fn round(&mut self, timed: &mut dyn Timed) {
        let spent = timed.time(self.by, self.count).as_nanos();
        self.best = self.best.min(spent as f64 / f64::from(self.count));
    }
}

#[cfg(test)]
mod tests {
    use super::*;

    /// Takes a millisecond each time, and in its second round three.
    struct Slowed {
        rounds: u32,
    }

    impl Timed for Slowed {
        fn time(&mut self, _: Implementation, count: u32) -> Duration {
            self.rounds += 1;
            Duration::from_millis(if self.rounds == 2 { 3 } else { 1 }) * count
        }
    }

    #[test]
    fn a_round_that_was_slowed_does_not_count() {
        let mut slowed = Slowed { rounds: 0 };
        // the round that finds the count takes as long as is asked for
        let mut clock = Clock::new(Proved, &mut slowed, Duration::from_millis(1));
        clock.round(&mut slowed);
        assert_eq!(clock.best, 3e6);
        clock.round(&mut slowed);
        clock.round(&mut slowed);
        assert_eq!(clock.best, 1e6);
    }
}
