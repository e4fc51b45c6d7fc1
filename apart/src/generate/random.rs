//! A small seeded random number generator (splitmix64).

use crate::lines::LISTS;
use crate::{check_with, Refusal, Rules};

pub struct Random {
    state: u64,
    /// Whether files are made with the lines of request 14 too.
    pub lists: bool,
}

impl Random {
    pub fn new(seed: u64) -> Random {
        Random {
            state: seed,
            lists: LISTS,
        }
    }

    /// One with which files are made with the lines of request 14 too.
    pub fn with_lists(seed: u64) -> Random {
        Random {
            state: seed,
            lists: true,
        }
    }

    /// The check of a file that was made.
    pub fn check(&self, file: &[u8]) -> Result<Rules, Refusal> {
        check_with(file, self.lists)
    }

    pub fn number(&mut self) -> u64 {
        self.state = self.state.wrapping_add(0x9E37_79B9_7F4A_7C15);
        let mut mixed = self.state;
        mixed = (mixed ^ (mixed >> 30)).wrapping_mul(0xBF58_476D_1CE4_E5B9);
        mixed = (mixed ^ (mixed >> 27)).wrapping_mul(0x94D0_49BB_1331_11EB);
        mixed ^ (mixed >> 31)
    }

    /// A number below `end`, which is not 0.
    pub fn below(&mut self, end: usize) -> usize {
        (self.number() % end as u64) as usize
    }

    /// True in so many of a hundred cases.
    pub fn chance(&mut self, percent: usize) -> bool {
        self.below(100) < percent
    }

    pub fn pick<'a, T>(&mut self, from: &'a [T]) -> &'a T {
        &from[self.below(from.len())]
    }

    pub fn shuffle<T>(&mut self, things: &mut [T]) {
        for end in (1..things.len()).rev() {
            things.swap(end, self.below(end + 1));
        }
    }
}
