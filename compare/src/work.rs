//! The whole comparison: blocks of cases, taken by threads one after the
//! other. What is made depends on the seed alone.

use crate::arguments::Arguments;
use crate::block::Block;
use crate::case::{always, Case};
use crate::desk::Process;
use crate::library::Library;
use crate::tally::Tally;
use apart::generate::random::Random;
use std::io;
use std::sync::atomic::{AtomicUsize, Ordering};
use std::sync::Mutex;
use std::thread;

pub const BLOCKS: usize = 40;

/// The cases of all blocks but the last one of each, which is an accepted file
/// with all queries that are still due. Those that every run has are spread
/// evenly.
pub fn cases(files: usize) -> Vec<Case> {
    let always = always();
    let count = files.saturating_sub(BLOCKS).max(always.len());
    let share = |place: usize| place * always.len() / count;
    let case = |place: usize| {
        if share(place) < share(place + 1) {
            always[share(place)]
        } else {
            Case::Any
        }
    };
    (0..count).map(case).collect()
}

/// Compares all; what comes out is the same for any number of threads.
pub fn compare(wanted: &Arguments) -> io::Result<Tally> {
    let cases = cases(wanted.files);
    let next = AtomicUsize::new(0);
    let done = Mutex::new((0..BLOCKS).map(|_| None).collect::<Vec<_>>());
    thread::scope(|scope| {
        for _ in 0..wanted.threads {
            scope.spawn(|| loop {
                let number = next.fetch_add(1, Ordering::Relaxed);
                if number >= BLOCKS {
                    return;
                }
                let tally = block(wanted, &cases, number);
                done.lock().expect("no other thread panics")[number] = Some(tally);
            });
        }
    });
    let mut all = Tally::default();
    for tally in done.into_inner().expect("no thread panics").into_iter() {
        all.add(tally.expect("each block is done")?);
    }
    Ok(all)
}

/// Compares the cases of one block.
fn block(wanted: &Arguments, cases: &[Case], number: usize) -> io::Result<Tally> {
    let range = |all: usize| all * number / BLOCKS..all * (number + 1) / BLOCKS;
    let queries = range(wanted.queries).len();
    let places = range(cases.len());
    let own = &cases[places.clone()];
    let program = Process {
        path: wanted.rules.clone(),
    };
    let seed = wanted.seed.wrapping_mul(1_000_003);
    let mut random = Random::new(!seed.wrapping_add(number as u64));
    let library = Library::new(random.number());
    let mut block = Block::new(program, library, &mut random);
    let mut answered = 0;
    for (place, case) in own.iter().chain([&Case::Accepted]).enumerate() {
        // The last cases of the blocks are numbered behind all others.
        let number = if place < own.len() {
            places.start + place
        } else {
            cases.len() + number
        };
        let mut random = Random::new(seed.wrapping_add(number as u64));
        block.tally.case = number;
        let due = queries * (place + 1) / (own.len() + 1);
        answered += block.case(&mut random, *case, due.saturating_sub(answered))?;
    }
    Ok(block.tally)
}
