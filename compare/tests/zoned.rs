//! Request 14: wrong answers of runs to a ceiling, of 23 and of 18 are reported,
//! and right ones are counted.

mod common;

use apart::areas::Known;
use apart::desk::desk;
use apart::generate::breach::BREACHES;
use apart::generate::large::CAUSES;
use apart::generate::random::Random;
use apart::generate::zoned::ENDINGS;
use common::{unspoiled, Spoil, Spoiled};
use compare::block::Block;
use compare::case::Case;
use compare::desk::Program;
use compare::tally::Tally;
use compare::zoned::{self, cases};
use std::io;

struct Desk;

impl Program for Desk {
    fn printed(&mut self, input: &[u8]) -> io::Result<Vec<u8>> {
        Ok(desk(input))
    }
}

fn compared(all: &[Case], spoil: Spoil) -> Tally {
    let mut random = Random::new(3);
    let mut block = Block::new(Desk, Spoiled(spoil), &mut random);
    for (place, case) in all.iter().enumerate() {
        let mut random = Random::new(place as u64);
        block.case(&mut random, *case, 3).unwrap();
    }
    block.tally
}

/// One of each case that every run has.
fn each() -> Vec<Case> {
    let mut each: Vec<Case> = Vec::new();
    for case in cases() {
        if !each.contains(&case) {
            each.push(case);
        }
    }
    each
}

#[test]
fn right_answers_agree_and_are_counted() {
    let tally = compared(&each(), unspoiled);
    assert_eq!(tally.mismatches, 0);
    for place in 0..BREACHES.len() {
        assert!(tally.zoned.recursion.count(2 + place, 0) > 0);
    }
    assert!(tally.zoned.recursion.missing().is_empty());
    assert!(tally.zoned.large.missing().is_empty());
    assert!(tally.zoned.before.count(1, 0) > 20);
    let files = |column| (0..ENDINGS.len()).all(|row| tally.zoned.files.count(row, column) > 0);
    assert!(files(zoned::RULES) && files(zoned::LIBRARY) && files(zoned::TURNED));
}

#[test]
fn wrong_numbers_are_reported() {
    let large: Vec<Case> = each()
        .into_iter()
        .filter(|case| matches!(case, Case::Large(..)))
        .collect();
    assert!(large.len() > CAUSES.len());
    let late: Spoil = |answer, _| {
        if answer.number == 24 {
            answer.number = 17;
        }
    };
    assert!(compared(&large, late).mismatches > 20);
    let early: Spoil = |answer, _| {
        if answer.number == 17 {
            answer.number = 24;
        }
    };
    assert!(compared(&large, early).mismatches > 20);
    let zoned = ENDINGS.map(Case::Zoned).repeat(3);
    let taken: Spoil = |answer, _| {
        if answer.number == 18 {
            answer.number = 0;
        }
    };
    assert!(compared(&zoned, taken).mismatches > 5);
    let breaches: Vec<Case> = (0..BREACHES.len()).map(Case::Breach).collect();
    let moved: Spoil = |answer, _| answer.line += usize::from(answer.number == 23);
    assert!(compared(&breaches, moved).mismatches >= BREACHES.len());
}

/// A file that has to be refused with 23 and is accepted breaks a promise.
#[test]
fn a_broken_promise_is_reported() {
    let mut random = Random::new(6);
    let mut block = Block::new(Desk, Spoiled(unspoiled), &mut random);
    block.promised(Case::Breach(0), &Known::of(common::S), Some((23, 3)));
    assert_eq!(block.tally.mismatches, 1);
}
