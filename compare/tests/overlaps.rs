//! The overlap of two P lines: each kind of wrong answer is reported, the broken
//! law too, and what is asked is what it has to be.

mod common;

use apart::areas::{Known, TABLE, WORK};
use apart::generate::random::Random;
use common::{unspoiled, Spoil, Spoiled, S};
use compare::areas::Kind;
use compare::calls::Calls;
use compare::overlaps::broken;
use compare::service::{expected, Answer, Call, Lent, Services};
use compare::settings::{HERE, SHORT, THERE};
use compare::tally::Tally;

const CLASH: Call = Call::Overlap(5, 7);
const NONE: Call = Call::Overlap(5, 6);
const ABSENT: Call = Call::Overlap(5, 8);

/// The tally of one call on S.
fn tally(spoil: Spoil, call: Call, kind: Kind) -> Tally {
    let mut random = Random::new(1);
    let mut calls = Calls::new(Spoiled(spoil), &mut random);
    let mut tally = Tally::default();
    calls.call(&mut random, &mut tally, &Known::of(S), call, [kind; 4]);
    assert_eq!(tally.calls, 1);
    tally
}

/// All are reported of these calls with areas of these kinds.
fn reported(spoils: &[Spoil], calls: &[Call], kinds: &[Kind]) {
    for (place, spoil) in spoils.iter().enumerate() {
        for call in calls {
            for kind in kinds {
                let found = tally(*spoil, *call, *kind).mismatches;
                assert_eq!(found, 1, "{place} {call:?} {kind:?}");
            }
        }
    }
}

#[test]
fn right_answers_agree() {
    for kind in [Kind::Exact, Kind::Longer, Kind::Short, Kind::Empty] {
        for (call, number) in [(CLASH, 0), (NONE, 0), (ABSENT, 15)] {
            let short = matches!(kind, Kind::Short | Kind::Empty);
            let given = if short { 1 } else { number };
            let right = tally(unspoiled, call, kind);
            assert_eq!(right.mismatches, 0, "{kind:?}");
            assert_eq!(right.overlaps.numbers.count(given, HERE), 1);
            assert_eq!(right.overlaps.numbers.count(given, THERE), 1);
            assert_eq!(
                right.overlaps.numbers.count(number, SHORT),
                usize::from(short)
            );
        }
    }
}

#[test]
fn wrong_answers_are_reported() {
    let spoils: [Spoil; 6] = [
        |answer, _| answer.number += 1,
        |answer, _| answer.line += 1,
        |answer, _| answer.clash = !answer.clash,
        |answer, _| answer.pairs += 1,
        |answer, _| answer.pairs = answer.pairs.wrapping_sub(1),
        |answer, _| answer.pairs ^= 1 << 31,
    ];
    let kinds = [Kind::Exact, Kind::Longer, Kind::Short];
    reported(&spoils, &[CLASH, NONE, ABSENT], &kinds);
    // A number that nothing has is a mismatch and no more.
    let wrong = tally(|answer, _| answer.number = 16, CLASH, Kind::Exact);
    assert_eq!(wrong.mismatches, 1);
    assert_eq!(wrong.overlaps.numbers.count(0, THERE), 0);
}

#[test]
fn wrong_areas_are_reported() {
    let spoils: [Spoil; 4] = [
        |_, lent| lent.table[0] ^= 1,
        |_, lent| lent.table[TABLE - 1] ^= 1,
        |_, lent| lent.work[0] ^= 1,
        |_, lent| lent.work[WORK - 1] ^= 1,
    ];
    let calls = [CLASH, NONE, ABSENT];
    reported(&spoils, &calls, &[Kind::Exact, Kind::Longer]);
    let tails: [Spoil; 2] = [
        |_, lent| lent.table[TABLE] ^= 1,
        |_, lent| lent.work[WORK] ^= 1,
    ];
    reported(&tails, &calls, &[Kind::Longer]);
    let kept: [Spoil; 2] = [
        |_, lent| lent.table[16_000] ^= 1,
        |_, lent| lent.work[60_000] ^= 1,
    ];
    reported(&kept, &calls, &[Kind::Short]);
}

#[test]
fn the_broken_law_is_found() {
    let one = Answer {
        clash: true,
        pairs: 2,
        ..Answer::default()
    };
    assert_eq!(broken(&one, &one), None);
    for two in [
        Answer { pairs: 3, ..one },
        Answer {
            clash: false,
            ..one
        },
        Answer { number: 15, ..one },
    ] {
        assert!(broken(&one, &two).is_some());
    }
}

/// The tally of all that is asked of a file, so many times.
fn asked(services: impl Services, file: &[u8], times: usize) -> Tally {
    let mut random = Random::new(2);
    let mut calls = Calls::new(services, &mut random);
    let mut tally = Tally::default();
    let known = Known::of(file);
    for _ in 0..times {
        calls.overlaps(&mut random, &mut tally, &known);
    }
    tally
}

/// Services that compare the left line with itself where it is the larger one.
struct Lopsided;

impl Services for Lopsided {
    fn call(&mut self, file: &[u8], call: Call, lent: Lent) -> Answer {
        let call = match call {
            Call::Overlap(left, right) if left > right => Call::Overlap(left, left),
            call => call,
        };
        expected(&Known::of(file), call, lent)
    }
}

#[test]
fn whole_files_are_compared() {
    let right = asked(Spoiled(unspoiled), S, 50);
    assert_eq!(right.mismatches, 0);
    // Each node pair that S has.
    for (left, right_kind) in [(0, 0), (0, 4), (1, 1), (2, 3), (3, 2), (4, 4), (4, 1)] {
        assert!(
            right.overlaps.nodes.count(left, right_kind) > 0,
            "{left} {right_kind}"
        );
    }
    let wrong = asked(Lopsided, S, 50);
    assert!(wrong.mismatches > 50);
    let laws = |tally: &Tally| {
        let texts = tally.reports.iter().map(|report| &report.text);
        texts.filter(|text| text.contains("exchanged")).count()
    };
    assert!(laws(&wrong) > 0);
}

/// Of a file of few P lines every pair is asked for, in both orders.
#[test]
fn every_pair_of_few_lines() {
    let file = b"T,0,0,0\nT,1,0,0\nT,2,1,1\nP,0,0,0\nP,1,0,0\nP,2,0,0\nP,3,0,0\nP,4,2,1\nP,4,3,1\n\
I,2,2\nC,4,4\nC,5,5\n";
    let tally = asked(Spoiled(unspoiled), file, 1);
    assert_eq!(tally.mismatches, 0);
    // 36 pairs in both orders, and two calls more.
    assert_eq!(tally.calls, 74);
    for one in 0..5 {
        for two in 0..5 {
            assert!(tally.overlaps.nodes.count(one, two) > 0, "{one} {two}");
        }
    }
}

/// A refused file is asked for too, with Check's line.
#[test]
fn refused_files() {
    let tally = asked(Spoiled(unspoiled), b"T,0,0,0\nT,9,0,0\n", 9);
    assert_eq!(tally.mismatches, 0);
    assert_eq!(tally.overlaps.numbers.count(5, HERE), 9);
    assert_eq!(tally.overlaps.numbers.count(5, SHORT), 9);
}
