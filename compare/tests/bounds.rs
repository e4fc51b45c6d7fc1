//! Steps known beforehand: each kind of wrong answer is reported, each broken
//! promise too, and what is asked is what it has to be.

mod common;

use apart::areas::{Known, TABLE, WORK};
use apart::generate::random::Random;
use common::{unspoiled, Spoil, Spoiled, S};
use compare::areas::Kind;
use compare::bounds::{
    broken, cases, file, ALL_SPENT, AT_GREATEST, BELOW_LEAST, FLAGGED, GREATEST, LEAST,
    NOT_FLAGGED, NO_LETS, REACHED, TURNED_ALIKE,
};
use compare::calls::Calls;
use compare::case::Case;
use compare::service::{Answer, Call};
use compare::settings::{HERE, SHORT, THERE};
use compare::tally::Tally;

/// The bounds are 1 and 2.
const BOUNDS: Call = Call::Bounds(1);

/// The tally of one call on S.
fn tally(spoil: Spoil, call: Call, kind: Kind) -> Tally {
    let mut random = Random::new(1);
    let mut calls = Calls::new(Spoiled(spoil), &mut random);
    let mut tally = Tally::default();
    calls.call(&mut random, &mut tally, &Known::of(S), call, [kind; 4]);
    assert_eq!(tally.calls, 1);
    assert_eq!(tally.reports.len(), tally.mismatches);
    tally
}

/// All are reported of these calls with areas of these kinds.
fn reported(spoils: &[Spoil], calls: &[Call], kinds: &[Kind]) {
    for (place, spoil) in spoils.iter().enumerate() {
        for call in calls {
            for kind in kinds {
                let found = tally(*spoil, *call, *kind).mismatches;
                assert_eq!(found, 1, "{place} {call:?} {kind:?}");
            }
        }
    }
}

#[test]
fn right_answers_agree() {
    for kind in [Kind::Exact, Kind::Longer, Kind::Short, Kind::Empty] {
        let short = matches!(kind, Kind::Short | Kind::Empty);
        for (call, number) in [(BOUNDS, 0), (Call::Bounds(2), 15)] {
            let right = tally(unspoiled, call, kind);
            assert_eq!(right.mismatches, 0, "{kind:?}");
            let given = if short { 1 } else { number };
            assert_eq!(right.bounds.numbers.count(given, HERE), 1);
            assert_eq!(right.bounds.numbers.count(given, THERE), 1);
            let otherwise = right.bounds.numbers.count(number, SHORT);
            assert_eq!(otherwise, usize::from(short));
        }
    }
}

#[test]
fn wrong_answers_are_reported() {
    let spoils: [Spoil; 8] = [
        |answer, _| answer.number += 1,
        |answer, _| answer.line += 1,
        |answer, _| answer.least ^= 1,
        |answer, _| answer.least ^= 1 << 31,
        |answer, _| answer.greatest ^= 1,
        |answer, _| answer.greatest ^= 1 << 31,
        |answer, _| answer.least_over ^= true,
        |answer, _| answer.greatest_over ^= true,
    ];
    // Those of refusals too: "a refusal gives 0 for both, unflagged".
    let calls = [BOUNDS, Call::Bounds(0), Call::Bounds(2)];
    let kinds = [Kind::Exact, Kind::Longer, Kind::Short];
    reported(&spoils, &calls, &kinds);
}

#[test]
fn wrong_areas_are_reported() {
    let spoils: [Spoil; 4] = [
        |_, lent| lent.table[0] ^= 1,
        |_, lent| lent.table[TABLE - 1] ^= 1,
        |_, lent| lent.work[0] ^= 1,
        |_, lent| lent.work[WORK - 1] ^= 1,
    ];
    let calls = [BOUNDS, Call::Bounds(2)];
    reported(&spoils, &calls, &[Kind::Exact, Kind::Longer]);
    let tails: [Spoil; 2] = [
        |_, lent| lent.table[TABLE] ^= 1,
        |_, lent| lent.work[WORK] ^= 1,
    ];
    reported(&tails, &calls, &[Kind::Longer]);
}

/// An answer with these bounds.
fn told(least: u32, greatest: u32) -> Answer {
    Answer {
        least,
        greatest,
        ..Answer::default()
    }
}

/// The answer of a run.
fn ran(number: u32, count: u64) -> Answer {
    Answer {
        number,
        count,
        ..Answer::default()
    }
}

#[test]
fn broken_promises_are_found() {
    let wide = told(3, 5);
    for (budget, given, holds) in [
        (5, ran(0, 3), true),
        (5, ran(0, 5), true),
        (9, ran(0, 4), true),
        (4, ran(17, 0), true),
        (2, ran(17, 0), true),
        (5, ran(0, 2), false),
        (9, ran(0, 6), false),
        (5, ran(17, 0), false),
        (u32::MAX, ran(17, 0), false),
        (2, ran(0, 3), false),
        (5, ran(16, 0), false),
        (5, ran(15, 0), false),
    ] {
        let found = broken(&wide, budget, &given);
        assert_eq!(found.is_none(), holds, "{budget} {given:?}");
    }
    // A flagged greatest is no bound; where the least is flagged too, every run
    // is refused.
    let mut flagged = told(3, u32::MAX);
    flagged.greatest_over = true;
    assert_eq!(broken(&flagged, u32::MAX, &ran(17, 0)), None);
    assert_eq!(broken(&flagged, 9, &ran(0, 9)), None);
    assert!(broken(&flagged, 9, &ran(0, 2)).is_some());
    flagged.least_over = true;
    flagged.least = u32::MAX;
    assert_eq!(broken(&flagged, u32::MAX, &ran(17, 0)), None);
    let reached = ran(0, u32::MAX.into());
    assert!(broken(&flagged, u32::MAX, &reached).is_some());
}

/// What is compared of a case's file.
fn compared(spoil: Spoil, case: Case, seed: u64) -> Tally {
    let mut random = Random::new(seed);
    let mut calls = Calls::new(Spoiled(spoil), &mut random);
    let mut tally = Tally::default();
    let file = file(&mut random, case);
    let known = Known::of(&file);
    calls.bounds(&mut random, &mut tally, case, &known);
    tally
}

/// The answer for a case is held to the checker written apart and to numbers
/// made by hand, so that a spoiled one is reported twice.
#[test]
fn cases_at_the_limit() {
    let mut all = Tally::default();
    for (place, case) in cases().into_iter().enumerate() {
        let right = compared(unspoiled, case, place as u64);
        assert_eq!(right.mismatches, 0, "{case:?}");
        all.add(right);
        let spoils: [Spoil; 2] = [
            |answer, _| answer.greatest_over ^= answer.greatest > 9,
            |answer, _| answer.greatest -= u32::from(answer.greatest == u32::MAX),
        ];
        let wrong = compared(spoils[0], case, place as u64);
        assert!(wrong.mismatches >= 2, "{case:?}");
        if case != Case::Bounded(0, true) && case != Case::Bounded(0, false) {
            let wrong = compared(spoils[1], case, place as u64);
            assert!(wrong.mismatches >= 2, "{case:?}");
        }
    }
    let kinds = &all.bounds.kinds;
    for row in [FLAGGED, NOT_FLAGGED, REACHED] {
        for column in [LEAST, GREATEST] {
            assert!(kinds.count(row, column) > 0, "{row} {column}");
        }
    }
    for row in [AT_GREATEST, BELOW_LEAST, ALL_SPENT] {
        for column in [0, 1] {
            assert!(all.bounds.runs.count(row, column) > 0, "{row} {column}");
        }
    }
}

#[test]
fn bounds_of_an_iso_without_let_steps_are_reached() {
    let known = Known::of(b"T,0,0,0\nP,0,0,0\nI,0,0\nC,0,0\n");
    let mut random = Random::new(4);
    let mut calls = Calls::new(Spoiled(unspoiled), &mut random);
    let mut tally = Tally::default();
    calls.bounds(&mut random, &mut tally, Case::Accepted, &known);
    assert_eq!(tally.mismatches, 0);
    for column in [0, 1] {
        assert_eq!(tally.bounds.runs.count(NO_LETS, column), 1);
        assert_eq!(tally.bounds.kinds.count(REACHED, column), 2);
    }
}

/// Bounds of the turned file that differ are reported.
#[test]
fn turned_files_are_alike() {
    for (spoil, wanted) in [
        (unspoiled as Spoil, 0),
        (|answer, lent| answer.least += u32::from(lent.table[61]), 3),
    ] {
        let mut random = Random::new(3);
        let mut calls = Calls::new(Spoiled(spoil), &mut random);
        let known = Known::of(S);
        let Ok(rules) = &known.checked else {
            unreachable!("S is accepted")
        };
        let turned = apart::turn_rules(rules);
        let other = Known::of(&turned);
        let mut tally = Tally::default();
        calls.turned_alike(&mut random, &mut tally, &known, &other);
        assert_eq!(tally.mismatches, wanted);
        assert_eq!(tally.bounds.isos.count(TURNED_ALIKE, 0), 1);
    }
}
