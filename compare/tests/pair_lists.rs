//! Pair lists in and out: each kind of wrong answer is reported, each broken law
//! too, and what is asked is what it has to be.

mod common;

use apart::areas::{Known, TABLE, WORK};
use apart::check;
use apart::generate::listed;
use apart::generate::random::Random;
use apart::pair_lists::{FILE, LIST};
use common::{unspoiled, Spoil, Spoiled, S};
use compare::areas::Kind;
use compare::calls::Calls;
use compare::case::Case;
use compare::list_faults::{pairs, Slip, OF_EXPORT, OF_IMPORT};
use compare::list_trips::{exchanged, tos, without_returns};
use compare::pair_lists::{
    cases, enough, AT_NEED, BELOW_NEED, BUDGET_0, EXPORT, EXPORT_IMPORT_EXPORT, FEEDS, FIRST_LINES,
    IMPORT, IMPORTED_AGAIN, IMPORT_EXPORT, ONE, RETURNS, RUNS_ALIKE, SAME_LINE, TURNED,
};
use compare::service::Call;
use compare::settings::{HERE, SHORT, THERE};
use compare::tally::Tally;

/// The list is `0,1 1,0 2,2 3,3`.
const OUT: Call = Call::Export(1, 2);
const IN: Call = Call::Import(2, 2, b"0,1\n1,0\n2,2\n3,3\n");
const SPENT: Call = Call::Export(1, 1);
const BAD: Call = Call::Import(2, 2, b"0,1\n1,0\n2,2\n3,2\n");

/// The tally of one call on S.
fn tally(spoil: Spoil, call: Call, kind: Kind) -> Tally {
    let mut random = Random::new(1);
    let mut calls = Calls::new(Spoiled(spoil), &mut random);
    let mut tally = Tally::default();
    calls.call(&mut random, &mut tally, &Known::of(S), call, [kind; 4]);
    assert_eq!(tally.calls, 1);
    assert_eq!(tally.reports.len(), tally.mismatches);
    tally
}

/// All are reported of these calls with areas of these kinds.
fn reported(spoils: &[Spoil], calls: &[Call], kinds: &[Kind]) {
    for (place, spoil) in spoils.iter().enumerate() {
        for call in calls {
            for kind in kinds {
                let found = tally(*spoil, *call, *kind).mismatches;
                assert_eq!(found, 1, "{place} {call:?} {kind:?}");
            }
        }
    }
}

#[test]
fn right_answers_agree() {
    for kind in [Kind::Exact, Kind::Longer, Kind::Short, Kind::Empty] {
        let short = matches!(kind, Kind::Short | Kind::Empty);
        for (call, number) in [(OUT, 0), (SPENT, 17), (IN, 0), (BAD, 20)] {
            let right = tally(unspoiled, call, kind);
            assert_eq!(right.mismatches, 0, "{kind:?}");
            let lists = &right.pair_lists;
            let grid = match call {
                Call::Export(..) => &lists.export,
                _ => &lists.import,
            };
            let given = if short { 1 } else { number };
            assert_eq!(grid.count(given, HERE), 1);
            assert_eq!(grid.count(given, THERE), 1);
            assert_eq!(grid.count(number, SHORT), usize::from(short));
        }
    }
}

#[test]
fn wrong_answers_are_reported() {
    let spoils: [Spoil; 3] = [
        |answer, _| answer.number += 1,
        |answer, _| answer.line += 1,
        |answer, _| answer.length += 1,
    ];
    let calls = [
        OUT,
        SPENT,
        IN,
        BAD,
        Call::Export(2, 2),
        Call::Import(2, 3, b""),
    ];
    let kinds = [Kind::Exact, Kind::Longer, Kind::Short];
    reported(&spoils, &calls, &kinds);
}

#[test]
fn wrong_areas_are_reported() {
    let spoils: [Spoil; 6] = [
        |_, lent| lent.table[0] ^= 1,
        |_, lent| lent.table[TABLE - 1] ^= 1,
        |_, lent| lent.work[0] ^= 1,
        |_, lent| lent.work[WORK - 1] ^= 1,
        |_, lent| lent.out[0] ^= 1,
        |_, lent| lent.out[LIST - 1] ^= 1,
    ];
    let calls = [OUT, SPENT, IN, BAD];
    reported(&spoils, &calls, &[Kind::Exact, Kind::Longer]);
    let tails: [Spoil; 2] = [
        |_, lent| lent.table[TABLE] ^= 1,
        |_, lent| lent.work[WORK] ^= 1,
    ];
    reported(&tails, &calls, &[Kind::Longer]);
    reported(
        &[|_, lent| lent.out[LIST] ^= 1],
        &[OUT, SPENT],
        &[Kind::Longer],
    );
    reported(
        &[|_, lent| lent.out[FILE - 1] ^= 1],
        &[IN, BAD],
        &[Kind::Exact],
    );
    reported(
        &[|_, lent| lent.out[FILE] ^= 1],
        &[IN, BAD],
        &[Kind::Longer],
    );
}

/// What a call is like is counted by what it asks and is given.
#[test]
fn calls_are_counted_by_what_they_are_like() {
    let returns = Call::Import(2, 2, b"0,1\r\n1,0\r\n2,2\r\n3,3\r\n");
    let one = Call::Import(0, 0, b"0,0\n");
    for (call, row, column, count) in [
        (OUT, AT_NEED, EXPORT, 1),
        (OUT, BELOW_NEED, EXPORT, 0),
        (SPENT, BELOW_NEED, EXPORT, 1),
        (SPENT, AT_NEED, EXPORT, 0),
        (SPENT, BUDGET_0, EXPORT, 0),
        (Call::Export(0, 0), BUDGET_0, EXPORT, 1),
        (IN, SAME_LINE, IMPORT, 1),
        (BAD, SAME_LINE, IMPORT, 0),
        (IN, FEEDS, IMPORT, 1),
        (IN, RETURNS, IMPORT, 0),
        (returns, FEEDS, IMPORT, 0),
        (returns, RETURNS, IMPORT, 1),
        (IN, ONE, IMPORT, 0),
        (one, ONE, IMPORT, 1),
        (IN, FIRST_LINES, IMPORT, 0),
    ] {
        let found = tally(unspoiled, call, Kind::Exact);
        let likeness = &found.pair_lists.likeness;
        assert_eq!(likeness.count(row, column), count, "{call:?} {row}");
    }
}

#[test]
fn lists_are_taken_apart() {
    assert_eq!(without_returns(b"0,1\r\n1,0\n"), b"0,1\n1,0\n");
    assert_eq!(tos(b"0,1\n1,0\n"), Some(vec![1, 0]));
    assert_eq!(tos(b"0,1\n0,0\n"), None);
    assert_eq!(tos(b"0,x\n"), None);
    let turned = exchanged(b"0,2\n1,0\n2,1\n");
    assert_eq!(turned.as_deref(), Some(&b"0,1\n1,2\n2,0\n"[..]));
    assert_eq!(exchanged(b"0,0\n1,0\n"), None);
    assert_eq!(exchanged(b"0,1\n1,2\n"), None);
}

/// Trips of an iso of S: all laws are held, and spoiled ones are reported.
#[test]
fn broken_laws_are_reported() {
    let known = Known::of(S);
    let trips = |spoil: Spoil| {
        let mut random = Random::new(3);
        let mut calls = Calls::new(Spoiled(spoil), &mut random);
        let mut tally = Tally::default();
        for _ in 0..40 {
            calls.list_trip(&mut random, &mut tally, &known);
        }
        tally
    };
    let right = trips(unspoiled);
    assert_eq!(right.mismatches, 0);
    for row in [
        IMPORT_EXPORT,
        EXPORT_IMPORT_EXPORT,
        RUNS_ALIKE,
        IMPORTED_AGAIN,
        TURNED,
    ] {
        assert!(right.pair_lists.laws.count(row, 0) > 0, "{row}");
    }
    // A list of two pairs that is wrong differs from the checker written apart,
    // and breaks a law where it is not the first one of a trip.
    let calls = right.calls;
    let wrong = trips(|answer, lent| {
        if answer.length == 8 {
            lent.out.swap(2, 6);
        }
    });
    assert!(wrong.mismatches > 40, "{} of {calls}", wrong.mismatches);
    let refused = trips(|answer, _| {
        if answer.length > 50 {
            answer.number = 20;
        }
    });
    assert!(refused.mismatches > 40);
}

#[test]
fn pairs_of_faults() {
    assert_eq!(pairs(&OF_EXPORT).len(), 14);
    assert_eq!(pairs(&OF_IMPORT).len(), 34);
    assert!(!pairs(&OF_IMPORT).contains(&[Slip::LongFile, Slip::RefusedFile]));
    assert!(!pairs(&OF_IMPORT).contains(&[Slip::Writing, Slip::Deep]));
    let faults = |spoil: Spoil| {
        let mut random = Random::new(4);
        let mut calls = Calls::new(Spoiled(spoil), &mut random);
        let mut tally = Tally::default();
        calls.list_faults(&mut random, &mut tally);
        tally
    };
    let right = faults(unspoiled);
    assert_eq!(right.mismatches, 0);
    assert_eq!(right.calls, 14 * 3 + 34 * 4);
    let missing = |tally: &Tally| tally.pair_lists.faults.missing().len();
    assert_eq!(missing(&right), 0);
    // 20 before 18, and 7 before 18: reported as another number than the checker
    // written apart gives, and as the wrong one of two.
    let wrong = faults(|answer, _| {
        if answer.number == 18 {
            answer.number = 20;
        }
    });
    assert!(wrong.mismatches >= 2 * 12, "{}", wrong.mismatches);
}

/// The files of the cases hit their limits.
#[test]
fn cases_at_the_limits() {
    let mut all = Tally::default();
    for (seed, case) in cases().into_iter().enumerate() {
        let mut random = Random::new(seed as u64);
        let mut calls = Calls::new(Spoiled(unspoiled), &mut random);
        let Case::Listed(limit) = case else {
            unreachable!("all are of pair lists")
        };
        let file = listed::file(&mut random, limit);
        let known = Known::of(&file);
        calls.pair_lists(&mut random, &mut all, case, &known);
    }
    assert_eq!(all.mismatches, 0);
    let likeness = &all.pair_lists.likeness;
    let missing = likeness.missing();
    let rare = ["iso 31", "first absent", "above 65,535", "unfed"];
    let left = missing
        .iter()
        .filter(|name| !rare.iter().any(|word| name.contains(word)));
    assert_eq!(left.collect::<Vec<_>>(), Vec::<&String>::new());
    assert_eq!(all.longer.pairs.missing(), Vec::<String>::new());
}

#[test]
fn a_budget_that_is_enough() {
    let rules = check(S).expect("accepted");
    assert_eq!(enough(&rules, 0), 1);
    assert_eq!(enough(&rules, 1), 2);
}
