//! Each kind of wrong answer to a sheet is reported, and the lists are what
//! they have to be.

mod common;

use apart::areas::{Known, RESULT, TABLE, WORK};
use apart::generate::random::Random;
use apart::lines::split;
use apart::sheet::NUMBERS;
use common::{unspoiled, Spoil, Spoiled, S};
use compare::areas::Kind;
use compare::calls::Calls;
use compare::case::Case;
use compare::list::make;
use compare::service::{Answer, Call, Lent, Services};
use compare::sheets::Given;
use compare::tally::{Tally, BY_SHEET, IN_SHEET};

/// Seven queries, of which the third and the last two are refused.
const LIST: &[u8] = b"Q,1,0,9,PLURU\nQ,1,1,9,PLULU\nQ,1,0,1,PLURU\nQ,1,0,2,PRULU\nQ,0,0,1,LU\n\
Q,2,0,9,U\nQ,1,0,9,PLU\n";
const QUERIES: usize = 7;

/// The tally of one sheet.
fn sheet(spoil: Spoil, file: &[u8], list: &[u8], kind: Kind) -> Tally {
    let mut random = Random::new(1);
    let mut calls = Calls::new(Spoiled(spoil), &mut random);
    let mut tally = Tally::default();
    let call = Call::Sheet(list);
    calls.call(&mut random, &mut tally, &Known::of(file), call, [kind; 4]);
    assert_eq!(tally.calls, 1);
    assert_eq!(tally.reports.len(), tally.mismatches);
    tally
}

/// The mismatches of the sheet of S.
fn mismatches(spoil: Spoil, kind: Kind) -> usize {
    sheet(spoil, S, LIST, kind).mismatches
}

/// All are reported with areas of these kinds.
fn reported(spoils: &[Spoil], kinds: &[Kind]) {
    for (place, spoil) in spoils.iter().enumerate() {
        for kind in kinds {
            assert_eq!(mismatches(*spoil, *kind), 1, "{place} {kind:?}");
        }
    }
}

#[test]
fn right_sheets_agree() {
    for kind in [Kind::Exact, Kind::Longer, Kind::Short, Kind::Empty] {
        let right = sheet(unspoiled, S, LIST, kind);
        let answered = matches!(kind, Kind::Exact | Kind::Longer);
        let number = usize::from(!answered);
        assert_eq!(right.mismatches, 0, "{kind:?}");
        assert_eq!(right.numbers.count(number, BY_SHEET), 1, "{kind:?}");
        assert_eq!(right.in_sheets, if answered { 7 } else { 0 }, "{kind:?}");
    }
    let right = sheet(unspoiled, S, LIST, Kind::Exact);
    let hit = [0, 3, 15, 16, 17].map(|number| right.numbers.count(number, IN_SHEET));
    assert_eq!(hit, [4, 0, 1, 1, 1]);
    for (file, list, number) in [
        (&b"x\n"[..], LIST, 3),
        (S, &[b'\n'; 601][..], 2),
        (S, b"", 0),
    ] {
        let right = sheet(unspoiled, file, list, Kind::Longer);
        assert_eq!(right.mismatches, 0);
        assert_eq!(right.numbers.count(number, BY_SHEET), 1);
    }
}

#[test]
fn wrong_answers_are_reported() {
    let spoils: [Spoil; 4] = [
        |answer, _| answer.number += 1,
        |answer, _| answer.line += 1,
        |answer, _| answer.queries += 1,
        |answer, _| answer.queries = answer.queries.wrapping_sub(1),
    ];
    reported(&spoils, &[Kind::Exact, Kind::Longer, Kind::Short]);
}

/// Of a good query, of a refused one and of the last one.
#[test]
fn wrong_numbers_of_a_query_are_reported() {
    let spoils: [Spoil; 9] = [
        |_, lent| lent.numbers[0] ^= 1,
        |_, lent| lent.numbers[1] += 1,
        |_, lent| lent.numbers[2] -= 1,
        |_, lent| lent.numbers[6] ^= 1 << 31,
        |_, lent| lent.numbers[7] += 1,
        |_, lent| lent.numbers[8] += 1,
        |_, lent| lent.numbers[18] = 0,
        |_, lent| lent.numbers[19] += 1 << 16,
        |_, lent| lent.numbers[20] += 1,
    ];
    reported(&spoils, &[Kind::Exact, Kind::Longer]);
}

/// Two numbers exchanged, two queries exchanged.
#[test]
fn numbers_out_of_order_are_reported() {
    let spoils: [Spoil; 3] = [
        |_, lent| lent.numbers.swap(1, 2),
        |_, lent| lent.numbers[6..12].rotate_left(NUMBERS),
        |_, lent| lent.out[..2 * RESULT].rotate_left(RESULT),
    ];
    reported(&spoils, &[Kind::Exact, Kind::Longer]);
}

/// The letters, the bytes behind them and those of a refused query.
#[test]
fn wrong_letters_are_reported() {
    let spoils: [Spoil; 9] = [
        |_, lent| lent.out[0] ^= 1,
        |_, lent| lent.out[4] ^= 1,
        |_, lent| lent.out[5] ^= 1,
        |_, lent| lent.out[RESULT - 1] ^= 1,
        |_, lent| lent.out[RESULT] ^= 1,
        |_, lent| lent.out[2 * RESULT] ^= 1,
        |_, lent| lent.out[3 * RESULT - 1] ^= 128,
        |_, lent| lent.out[6 * RESULT] ^= 1,
        |_, lent| lent.out[QUERIES * RESULT - 1] ^= 1,
    ];
    reported(&spoils, &[Kind::Exact, Kind::Longer]);
}

#[test]
fn wrong_tables_and_work_are_reported() {
    let spoils: [Spoil; 6] = [
        |_, lent| lent.table[0] ^= 1,
        |_, lent| lent.table[71] ^= 1 << 15,
        |_, lent| lent.table[TABLE - 1] ^= 1,
        |_, lent| lent.work[0] ^= 1,
        |_, lent| lent.work[WORK / 2] ^= 128,
        |_, lent| lent.work[WORK - 1] ^= 1,
    ];
    reported(&spoils, &[Kind::Exact, Kind::Longer]);
}

#[test]
fn changes_behind_the_last_query_are_reported() {
    let spoils: [Spoil; 6] = [
        |_, lent| lent.numbers[QUERIES * NUMBERS] ^= 1,
        |_, lent| *lent.numbers.last_mut().unwrap() ^= 1,
        |_, lent| lent.out[QUERIES * RESULT] ^= 1,
        |_, lent| *lent.out.last_mut().unwrap() ^= 1,
        |_, lent| lent.table[TABLE] ^= 1,
        |_, lent| lent.work[WORK] ^= 1,
    ];
    reported(&spoils, &[Kind::Longer]);
}

/// Refusals 1 and 2 change nothing, a refused file no numbers and no letters.
#[test]
fn changes_by_refusals_are_reported() {
    let spoils: [Spoil; 4] = [
        |_, lent| lent.numbers[0] ^= 1,
        |_, lent| lent.out[0] ^= 1,
        |_, lent| lent.table[0] ^= 1,
        |_, lent| lent.work[0] ^= 1,
    ];
    reported(&spoils, &[Kind::Short]);
    for spoil in spoils {
        for (file, list, number) in [(&b"x\n"[..], LIST, 3), (S, &[b'\n'; 601][..], 2)] {
            let wrong = sheet(spoil, file, list, Kind::Exact);
            assert_eq!(wrong.mismatches, 1);
            assert_eq!(wrong.numbers.count(number, BY_SHEET), 1);
        }
    }
}

/// A query of a sheet against the run of its own.
#[test]
fn a_query_unlike_its_run_is_reported() {
    let alone = Answer {
        count: 2,
        length: 5,
        ..Answer::default()
    };
    let right = Given {
        numbers: [[9; 3], [0, 2, 5]].concat(),
        letters: [&[7; RESULT][..], b"PLULU", &[7; 122][..]].concat(),
    };
    assert_eq!(right.difference(1, &alone, b"PLULU"), None);
    for place in 0..3 {
        let mut wrong = right.clone();
        wrong.numbers[3 + place] ^= 1;
        assert!(wrong.difference(1, &alone, b"PLULU").is_some(), "{place}");
    }
    for place in 0..5 {
        let mut wrong = right.clone();
        wrong.letters[RESULT + place] ^= 1;
        assert!(wrong.difference(1, &alone, b"PLULU").is_some(), "{place}");
    }
    let short = Given {
        numbers: right.numbers[..5].to_vec(),
        ..right.clone()
    };
    assert!(short.difference(1, &alone, b"PLULU").is_some());
    let refused = Answer {
        number: 17,
        ..Answer::default()
    };
    assert!(right.difference(1, &refused, b"").is_some());
}

/// Sheets as the checker written apart answers them, and runs with a count too
/// high.
struct Counted;

impl Services for Counted {
    fn call(&mut self, file: &[u8], call: Call, lent: Lent) -> Answer {
        let mut answer = Spoiled(unspoiled).call(file, call, lent);
        answer.count += u64::from(matches!(call, Call::Run(_)));
        answer
    }
}

/// Each of the seven runs differs from the checker written apart and from the
/// sheet.
#[test]
fn the_queries_of_a_sheet_are_run_alone() {
    let mut random = Random::new(2);
    let mut tally = Tally::default();
    let mut calls = Calls::new(Counted, &mut random);
    calls.sheet(&mut random, &mut tally, &Known::of(S), LIST);
    assert_eq!((tally.calls, tally.mismatches), (9, 14));
    let mut tally = Tally::default();
    let mut calls = Calls::new(Spoiled(unspoiled), &mut random);
    calls.sheet(&mut random, &mut tally, &Known::of(S), LIST);
    assert_eq!((tally.calls, tally.mismatches), (9, 0));
}

/// Lists for S and for a refused file.
#[test]
fn lists_are_of_the_lines_that_they_have_to_be() {
    let mut random = Random::new(3);
    for file in [S, b"x\n"] {
        let known = Known::of(file);
        for own in [LIST, b"", b"Q,0,0,1,LU\nQ,0,0,1,RU"] {
            for over in [false, true].repeat(20) {
                let list = make(&mut random, Case::Full(over), &known, own);
                assert_eq!(split(&list).len(), 600 + usize::from(over));
            }
        }
    }
}

/// No list asks for more applications than its own queries do.
#[test]
fn no_list_has_a_budget_of_its_own() {
    let mut random = Random::new(4);
    let known = Known::of(S);
    for _ in 0..300 {
        let list = make(&mut random, Case::Any, &known, LIST);
        for query in split(&list).into_iter().filter_map(apart::desk::query) {
            let own = split(LIST).into_iter().filter_map(apart::desk::query);
            let mut same = own.filter(|own| (own.iso, own.budget) == (query.iso, query.budget));
            assert!(query.budget == 1 || same.next().is_some(), "{query:?}");
        }
    }
}
