//! Each kind of wrong answer is reported as a mismatch, and nothing else is.

mod common;

use apart::areas::{Known, TABLE, WORK};
use apart::desk::desk;
use apart::generate::random::Random;
use common::{unspoiled, Spoil, Spoiled, S};
use compare::areas::{Areas, Kind, Noise, Shape};
use compare::block::Block;
use compare::calls::Calls;
use compare::case::Case;
use compare::desk::{difference, Process, Program};
use compare::service::{expected, Answer, Ask, Call, Lent, Services};
use compare::tally::{Tally, CHECK, LIBRARY, OTHER_ENDINGS, RULES, SHEET};
use compare::trip::Trip;
use std::io;

/// The desk program of the checker written apart, what it prints spoiled.
struct Desk(fn(&mut Vec<u8>));

impl Program for Desk {
    fn printed(&mut self, input: &[u8]) -> io::Result<Vec<u8>> {
        let mut printed = desk(input);
        (self.0)(&mut printed);
        Ok(printed)
    }
}

/// A run that gives five letters with count 2.
const RUN: Call = Call::Run(Ask {
    iso: 1,
    back: false,
    budget: 2,
    letters: b"PLURU",
});

/// The mismatches of Check, Turn and Run of S.
fn mismatches(spoil: Spoil, kind: Kind) -> [usize; 3] {
    let mut random = Random::new(1);
    let mut calls = Calls::new(Spoiled(spoil), &mut random);
    let known = Known::of(S);
    [Call::Check, Call::Turn, RUN].map(|call| {
        let mut tally = Tally::default();
        calls.call(&mut random, &mut tally, &known, call, [kind; 4]);
        assert_eq!(tally.calls, 1);
        assert_eq!(tally.reports.len(), tally.mismatches);
        tally.mismatches
    })
}

#[test]
fn right_answers_agree() {
    for kind in [Kind::Exact, Kind::Longer, Kind::Short, Kind::Empty] {
        assert_eq!(mismatches(unspoiled, kind), [0; 3], "{kind:?}");
    }
}

#[test]
fn wrong_numbers_are_reported() {
    let spoils: [Spoil; 5] = [
        |answer, _| answer.number += 1,
        |answer, _| answer.line += 1,
        |answer, _| answer.count += 1,
        |answer, _| answer.length += 1,
        |answer, _| answer.length = answer.length.wrapping_sub(1),
    ];
    for (place, spoil) in spoils.into_iter().enumerate() {
        for kind in [Kind::Exact, Kind::Longer, Kind::Short] {
            assert_eq!(mismatches(spoil, kind), [1; 3], "{place} {kind:?}");
        }
    }
}

#[test]
fn wrong_elements_are_reported() {
    let spoils: [Spoil; 6] = [
        |_, lent| lent.table[0] ^= 1,
        |_, lent| lent.table[71] ^= 1 << 15,
        |_, lent| lent.table[TABLE - 1] ^= 1,
        |_, lent| lent.work[0] ^= 1,
        |_, lent| lent.work[WORK / 2] ^= 128,
        |_, lent| lent.work[WORK - 1] ^= 1,
    ];
    for (place, spoil) in spoils.into_iter().enumerate() {
        for kind in [Kind::Exact, Kind::Longer] {
            assert_eq!(mismatches(spoil, kind), [1; 3], "{place} {kind:?}");
        }
    }
}

/// The area lent to Check may be shorter, being of no use to it.
fn spoil_out(lent: &mut Lent, place: usize) {
    if let Some(cell) = lent.out.get_mut(place) {
        *cell ^= 1;
    }
}

#[test]
fn wrong_letters_are_reported() {
    let spoils: [Spoil; 3] = [
        |_, lent| spoil_out(lent, 0),
        |_, lent| spoil_out(lent, 4),
        |_, lent| spoil_out(lent, 126),
    ];
    for (place, spoil) in spoils.into_iter().enumerate() {
        // Check has no such area.
        assert_eq!(mismatches(spoil, Kind::Longer)[1..], [1; 2], "{place}");
    }
}

#[test]
fn wrong_tails_are_reported() {
    let spoils: [Spoil; 5] = [
        |_, lent| lent.table[TABLE] ^= 1,
        |_, lent| *lent.table.last_mut().unwrap() ^= 1,
        |_, lent| lent.work[WORK] ^= 1,
        |_, lent| *lent.work.last_mut().unwrap() ^= 1,
        |_, lent| *lent.out.last_mut().unwrap() ^= 1,
    ];
    for (place, spoil) in spoils.into_iter().enumerate() {
        assert_eq!(mismatches(spoil, Kind::Longer), [1; 3], "{place}");
    }
}

/// Refusals 1 and 2 change nothing.
#[test]
fn changes_by_refusals_1_and_2_are_reported() {
    let spoils: [Spoil; 3] = [
        |_, lent| lent.table[16_000] = lent.table[16_000].wrapping_add(1),
        |_, lent| lent.work[60_000] = lent.work[60_000].wrapping_add(1),
        |_, lent| spoil_out(lent, 0),
    ];
    for spoil in spoils {
        assert_eq!(mismatches(spoil, Kind::Short)[1..], [1; 2]);
    }
    let long = vec![b'\n'; 4_097];
    let known = Known::of(&long);
    for spoil in spoils {
        let mut random = Random::new(2);
        let mut calls = Calls::new(Spoiled(spoil), &mut random);
        let mut tally = Tally::default();
        let kinds = [Kind::Exact; 4];
        calls.call(&mut random, &mut tally, &known, Call::Turn, kinds);
        assert_eq!((tally.mismatches, tally.numbers.count(2, 3)), (1, 1));
    }
}

/// Also where it is not lent, before and behind.
#[test]
fn each_element_of_the_buffers_is_compared() {
    let mut random = Random::new(3);
    let noise = Noise::new(&mut random);
    let shapes = [40, 50, 60, 70].map(|least| Shape::new(&mut random, least, Kind::Exact));
    let mut right = Areas::default();
    right.fill(&shapes, &noise);
    assert_eq!(right.difference(&right.clone()), None);
    let cells = [
        &right.table.cells.len(),
        &right.work.cells.len(),
        &right.out.cells.len(),
        &right.numbers.cells.len(),
    ];
    for (area, cells) in cells.map(|cells| *cells).into_iter().enumerate() {
        assert!(cells > shapes[area].length);
        for cell in 0..cells {
            let mut wrong = right.clone();
            match area {
                0 => wrong.table.cells[cell] ^= 256,
                1 => wrong.work.cells[cell] ^= 1,
                2 => wrong.out.cells[cell] ^= 1,
                _ => wrong.numbers.cells[cell] ^= 1 << 31,
            }
            let what = right.difference(&wrong).expect("reported");
            let name = ["table", "work", "out", "numbers"][area];
            assert!(what.starts_with(name), "{what}");
        }
    }
}

#[test]
fn wrong_prints_are_reported() {
    let right = desk(&[S, b"Q,1,0,9,PLURU\nQ,1,0,1,PLURU\n"].concat());
    assert_eq!(right, b"0,0\n0,2,PLULU\n17,0,\n");
    assert_eq!(difference(&right, &right), None);
    for place in 0..right.len() {
        let mut wrong = right.clone();
        wrong[place] ^= 1;
        assert!(difference(&right, &wrong).is_some(), "{place}");
        assert!(difference(&right, &right[..place]).is_some(), "{place}");
    }
    let more = [&right[..], b"0,0\n"].concat();
    assert!(difference(&right, &more).is_some());
}

#[test]
fn a_failing_program_is_reported() {
    let printed = Process {
        path: "false".into(),
    }
    .printed(S)
    .unwrap();
    let what = difference(&desk(S), &printed).unwrap();
    assert!(what.contains("ended with"), "{what}");
    let missing = Process {
        path: "/no/such/program".into(),
    }
    .printed(S);
    assert!(missing.is_err());
}

#[test]
fn a_wrong_step_of_a_trip_is_reported() {
    let known = Known::of(S);
    let rules = known.checked.as_ref().ok().unwrap();
    let trip = Trip::new(&mut Random::new(4), rules, 0, 9).unwrap();
    for step in [trip.steps(false), trip.steps(true)].concat() {
        let given = step.given.unwrap_or_default();
        let right = Answer {
            number: if step.given.is_some() { 0 } else { 17 },
            count: if step.given.is_some() { 1 } else { 0 },
            length: given.len(),
            ..Answer::default()
        };
        assert_eq!(step.difference(&right, given), None);
        let mut wrong = [right; 4];
        wrong[0].number += 1;
        wrong[1].line += 1;
        wrong[2].count += 1;
        wrong[3].length += 1;
        for answer in wrong {
            assert!(step.difference(&answer, given).is_some());
        }
        let letters = [given, b"U"].concat();
        assert!(step.difference(&right, &letters).is_some());
    }
}

/// All mismatches of some cases.
fn compared(program: fn(&mut Vec<u8>), services: Spoil) -> usize {
    let mut random = Random::new(5);
    let mut block = Block::new(Desk(program), Spoiled(services), &mut random);
    let cases = [
        Case::Longest,
        Case::Pair(3, 0),
        Case::Accepted,
        Case::Aimed(8),
    ];
    for (place, case) in cases.into_iter().enumerate() {
        let mut random = Random::new(place as u64);
        block.case(&mut random, case, 9).unwrap();
    }
    assert_eq!(block.tally.files, 4);
    block.tally.mismatches
}

#[test]
fn whole_cases_are_compared() {
    let fine = |_: &mut Vec<u8>| {};
    assert_eq!(compared(fine, unspoiled), 0);
    assert!(compared(|printed| printed[0] ^= 1, unspoiled) >= 4);
    assert!(compared(|printed| printed.truncate(2), unspoiled) >= 4);
    assert!(compared(|printed| printed.push(b'\n'), unspoiled) >= 4);
    assert!(compared(fine, |answer, _| answer.length += 1) > 20);
    assert!(compared(fine, |_, lent| lent.work.fill(7)) > 20);
    // Two of the files are accepted, each with one answered sheet, and with more
    // where other endings or another order of the clauses are tried.
    let sheets: Spoil = |answer, _| answer.queries += usize::from(answer.queries > 0);
    assert!(compared(fine, sheets) >= 2);
}

/// The desk program of the checker written apart, which prints one line more
/// where its input has a carriage return.
struct Returning;

impl Program for Returning {
    fn printed(&mut self, input: &[u8]) -> io::Result<Vec<u8>> {
        let mut printed = desk(input);
        if input.contains(&b'\r') {
            printed.push(b'\n');
        }
        Ok(printed)
    }
}

/// The services of the checker written apart, wrong on a file or list with
/// a carriage return.
struct ReturningServices;

impl Services for ReturningServices {
    fn call(&mut self, file: &[u8], call: Call, lent: Lent) -> Answer {
        let mut answer = expected(&Known::of(file), call, lent);
        let list = if let Call::Sheet(list) = call {
            list
        } else {
            b""
        };
        answer.line += usize::from(file.contains(&b'\r') || list.contains(&b'\r'));
        answer
    }
}

/// The mismatches of S, a query and a list with other endings, and how often the
/// law was tried with the desk program, the services and sheets.
fn other_endings<P: Program, S: Services>(program: P, services: S) -> (usize, [usize; 3]) {
    let mut random = Random::new(7);
    let mut block = Block::new(program, services, &mut random);
    let list = b"Q,1,0,9,PLURU\nQ,1,0,9,PRULU\n";
    let input = [common::S, list].concat();
    for _ in 0..50 {
        let known = Known::of(common::S);
        let tried = block.other_endings(&mut random, &known, &input, list);
        tried.expect("no program to fail");
    }
    let tries = [RULES, LIBRARY, SHEET].map(|column| block.tally.laws.count(OTHER_ENDINGS, column));
    (block.tally.mismatches, tries)
}

#[test]
fn other_endings_are_compared() {
    assert_eq!(
        other_endings(Desk(|_| {}), Spoiled(unspoiled)),
        (0, [50; 3])
    );
    let (wrong, tries) = other_endings(Returning, Spoiled(unspoiled));
    assert!((30..50).contains(&wrong), "{wrong}");
    assert_eq!(tries, [50; 3]);
    // Each wrong answer is reported as such, and once more against the first.
    let (wrong, tries) = other_endings(Desk(|_| {}), ReturningServices);
    assert!((180..300).contains(&wrong), "{wrong}");
    assert_eq!(tries, [50; 3]);
}

/// A file of a pair whose check does not give what the pair promises.
#[test]
fn a_broken_promise_is_reported() {
    let mut random = Random::new(6);
    let mut block = Block::new(Desk(|_| {}), Spoiled(unspoiled), &mut random);
    block.promised(Case::Pair(0, 0), &Known::of(S), Some((0, 0)));
    assert_eq!((block.tally.mismatches, block.tally.pairs[0]), (0, 1));
    block.promised(Case::Pair(0, 0), &Known::of(S), Some((3, 1)));
    assert_eq!((block.tally.mismatches, block.tally.pairs[0]), (1, 1));
}

#[test]
fn what_is_never_hit_fails() {
    let mut tally = Tally::default();
    let all = tally.missing().len();
    let (passed, failed) = tally.verdict();
    assert_eq!((passed, failed), (0, all));
    assert!(tally.missing().contains(&"number 1, check".to_string()));
    assert!(!tally.missing().contains(&"number 1, files".to_string()));
    tally.numbers.hit(1, CHECK);
    tally.pairs[7] += 1;
    assert_eq!(tally.missing().len(), all - 2);
    let mut sum = Tally::default();
    sum.mismatch("one".to_string(), Vec::new());
    sum.add(tally);
    assert_eq!(sum.verdict(), (0, all - 1));
}
