//! Settings that show a fault: each kind of wrong answer is reported, each
//! value that is not the least one too, and what is asked is what it has to be.

mod common;

use apart::areas::{Known, RESULT, TABLE, WORK};
use apart::generate::random::Random;
use apart::generate::shown::Form;
use apart::lines::CLAUSES;
use apart::numbering::values;
use apart::witness::{refused_iso, Side};
use common::{unspoiled, Spoil, Spoiled, S};
use compare::areas::Kind;
use compare::calls::Calls;
use compare::case::Case;
use compare::service::Call;
use compare::settings::{HERE, SHORT, THERE};
use compare::tally::Tally;
use compare::witness::{broken, cases, file, hold, BY_FORCE};

const KINDS: [Kind; 4] = [Kind::Exact, Kind::Longer, Kind::Short, Kind::Empty];

/// S without line 18 and the P line that it uses, refused 13 and shown by PRULU.
const GAP: &[u8] = b"T,0,0,0\nT,1,0,0\nT,2,1,1\nP,0,0,0\nP,2,0,0\nP,3,0,0\nP,1,0,0\nP,1,1,0\n\
P,4,1,3\nP,4,1,4\nI,1,1\nC,1,2\nC,2,1\nI,2,2\nC,5,6\nL,4,0,3\n";

/// The tally of one call.
fn tally(spoil: Spoil, file: &[u8], kind: Kind) -> Tally {
    let mut random = Random::new(1);
    let mut calls = Calls::new(Spoiled(spoil), &mut random);
    let mut tally = Tally::default();
    let known = Known::of(file);
    calls.call(&mut random, &mut tally, &known, Call::Witness, [kind; 4]);
    assert_eq!(tally.calls, 1);
    assert_eq!(tally.reports.len(), tally.mismatches);
    tally
}

/// All are reported with areas of these kinds, of a gap and of an accepted file.
fn reported(spoils: &[Spoil], kinds: &[Kind]) {
    for (place, spoil) in spoils.iter().enumerate() {
        for file in [GAP, S] {
            for kind in kinds {
                let found = tally(*spoil, file, *kind).mismatches;
                assert_eq!(found, 1, "{place} {kind:?}");
            }
        }
    }
}

#[test]
fn right_answers_agree() {
    for kind in KINDS {
        let short = matches!(kind, Kind::Short | Kind::Empty);
        for (file, number) in [(S, 0), (GAP, 13)] {
            let right = tally(unspoiled, file, kind);
            assert_eq!(right.mismatches, 0, "{kind:?}");
            let given = if short { 1 } else { number };
            let numbers = &right.witness.numbers;
            assert_eq!(numbers.count(given, HERE), 1);
            assert_eq!(numbers.count(given, THERE), 1);
            assert_eq!(numbers.count(number, SHORT), usize::from(short));
        }
    }
}

#[test]
fn wrong_answers_are_reported() {
    let spoils: [Spoil; 3] = [
        |answer, _| answer.number ^= 1,
        |answer, _| answer.line += 1,
        |answer, _| answer.length += 1,
    ];
    reported(&spoils, &KINDS);
}

#[test]
fn wrong_areas_are_reported() {
    // The letters of the gap are the first five bytes of the result.
    let spoils: [Spoil; 7] = [
        |_, lent| lent.table[0] ^= 1,
        |_, lent| lent.table[TABLE - 1] ^= 1,
        |_, lent| lent.work[0] ^= 1,
        |_, lent| lent.work[WORK - 1] ^= 1,
        |_, lent| lent.out[4] ^= 1,
        |_, lent| lent.out[5] ^= 1,
        |_, lent| lent.out[RESULT - 1] ^= 1,
    ];
    reported(&spoils, &[Kind::Exact, Kind::Longer]);
    let tails: [Spoil; 3] = [
        |_, lent| lent.table[TABLE] ^= 1,
        |_, lent| lent.work[WORK] ^= 1,
        |_, lent| lent.out[RESULT] ^= 1,
    ];
    reported(&tails, &[Kind::Longer]);
}

/// How letters for a file break the request.
fn breaks(file: &[u8], letters: &str) -> bool {
    let refusal = Known::of(file).checked.err().expect("refused");
    let iso = refused_iso(file, refusal).expect("11 to 14");
    let side = Side::refused(&iso, refusal.number);
    let broken = broken(&side, side.by_sets().as_ref(), letters.as_bytes());
    let mut tally = Tally::default();
    hold(&mut tally, &Known::of(file), refusal, letters.as_bytes());
    assert_eq!(tally.mismatches, usize::from(broken.is_some()));
    let column = usize::from(refusal.number - 11);
    assert_eq!(tally.witness.kinds.count(BY_FORCE, column), 1);
    broken.is_some()
}

#[test]
fn other_values_are_found() {
    for (letters, holds) in [
        ("PRULU", true),
        // Uncovered too, and later in byte order.
        ("PRURU", false),
        // Covered.
        ("PLULU", false),
        // No value.
        ("", false),
        ("PRUL", false),
        ("PRULUU", false),
    ] {
        assert_eq!(breaks(GAP, letters), !holds, "{letters}");
    }
    // A pair on the left, a unit on the right; then the pair first in byte order.
    let bare = b"T,0,0,0\nT,1,0,0\nT,2,1,1\nT,1,2,0\nI,3,0\n";
    for (letters, holds) in [("RU", true), ("LPLULU", false), ("LU", false)] {
        assert_eq!(breaks(bare, letters), !holds, "{letters}");
    }
    let twice = [S, b"C,7,7\n"].concat();
    for (letters, holds) in [("PRULU", true), ("PRURU", false), ("PLULU", false)] {
        assert_eq!(breaks(&twice, letters), !holds, "{letters}");
    }
}

/// Each case is refused with its number, and its values are as its form says.
#[test]
fn files_are_of_their_forms() {
    let mut random = Random::new(3);
    for case in cases() {
        let Case::Shown(form, number) = case else {
            panic!("another case")
        };
        let file = file(&mut random, case);
        let refusal = Known::of(&file).checked.err().expect("refused");
        assert_eq!(refusal.number, number);
        let iso = refused_iso(&file, refusal).expect("11 to 14");
        let side = Side::refused(&iso, number);
        let letters = side.least().expect("a value").len();
        let right = match form {
            Form::One => {
                let shown = side.by_sets().expect("a value");
                shown.all == 1 && values(side.ty) > 1_000_000
            }
            Form::Several => true,
            Form::Sparse => values(side.ty) > 10,
            Form::Full => iso.clauses.len() == CLAUSES,
            Form::Longest => letters == RESULT - usize::from(number == 14),
            Form::Bare => iso.clauses.is_empty(),
            Form::Lists => side.ty.holds_list(),
            Form::Letters(size) => letters == size,
        };
        assert!(right, "{case:?}");
    }
}

/// What the comparison needs is hit by the cases that every run has.
#[test]
fn the_cases_hit_what_is_needed() {
    let mut random = Random::new(5);
    let mut calls = Calls::new(Spoiled(unspoiled), &mut random);
    let mut tally = Tally::default();
    for case in cases() {
        let file = file(&mut random, case);
        calls.witness(&mut random, &mut tally, &Known::of(&file));
    }
    assert_eq!(tally.mismatches, 0);
    assert_eq!(tally.witness.kinds.missing(), Vec::<String>::new());
}
