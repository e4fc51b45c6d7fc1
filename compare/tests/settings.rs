//! Settings as numbers: each kind of wrong answer is reported, each broken law
//! too, and what is asked is what it has to be.

mod common;

use apart::areas::{Known, RESULT, TABLE, WORK};
use apart::generate::random::Random;
use apart::numbering::{number_of_rules, setting_of_rules};
use common::{unspoiled, Spoil, Spoiled, S};
use compare::areas::Kind;
use compare::calls::Calls;
use compare::case::Case;
use compare::faults::{pairs, Fault};
use compare::service::{expected, Answer, Call, Lent, Services};
use compare::settings::{broken, HERE, SHORT, THERE};
use compare::tally::Tally;

const NUMBER: Call = Call::NumberOf(2, b"PRULU");
const LETTERS: Call = Call::SettingOf(2, 2);

/// The tally of one call on S.
fn tally(spoil: Spoil, call: Call, kind: Kind) -> Tally {
    let mut random = Random::new(1);
    let mut calls = Calls::new(Spoiled(spoil), &mut random);
    let mut tally = Tally::default();
    calls.call(&mut random, &mut tally, &Known::of(S), call, [kind; 4]);
    assert_eq!(tally.calls, 1);
    assert_eq!(tally.reports.len(), tally.mismatches);
    tally
}

/// All are reported of these calls with areas of these kinds.
fn reported(spoils: &[Spoil], calls: &[Call], kinds: &[Kind]) {
    for (place, spoil) in spoils.iter().enumerate() {
        for call in calls {
            for kind in kinds {
                let found = tally(*spoil, *call, *kind).mismatches;
                assert_eq!(found, 1, "{place} {call:?} {kind:?}");
            }
        }
    }
}

#[test]
fn right_answers_agree() {
    for kind in [Kind::Exact, Kind::Longer, Kind::Short, Kind::Empty] {
        let short = matches!(kind, Kind::Short | Kind::Empty);
        let right = tally(unspoiled, NUMBER, kind);
        assert_eq!(right.mismatches, 0, "{kind:?}");
        assert_eq!(right.settings.number_of.count(usize::from(short), HERE), 1);
        assert_eq!(right.settings.number_of.count(usize::from(short), THERE), 1);
        assert_eq!(right.settings.number_of.count(0, SHORT), usize::from(short));
        let right = tally(unspoiled, LETTERS, kind);
        assert_eq!(right.mismatches, 0, "{kind:?}");
        assert_eq!(right.settings.setting_of.count(usize::from(short), HERE), 1);
        assert_eq!(
            right.settings.setting_of.count(usize::from(short), THERE),
            1
        );
        assert_eq!(
            right.settings.setting_of.count(0, SHORT),
            usize::from(short)
        );
    }
}

/// Each number is counted where it was given.
#[test]
fn numbers_are_counted_on_both_sides() {
    for (call, number) in [
        (Call::NumberOf(3, b"PRULU"), 15),
        (Call::NumberOf(2, b"PRUL"), 16),
        (Call::SettingOf(3, 0), 15),
        (Call::SettingOf(2, 4), 19),
    ] {
        let found = |tally: &Tally, number, column| {
            let counts = [&tally.settings.number_of, &tally.settings.setting_of]
                .map(|grid| grid.count(number, column));
            counts[usize::from(matches!(call, Call::SettingOf(..)))]
        };
        let right = tally(unspoiled, call, Kind::Longer);
        assert_eq!(right.mismatches, 0);
        assert_eq!(found(&right, number, HERE), 1);
        assert_eq!(found(&right, number, THERE), 1);
        let wrong = tally(|answer, _| answer.number = 18, call, Kind::Longer);
        assert_eq!(wrong.mismatches, 1);
        assert_eq!(found(&wrong, number, HERE), 1);
        assert_eq!(found(&wrong, number, THERE), 0);
        assert_eq!(found(&wrong, 18, THERE), 1);
        let short = tally(unspoiled, call, Kind::Short);
        assert_eq!(found(&short, number, SHORT), 1);
    }
    // A number that nothing has is a mismatch and no more.
    assert_eq!(
        tally(|answer, _| answer.number = 20, NUMBER, Kind::Exact).mismatches,
        1
    );
}

#[test]
fn wrong_answers_are_reported() {
    let spoils: [Spoil; 6] = [
        |answer, _| answer.number += 1,
        |answer, _| answer.line += 1,
        |answer, _| answer.length += 1,
        |answer, _| answer.length = answer.length.wrapping_sub(1),
        |answer, _| answer.setting ^= 1,
        |answer, _| answer.setting ^= 1 << 31,
    ];
    let kinds = [Kind::Exact, Kind::Longer, Kind::Short];
    reported(&spoils, &[NUMBER, LETTERS], &kinds);
    // "With a refusal the setting number is 0."
    let refused = [Call::NumberOf(3, b""), Call::NumberOf(2, b"PLU")];
    reported(&[|answer, _| answer.setting = 1], &refused, &kinds);
    reported(
        &[|answer, _| answer.length = 1],
        &[Call::SettingOf(2, 4)],
        &kinds,
    );
}

#[test]
fn wrong_areas_are_reported() {
    let spoils: [Spoil; 6] = [
        |_, lent| lent.table[0] ^= 1,
        |_, lent| lent.table[71] ^= 1 << 15,
        |_, lent| lent.table[TABLE - 1] ^= 1,
        |_, lent| lent.work[0] ^= 1,
        |_, lent| lent.work[WORK - 1] ^= 1,
        |_, lent| *lent.work.last_mut().unwrap() ^= 1,
    ];
    let calls = [
        NUMBER,
        LETTERS,
        Call::NumberOf(3, b""),
        Call::SettingOf(2, 4),
    ];
    reported(&spoils, &calls, &[Kind::Exact, Kind::Longer]);
    let tails: [Spoil; 2] = [
        |_, lent| lent.table[TABLE] ^= 1,
        |_, lent| lent.work[WORK] ^= 1,
    ];
    reported(&tails, &calls, &[Kind::Longer]);
    let kept: [Spoil; 2] = [
        |_, lent| lent.table[16_000] ^= 1,
        |_, lent| lent.work[60_000] ^= 1,
    ];
    reported(&kept, &calls, &[Kind::Short]);
}

/// The letters, and the bytes behind them, also those of a refused number.
#[test]
fn wrong_letters_are_reported() {
    let spoils: [Spoil; 4] = [
        |_, lent| lent.out[0] ^= 1,
        |_, lent| lent.out[4] ^= 1,
        |_, lent| lent.out[5] ^= 1,
        |_, lent| lent.out[RESULT - 1] ^= 1,
    ];
    let calls = [LETTERS, Call::SettingOf(2, 4), Call::SettingOf(3, 0)];
    reported(&spoils, &calls, &[Kind::Exact, Kind::Longer]);
    reported(&spoils[..3], &calls, &[Kind::Short]);
}

#[test]
fn broken_laws_are_found() {
    let one = (&b"PLURU"[..], 1, &b"PLURU"[..]);
    let two = (&b"PRULU"[..], 2, 2);
    assert_eq!(broken(one, two), None);
    assert_eq!(broken(one, (b"PLURU", 1, 1)), None);
    assert!(broken((b"PLURU", 1, b"PLULU"), two).is_some());
    assert!(broken(one, (b"PRULU", 2, 3)).is_some());
    // In byte order the other way, or alike.
    assert!(broken((b"PRULU", 1, b"PRULU"), (b"PLURU", 2, 2)).is_some());
    assert!(broken(one, (b"PLURU", 2, 2)).is_some());
    assert!(broken(one, (b"PRULU", 1, 1)).is_some());
}

/// Services that give settings numbers from the highest one down.
struct Backwards;

impl Services for Backwards {
    fn call(&mut self, file: &[u8], call: Call, lent: Lent) -> Answer {
        let mut answer = expected(&Known::of(file), call, lent);
        if matches!(call, Call::NumberOf(..)) && answer.number == 0 {
            answer.setting = u32::MAX - answer.setting;
        }
        answer
    }
}

/// All mismatches of the settings of a case.
fn settings(services: impl Services, case: Case, file: &[u8]) -> Tally {
    let mut random = Random::new(2);
    let mut calls = Calls::new(services, &mut random);
    let mut tally = Tally::default();
    let known = Known::of(file);
    for _ in 0..20 {
        calls.settings(&mut random, &mut tally, case, &known);
    }
    tally
}

#[test]
fn whole_cases_are_compared() {
    let right = settings(Spoiled(unspoiled), Case::Accepted, S);
    assert_eq!(right.mismatches, 0);
    assert!(right.calls > 200, "{}", right.calls);
    assert!(settings(Backwards, Case::Accepted, S).mismatches > 20);
    let late: Spoil = |answer, _| answer.setting += u32::from(answer.setting > 0);
    assert!(settings(Spoiled(late), Case::Accepted, S).mismatches > 5);
    let refused = settings(Spoiled(unspoiled), Case::Any, b"x\n");
    assert_eq!(refused.mismatches, 0);
    assert_eq!(refused.settings.number_of.count(3, THERE), 20);
    assert_eq!(refused.settings.setting_of.count(3, THERE), 20);
    assert_eq!(refused.settings.setting_of.count(3, SHORT), 20);
}

#[test]
fn every_pair_of_faults_once() {
    let pairs = pairs();
    assert_eq!(pairs.len(), 14);
    assert!(pairs.contains(&[Fault::AbsentLine, Fault::Last]));
    assert!(pairs.contains(&[Fault::TooMany, Fault::Last]));
    assert!(pairs.contains(&[Fault::AbsentLine, Fault::TooMany]));
    let mut random = Random::new(3);
    let mut calls = Calls::new(Spoiled(unspoiled), &mut random);
    let mut tally = Tally::default();
    calls.faults(&mut random, &mut tally);
    assert_eq!(tally.mismatches, 0);
    assert_eq!(tally.calls, 14 * 6);
    assert!(!tally
        .missing()
        .iter()
        .any(|what| what.starts_with("two faults")));
    // Each of 1, 2, 15, 18 and 16 or 19 is given, on both sides.
    for number in [1, 2, 15, 18] {
        for grid in [&tally.settings.number_of, &tally.settings.setting_of] {
            assert!(grid.count(number, HERE) > 0);
            assert!(grid.count(number, THERE) > 0);
        }
    }
    assert_eq!(tally.settings.number_of.count(16, THERE), 5);
    assert_eq!(tally.settings.setting_of.count(19, THERE), 5);
}

/// Services that look for 16 and 19 before they look for 18, or for 15.
struct Early;

impl Services for Early {
    fn call(&mut self, file: &[u8], call: Call, lent: Lent) -> Answer {
        let known = Known::of(file);
        let mut answer = expected(&known, call, lent);
        let Ok(rules) = &known.checked else {
            return answer;
        };
        let known = |ty: u32| (ty as usize) < rules.types.len();
        answer.number = match (answer.number, call) {
            (18, Call::SettingOf(_, u32::MAX)) => 19,
            (18, Call::NumberOf(..)) => 16,
            (15, Call::NumberOf(_, [])) => 16,
            (15, Call::SettingOf(ty, 4_000_000_000..)) if !known(ty) => 19,
            (number, _) => number,
        };
        answer
    }
}

#[test]
fn a_wrong_order_of_refusals_is_reported() {
    let mut random = Random::new(4);
    let mut calls = Calls::new(Early, &mut random);
    let mut tally = Tally::default();
    calls.faults(&mut random, &mut tally);
    // Each differs from the checker written apart, and from what it has to be.
    assert!(tally.mismatches >= 8, "{}", tally.mismatches);
    let wrong = tally
        .reports
        .iter()
        .any(|report| report.text.contains("have to give"));
    assert!(wrong, "{:?}", tally.reports);
}

/// The input of a report is a stored example's, and says what was asked.
#[test]
fn reports_have_the_call() {
    let spoil: Spoil = |answer, _| answer.number = 7;
    let report = &tally(spoil, NUMBER, Kind::Exact).reports[0];
    assert_eq!(report.input, [S, b"N,2,PRULU\n"].concat());
    let report = &tally(spoil, LETTERS, Kind::Exact).reports[0];
    assert_eq!(report.input, [S, b"S,2,2\n"].concat());
    let known = Known::of(S);
    let rules = known.checked.as_ref().ok().unwrap();
    assert_eq!(number_of_rules(rules, 2, b"PRULU"), Ok(2));
    assert_eq!(setting_of_rules(rules, 2, 2), Ok(b"PRULU".to_vec()));
}
