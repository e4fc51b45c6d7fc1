//! Plays: each kind of wrong answer is reported, each element that differs, a way
//! back that does not restore, and the wrong one of two faults.

mod common;

use apart::areas::{Known, TABLE, WORK};
use apart::check;
use apart::generate::counted;
use apart::generate::played::bad_lines;
use apart::generate::random::Random;
use apart::units::{self, Lent};
use common::{Spoiled, S};
use compare::areas::Kind;
use compare::calls::Calls;
use compare::case::Case;
use compare::play::{broken, good, Play, Played, BACK};
use compare::play_faults::pairs;
use compare::service::{expected, Answer, Call, Services};
use compare::settings::{HERE, SHORT, THERE};
use compare::tally::Tally;

type Spoil = fn(&mut (u32, usize), &mut Lent);

/// The services of the checker written apart, each play spoiled.
struct Wrong(Spoil);

impl Services for Wrong {
    fn call(&mut self, file: &[u8], call: Call, lent: compare::service::Lent) -> Answer {
        expected(&Known::of(file), call, lent)
    }

    fn play(
        &mut self,
        file: &[u8],
        (script, budget): (&[u8], u32),
        mut lent: Lent,
    ) -> (u32, usize) {
        let own = Lent {
            table: &mut *lent.table,
            work: &mut *lent.work,
            types: &mut *lent.types,
            settings: &mut *lent.settings,
            tally: &mut *lent.tally,
        };
        let played = units::play(&Known::of(file), script, budget, own);
        let mut answer = (played.number.into(), played.line);
        (self.0)(&mut answer, &mut lent);
        answer
    }
}

/// Two units of S and visits of both.
fn play(script: &str) -> Play {
    Play {
        types: vec![1, 2],
        settings: vec![0, 1],
        script: script.as_bytes().to_vec(),
        budget: 2,
    }
}

const GOOD: &str = "S,0,0,0\nS,1,1,1\r\nS,0,0,1\n";

fn tally(spoil: Spoil, play: &Play, kinds: [Kind; 2]) -> Tally {
    let mut random = Random::new(2);
    let mut calls = Calls::new(Wrong(spoil), &mut random);
    let mut tally = Tally::default();
    calls.play(&mut random, &mut tally, &Known::of(S), play, kinds);
    assert_eq!(tally.calls, 1);
    assert_eq!(tally.reports.len(), tally.mismatches);
    tally
}

#[test]
fn right_plays_agree() {
    for (script, number) in [(GOOD, 0), ("S,2,0,0\n", 22), ("S,0,0,0", 22)] {
        for kind in [
            Kind::Exact,
            Kind::Longer,
            Kind::Short,
            Kind::Fewer,
            Kind::Empty,
        ] {
            let short = !matches!(kind, Kind::Exact | Kind::Longer);
            let right = tally(|_, _| {}, &play(script), [kind, Kind::Exact]);
            assert_eq!(right.mismatches, 0, "{script} {kind:?}");
            let given = if short { 1 } else { number };
            let numbers = &right.plays.numbers;
            assert_eq!(numbers.count(given, HERE), 1);
            assert_eq!(numbers.count(given, THERE), 1);
            assert_eq!(numbers.count(number, SHORT), usize::from(short));
        }
    }
}

#[test]
fn wrong_plays_are_reported() {
    let spoils: [Spoil; 15] = [
        |answer, _| answer.0 ^= 1,
        |answer, _| answer.1 += 1,
        |_, lent| lent.types[0] ^= 1,
        |_, lent| lent.types[1] ^= 1,
        |_, lent| lent.settings[0] ^= 1,
        |_, lent| lent.settings[1] ^= 1,
        |_, lent| lent.tally.done ^= 1,
        |_, lent| lent.tally.skipped ^= 1,
        |_, lent| lent.tally.spent ^= 1,
        |_, lent| lent.table[0] ^= 1,
        |_, lent| lent.table[TABLE - 1] ^= 1,
        |_, lent| lent.table[TABLE] ^= 1,
        |_, lent| lent.work[0] ^= 1,
        |_, lent| lent.work[WORK - 1] ^= 1,
        |_, lent| lent.work[WORK] ^= 1,
    ];
    for (place, spoil) in spoils.into_iter().enumerate() {
        for script in [GOOD, "", "x\n"] {
            let found = tally(spoil, &play(script), [Kind::Longer; 2]).mismatches;
            assert_eq!(found, 1, "{place} {script}");
        }
    }
}

/// Short areas by one and by more, of each area, are 1 and change nothing.
#[test]
fn short_areas() {
    let mut tally = Tally::default();
    let mut random = Random::new(4);
    let mut calls = Calls::new(Spoiled(common::unspoiled), &mut random);
    let known = Known::of(S);
    for round in 0..1_000 {
        calls.plays(&mut random, &mut tally, Case::Any, &known);
        assert_eq!(tally.mismatches, 0, "{round}");
    }
    for area in 26..30 {
        for kind in [Kind::Exact, Kind::Short, Kind::Fewer, Kind::Empty] {
            assert!(
                tally.areas.count(area, kind as usize) > 0,
                "{area} {kind:?}"
            );
        }
    }
    assert!(tally.plays.likeness.count(BACK, 0) > 100);
}

#[test]
fn a_way_back_is_held_to_the_law() {
    let rules = check(S).expect("accepted");
    let before = play(GOOD);
    let again = |types: [u32; 2], settings: [u32; 2], number| Played {
        number,
        line: 0,
        types: types.to_vec(),
        settings: settings.to_vec(),
        tally: units::Tally::default(),
    };
    assert!(broken(&rules, &before, &again([1, 2], [0, 1], 0)).is_none());
    assert!(broken(&rules, &before, &again([1, 2], [0, 0], 0)).is_some());
    assert!(broken(&rules, &before, &again([2, 2], [0, 1], 0)).is_some());
    assert!(broken(&rules, &before, &again([1, 2], [0, 1], 22)).is_some());
}

/// All pairs of faults in both orders, and each wrong choice is found.
#[test]
fn faults_of_plays() {
    let faults = |spoil: Spoil| {
        let mut random = Random::new(5);
        let mut calls = Calls::new(Wrong(spoil), &mut random);
        let mut tally = Tally::default();
        calls.play_faults(&mut random, &mut tally);
        tally
    };
    let right = faults(|_, _| {});
    assert_eq!(right.mismatches, 0);
    assert_eq!(right.plays.faults.missing(), Vec::<String>::new());
    assert_eq!(pairs().len(), 21);
    let wrong = faults(|answer, _| {
        if answer.0 == 19 {
            answer.0 = 22;
        }
    });
    assert!(wrong.mismatches > 10, "{}", wrong.mismatches);
}

/// 1,000 units and one more, 4,096 lines and one more.
#[test]
fn limits_of_plays() {
    let mut random = Random::new(6);
    let mut calls = Calls::new(Spoiled(common::unspoiled), &mut random);
    let mut tally = Tally::default();
    calls.play_limits(&mut random, &mut tally, &Known::of(S));
    assert_eq!(tally.mismatches, 0);
    let missing = tally.plays.likeness.missing();
    for row in ["1,000", "1,001", "4,096", "4,097", "unfed", "999"] {
        let left = missing.iter().filter(|name| name.contains(row)).count();
        assert_eq!(left, 0, "{row}");
    }
}

/// Good plays are not refused, and every bad line is.
#[test]
fn good_and_bad_scripts() {
    let mut random = Random::new(7);
    for round in 0..60 {
        let file = counted::file(&mut random, round % 12);
        let rules = check(&file).expect("accepted");
        let made = good(&mut random, &rules, 4, 9);
        let played = |script: &[u8]| {
            let pairs = made
                .types
                .iter()
                .copied()
                .zip(made.settings.iter().copied());
            let pairs: Vec<(u32, u32)> = pairs.collect();
            let given = units::play_rules(&rules, &pairs, script, made.budget);
            given.err().map_or(0, |refusal| refusal.number)
        };
        assert_eq!(played(&made.script), 0);
        if made.types.is_empty() {
            continue;
        }
        for line in bad_lines(made.types.len(), rules.isos.len()) {
            let script = [&made.script, line.as_bytes()].concat();
            assert_eq!(played(&script), 22, "{line:?}");
        }
    }
}
