//! Request 13: isos of up to 128 clauses, as they are made.

use apart::generate::longer::{file, weighed, Weight, COUNTS, NUMBERS};
use apart::generate::query::sample;
use apart::generate::random::Random;
use apart::lines::{read, Clause, Iso};
use apart::{check, run_rules, turn, Refusal};

/// The last iso has so many clauses and is the one that is refused.
#[test]
fn files_are_what_they_are_made_for() {
    let mut random = Random::new(41);
    for number in NUMBERS {
        for count in COUNTS.repeat(3) {
            let file = file(&mut random, number, count);
            let isos = read(&file).expect("no line is refused").isos;
            let last = isos.last().expect("an iso");
            assert_eq!(last.clauses.len(), count, "{number}");
            match check(&file).err() {
                None => assert_eq!(number, 0),
                Some(refusal) => assert!(is_of(last, number, refusal), "{refusal:?}"),
            }
        }
    }
}

fn is_of(iso: &Iso, number: u8, refusal: Refusal) -> bool {
    let line = match number {
        8..=10 => iso.clauses.iter().any(|clause| clause.line == refusal.line),
        _ => iso.line == refusal.line,
    };
    refusal.number == number && line
}

/// Values go there and back through isos of many clauses, and the turned file is
/// accepted.
#[test]
fn there_and_back() {
    let mut random = Random::new(42);
    let mut calls = 0;
    for count in COUNTS.repeat(5) {
        let file = file(&mut random, 0, count);
        let rules = check(&file).expect("accepted");
        let turned = check(&turn(&file).expect("accepted")).expect("accepted");
        let place = rules.isos.len() - 1;
        for _ in 0..20 {
            let mut value = Vec::new();
            sample(&mut random, &rules.isos[place].from, &mut value);
            let place = place as u16;
            let (count, given) = run_rules(&rules, place, false, 9, &value).expect("given");
            calls += usize::from(count > 1);
            let back = Ok((count, value));
            assert_eq!(run_rules(&rules, place, true, 9, &given), back);
            assert_eq!(run_rules(&turned, place, false, 9, &given), back);
        }
    }
    assert!(calls > 0);
}

/// Patterns of weights that only many clauses reach: 128 of seven left and right
/// nodes, or 127 of them, and one of forty.
#[test]
fn weights_of_many_clauses() {
    let mut random = Random::new(43);
    for (weight, number) in [
        (Weight::Even, 0),
        (Weight::Even, 13),
        (Weight::Even, 14),
        (Weight::Forty, 0),
        (Weight::Forty, 13),
    ]
    .repeat(5)
    {
        let file = weighed(&mut random, weight, number);
        let isos = read(&file).expect("no line is refused").isos;
        let last = isos.last().expect("an iso");
        let side = |clause: &Clause| match number {
            14 => clause.right.sides(),
            _ => clause.left.sides(),
        };
        let sides: Vec<usize> = last.clauses.iter().map(side).collect();
        match weight {
            Weight::Even => {
                assert_eq!(sides.len(), 128 - usize::from(number > 0));
                assert!(sides.iter().all(|sides| *sides == 7));
            }
            Weight::Forty => assert!(sides.len() > 40 && sides.contains(&40)),
        }
        let given = check(&file).err().map_or(0, |refusal| refusal.number);
        assert_eq!(given, number);
    }
}
