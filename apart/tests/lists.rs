//! Request 14, "Zoned boards": lists, calls of the own iso, 23 and 24, by hand and
//! on made files.

mod common;

use apart::generate::breach::{self, BREACHES};
use apart::generate::large::{self, CAUSES};
use apart::generate::query::sample;
use apart::generate::random::Random;
use apart::generate::zoned::{self, Ending, ENDINGS};
use apart::generate::{accepted, any_file, miss, pair};
use apart::recursion::{calls_itself, ends};
use apart::{check_with, run_rules, turn_rules, Refusal, Rules};
use common::lines;

/// Check with the lines of request 14.
fn check(file: &[u8]) -> Result<Rules, Refusal> {
    check_with(file, true)
}

fn turned(rules: &Rules) -> Rules {
    check(&turn_rules(rules)).expect("the turned file is accepted")
}

/// A run there gives what a run of the turned file undoes with the same count;
/// one below it is spent. Whether it gave something.
fn there_and_back(random: &mut Random, rules: &Rules, back: &Rules, iso: usize) -> bool {
    let mut value = Vec::new();
    sample(random, &rules.isos[iso].from, &mut value);
    let number = iso as u16;
    match run_rules(rules, number, false, 2_000, &value) {
        Ok((count, given)) => {
            let budget = count as u32;
            let same = Ok((count, value.clone()));
            assert_eq!(run_rules(rules, number, true, budget, &given), same);
            assert_eq!(run_rules(back, number, false, budget, &given), same);
            let again = run_rules(back, number, true, budget, &value);
            assert_eq!(again, Ok((count, given)));
            let below = run_rules(rules, number, false, budget - 1, &value);
            assert_eq!(below.unwrap_err().number, 17);
            true
        }
        Err(refusal) => {
            assert!(matches!(refusal.number, 17 | 24), "{refusal:?}");
            false
        }
    }
}

/// Made files meet the rule as they are made to, are accepted turned and turned
/// twice, and runs of both undo each other.
#[test]
fn made_files_end_as_they_are_made_to() {
    let mut random = Random::with_lists(71);
    for ending in ENDINGS.repeat(60) {
        let file = zoned::file(&mut random, ending);
        let rules = check(&file).expect("accepted");
        let back = turned(&rules);
        assert_eq!(turn_rules(&back), file);
        let last = rules.isos.len() - 1;
        let both = [ends(&rules.isos, last), ends(&rules.turned, last)];
        let wanted = [
            matches!(ending, Ending::Both | Ending::Written),
            matches!(ending, Ending::Both | Ending::Turned),
        ];
        let text = String::from_utf8_lossy(&file);
        assert_eq!(both, wanted, "{ending:?}\n{text}");
        let mut given = 0;
        for iso in 0..rules.isos.len() {
            for _ in 0..6 {
                given += usize::from(there_and_back(&mut random, &rules, &back, iso));
            }
        }
        assert!(given > 0, "{text}");
    }
}

/// Planned files with lists, and files of any kind.
#[test]
fn planned_files_go_there_and_back() {
    let mut random = Random::with_lists(72);
    let (mut own, mut given) = (0, 0);
    for _ in 0..300 {
        let rules = check(&accepted(&mut random)).expect("accepted");
        let back = turned(&rules);
        for iso in 0..rules.isos.len() {
            let calls = calls_itself(&rules.isos[iso], iso);
            let gives = there_and_back(&mut random, &rules, &back, iso);
            own += usize::from(calls);
            given += usize::from(calls && gives);
        }
    }
    println!("{own} call themselves, {given} give something");
    assert!(own > 100 && given > 50, "{own} {given}");
    for _ in 0..500 {
        let _ = check(&any_file(&mut random));
    }
}

#[test]
fn document_examples() {
    let s = "T,0,0,0 T,1,0,0 T,2,1,1 P,0,0,0 P,2,0,0 P,3,0,0 P,1,0,0 P,1,1,0 \
P,4,1,3 P,4,1,4 P,4,2,3 I,1,1 C,1,2 C,2,1 I,2,2 C,5,6 L,4,1,3 C,7,7";
    let refusal = check(&lines(s)).err();
    assert_eq!(
        refusal,
        Some(Refusal {
            number: 10,
            line: 16
        })
    );
}

/// Each part of the rule of 23, at the line that it is made for; and the same
/// with the other clauses of the iso at fault.
#[test]
fn each_breach_is_refused_at_its_line() {
    let mut random = Random::with_lists(73);
    for breach in BREACHES.repeat(40) {
        let (file, line) = breach::file(&mut random, breach);
        let text = String::from_utf8_lossy(&file);
        let wanted = Some(Refusal { number: 23, line });
        assert_eq!(check(&file).err(), wanted, "{breach:?}\n{text}");
    }
    for number in (8..=14).cycle().take(70) {
        let (file, number, line) = breach::beside(&mut random, number);
        let text = String::from_utf8_lossy(&file);
        assert_eq!(check(&file).err(), Some(Refusal { number, line }), "{text}");
    }
}

/// Runs at a ceiling of 24 and one below it: one application less is 17.
#[test]
fn each_cause_of_24() {
    let mut random = Random::with_lists(74);
    for cause in CAUSES.repeat(30) {
        for size in large::sizes(cause) {
            let made = large::made(&mut random, cause, *size);
            let rules = check(&made.file).expect("accepted");
            let back = turned(&rules);
            for budget in [made.count - 1, made.count, made.count + 1, u32::MAX] {
                let wanted = match &made.given {
                    _ if budget < made.count => Err(17),
                    None => Err(24),
                    Some(given) => Ok((made.count.into(), given.clone())),
                };
                for (rules, back) in [(&rules, made.back), (&back, !made.back)] {
                    let ran = run_rules(rules, made.iso, back, budget, &made.letters);
                    let ran = ran.map_err(|refusal| refusal.number);
                    assert_eq!(ran, wanted, "{cause:?} {size} under {budget}");
                }
            }
            if let Some(given) = &made.given {
                let ran = run_rules(&rules, made.iso, !made.back, made.count, given);
                assert_eq!(ran, Ok((made.count.into(), made.letters)));
            }
        }
    }
}

/// "a start of over 127 letters that is a closed value" is not 16, whatever its
/// length; one letter more or less is.
#[test]
fn a_start_of_many_letters() {
    let rules = check(&lines("T,0,0,0 T,3,0,0 P,1,0,0 I,1,1 C,0,0")).expect("accepted");
    for elements in [64, 65, 1_000, 40_000] {
        let value = [&b"KU".repeat(elements)[..], b"N"].concat();
        let number = |budget, value: &[u8]| {
            let ran = run_rules(&rules, 0, false, budget, value);
            ran.err().map(|refusal| (refusal.number, refusal.line))
        };
        assert_eq!(number(0, &value), Some((17, 0)));
        assert_eq!(number(1, &value), Some((24, 0)));
        assert_eq!(number(u32::MAX, &value), Some((24, 0)));
        assert_eq!(number(0, &value[1..]), Some((16, 0)));
        assert_eq!(number(0, &[&value[..], b"N"].concat()), Some((16, 0)));
        assert_eq!(number(0, &value[..value.len() - 1]), Some((16, 0)));
    }
    let most = [&b"KU".repeat(63)[..], b"N"].concat();
    assert_eq!(run_rules(&rules, 0, false, 1, &most), Ok((1, most)));
}

/// Pairs of faults with 23, and near misses of each refusal in files with lists.
#[test]
fn faults_beside_23() {
    let mut random = Random::with_lists(75);
    let pairs = pair::all_with(true);
    for pair in pairs.iter().cycle().take(2 * pairs.len()) {
        let made = pair::make(&mut random, *pair);
        for (file, (number, line)) in made.files.iter().zip(made.answers) {
            let text = String::from_utf8_lossy(file);
            let wanted = Some(Refusal { number, line });
            assert_eq!(check(file).err(), wanted, "{pair:?}\n{text}");
        }
    }
    for number in (2..15).chain([21, 23]) {
        for _ in 0..4 {
            let file = miss::aimed(&mut random, number);
            let given = check(&file).err().map(|refusal| refusal.number);
            assert_eq!(given, Some(number));
        }
    }
}
