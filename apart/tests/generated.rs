//! The generator keeps what it promises, and made files keep the rules of
//! document 01 that tie the services together.

use apart::cover::{covers, orthogonal};
use apart::generate::idle::{self, IDLES};
use apart::generate::random::Random;
use apart::generate::shape::{self, Sketch};
use apart::generate::{accepted, any_file, ceiling, miss, pair, query};
use apart::lines::LISTS;
use apart::tree::{Pattern, Type};
use apart::{check, run_rules, turn, Refusal, Rules};
use std::rc::Rc;

#[test]
fn accepted_files_turn_twice_and_run_there_and_back() {
    let mut random = Random::new(11);
    for _ in 0..150 {
        let file = accepted(&mut random);
        let rules = check(&file).expect("accepted");
        let turned = turn(&file).unwrap();
        let plain: Vec<u8> = file.iter().copied().filter(|byte| *byte != b'\r').collect();
        assert_eq!(turned.len(), plain.len());
        let back = check(&turned).expect("the turned file is accepted");
        assert_eq!(turn(&turned).unwrap(), plain);
        for (iso, _) in rules.isos.iter().enumerate() {
            there_and_back(&mut random, &rules, &back, iso);
        }
    }
}

fn there_and_back(random: &mut Random, rules: &Rules, turned: &Rules, iso: usize) {
    let mut value = Vec::new();
    query::sample(random, &rules.isos[iso].from, &mut value);
    let number = iso as u16;
    match run_rules(rules, number, false, 2_000, &value) {
        Ok((count, given)) => {
            let budget = count as u32;
            let same = Ok((count, value.clone()));
            assert_eq!(run_rules(rules, number, true, budget, &given), same);
            assert_eq!(run_rules(turned, number, false, budget, &given), same);
            assert_eq!(
                run_rules(turned, number, true, budget, &value),
                Ok((count, given))
            );
            let below = run_rules(rules, number, false, budget - 1, &value);
            assert_eq!(below.unwrap_err().number, 17);
        }
        Err(refusal) => assert!(matches!(refusal.number, 17 | 24), "{refusal:?}"),
    }
}

/// Files with idle lines name the first of them, and are accepted without them.
#[test]
fn idle_lines_are_made_and_taken_out() {
    let mut random = Random::new(19);
    for form in IDLES.repeat(8) {
        let (file, line) = idle::file(&mut random, form);
        let refusal = check(&file).err();
        assert_eq!(refusal, Some(Refusal { number: 21, line }), "{form:?}");
        assert!(check(&idle::pruned(&file, LISTS)).is_ok(), "{form:?}");
    }
    let fine = accepted(&mut random);
    assert_eq!(idle::pruned(&fine, LISTS), fine);
}

#[test]
fn each_refusal_of_a_file_is_hit_when_aimed_at() {
    let mut random = Random::new(12);
    for number in (2..15).chain([21, 23]) {
        for _ in 0..4 {
            let file = miss::aimed(&mut random, number);
            assert_eq!(
                check(&file).err().map(|refusal| refusal.number),
                Some(number)
            );
        }
    }
}

/// The answers that a pair promises come from the order in document 01, not
/// from the checker.
#[test]
fn each_pair_of_faults_is_made() {
    let mut random = Random::new(17);
    let pairs = pair::all();
    assert_eq!(pairs.len(), 218);
    for pair in pairs.iter().cycle().take(3 * pairs.len()) {
        let made = pair::make(&mut random, *pair);
        for (file, (number, line)) in made.files.iter().zip(made.answers) {
            let text = String::from_utf8_lossy(file);
            assert_eq!(
                check(file).err(),
                Some(Refusal { number, line }),
                "{pair:?}\n{text}"
            );
        }
    }
}

#[test]
fn ceilings_pass_and_one_over_does_not() {
    let mut random = Random::new(13);
    let number = |file: &[u8]| check(file).err().map_or(0, |refusal| refusal.number);
    for _ in 0..60 {
        let over = ceiling::at_ceiling(&mut random, true);
        assert_eq!(number(&over), 7);
    }
    for _ in 0..5 {
        assert_eq!(number(&ceiling::many_bytes(&mut random, true)), 2);
        assert_eq!(number(&ceiling::many_bytes(&mut random, false)), 3);
    }
    let lines = |file: &[u8]| file.iter().filter(|byte| **byte == b'\n').count();
    for _ in 0..5 {
        let over = ceiling::many_lines(&mut random, true);
        assert_eq!((number(&over), lines(&over)), (2, 4_097));
        let at = ceiling::many_lines(&mut random, false);
        assert_eq!((number(&at), lines(&at)), (0, 4_096));
    }
}

#[test]
fn the_same_seed_makes_the_same_files() {
    let made = |seed| {
        let mut random = Random::new(seed);
        (0..20).map(|_| any_file(&mut random)).collect::<Vec<_>>()
    };
    assert_eq!(made(5), made(5));
    assert_ne!(made(5), made(6));
}

/// Shapes that accepted files take, counted.
#[test]
fn accepted_files_take_many_shapes() {
    let mut random = Random::new(14);
    let (mut lets, mut wide, mut deep, mut moved, mut many) = (0, 0, 0, 0, 0);
    let (mut full, mut split, mut paired) = (0, 0, 0);
    for _ in 0..400 {
        let rules = check(&accepted(&mut random)).expect("accepted");
        let clauses = || rules.isos.iter().flat_map(|iso| &iso.clauses);
        let steps = || clauses().flat_map(|clause| &clause.lets);
        lets += usize::from(steps().next().is_some());
        paired += usize::from(steps().any(|step| step.q.nodes() > 1 || step.p.nodes() > 1));
        wide += usize::from(rules.isos.iter().any(|iso| iso.clauses.len() >= 16));
        split += usize::from(rules.isos.iter().any(|iso| iso.clauses.len() >= 3));
        deep += usize::from(clauses().any(|clause| clause.left.sides() >= 8));
        full += usize::from(clauses().any(|clause| clause.lets.len() == 8));
        many += usize::from(rules.isos.len() >= 16);
        moved += usize::from(changes_a_value(&mut random, &rules));
    }
    println!("lets {lets} paired {paired} wide {wide} split {split} deep {deep} full {full} many {many} moved {moved}");
    assert!(lets > 100 && paired > 20 && wide > 10 && split > 100);
    assert!(deep > 10 && full > 10 && many > 10 && moved > 100);
}

fn changes_a_value(random: &mut Random, rules: &Rules) -> bool {
    rules.isos.iter().enumerate().any(|(place, iso)| {
        let mut value = Vec::new();
        query::sample(random, &iso.from, &mut value);
        let ran = run_rules(rules, place as u16, false, 500, &value);
        ran.is_ok_and(|(count, given)| count > 1 && given != value)
    })
}

/// Covering by splitting against covering by every closed value.
#[test]
fn covers_agrees_with_closed_values() {
    let mut random = Random::new(15);
    let pool = [Rc::new(Type::Unit)];
    let (mut yes, mut no) = (0, 0);
    while yes < 300 || no < 300 {
        let ty = shape::random_type(&mut random, 5, &pool);
        if shape::closed_count(&ty) > 64 {
            continue;
        }
        let mut cases = match random.below(3) {
            0 => shape::scattered(&mut random, &ty, 32),
            1 => (0..random.below(9))
                .map(|_| shape::one_case(&mut random, &ty, 30))
                .collect(),
            _ => shape::split(&mut random, &ty, 32, 10),
        };
        if random.chance(40) && !cases.is_empty() {
            cases.remove(random.below(cases.len()));
        }
        let patterns: Vec<_> = cases.iter().map(|case| case.pattern(&mut |_| 0)).collect();
        let patterns: Vec<&Pattern> = patterns.iter().map(|pattern| &**pattern).collect();
        // A closed value clashes with a pattern exactly when it is not matched.
        let matched = |value: &Sketch| {
            let value = value.pattern(&mut |_| 0);
            patterns.iter().any(|pattern| !orthogonal(pattern, &value))
        };
        let all = shape::closed(&ty).iter().all(matched);
        assert_eq!(covers(&ty, &patterns), all);
        *(if all { &mut yes } else { &mut no }) += 1;
    }
}

/// The largest sides end quickly, covered or not.
#[test]
fn covers_ends_quickly() {
    let mut random = Random::new(16);
    let begun = std::time::Instant::now();
    for round in 0..300 {
        let ty = shape::exact_type(&mut random, 127);
        let mut cases = match round % 2 {
            0 => shape::split(&mut random, &ty, 32, 1),
            _ => shape::scattered(&mut random, &ty, 32),
        };
        if round % 3 == 0 && cases.len() > 1 {
            cases.remove(random.below(cases.len()));
        }
        let patterns: Vec<_> = cases.iter().map(|case| case.pattern(&mut |_| 0)).collect();
        let patterns: Vec<&Pattern> = patterns.iter().map(|pattern| &**pattern).collect();
        let covered = covers(&ty, &patterns);
        assert!(
            covered == (round % 3 != 0 || cases.len() == 1) || round % 2 == 1 || cases.len() == 1
        );
    }
    assert!(begun.elapsed().as_secs() < 60);
}
