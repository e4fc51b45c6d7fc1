//! Request 03: variable numbers used again.

use apart::desk::desk;
use apart::generate::life::{agains, slips, used_with_some_type, Again, Slip, AGAINS, SLIPS};
use apart::generate::random::Random;
use apart::generate::{accepted, any_file, query, thread};
use apart::lines::{read, Clause, Iso};
use apart::reduce::turned;
use apart::{before, check, clause, run_rules, turn, Refusal, Rules};
use std::collections::BTreeSet;

mod common;
use common::{lines, refused_files};

/// Unit, a sum of two units, its product with itself and with the unit; P 0
/// unit, 1 x0, 2 x1, 3 left, 4 right, 5 (x0, x1), 6 (x0, x0), 7 (x1, x0), 8
/// (unit, x0), 9 x2. Iso 0 exchanges left and right; iso 1 puts
/// the unit before its value.
const HEAD: &str = "T,0,0,0 T,1,0,0 T,2,1,1 T,2,0,1 P,0,0,0 P,1,0,0 P,1,1,0 P,2,0,0 P,3,0,0 \
P,4,1,2 P,4,1,1 P,4,2,1 P,4,0,1 P,1,2,0 I,1,1 C,3,4 C,4,3 I,1,3 C,1,8";

/// The lines of the I and C line that stand behind `HEAD`.
const ISO: usize = 20;
const CLAUSE: usize = 21;

/// Isos that use each P line; (x0, x0) is of use to no accepted file, and (x0,
/// x1) stands in its place.
const USES: &str = "I,0,0 C,0,0 I,1,1 C,1,1 I,1,1 C,2,2 I,2,2 C,5,5 I,2,2 C,6,6 I,2,2 C,7,7 \
I,3,3 C,8,8 I,1,1 C,9,9";

/// A file with an iso that is accepted.
fn kept(words: &str) -> Vec<u8> {
    let head = HEAD.replacen("P,4,1,1", "P,4,1,2", 1);
    lines(&format!("{head} {words} {USES}"))
}

/// A file with an iso that is refused: the last iso names all P lines, and is
/// not looked at.
fn file(words: &str) -> Vec<u8> {
    lines(&format!(
        "{HEAD} {words} I,2,3 C,0,1 C,2,3 C,4,5 C,6,7 C,8,9"
    ))
}

fn checked(file: &[u8]) -> (u8, usize) {
    let given = check(file).err();
    given.map_or((0, 0), |refusal| (refusal.number, refusal.line))
}

fn number_before(file: &[u8]) -> u8 {
    before::check(file)
        .err()
        .map_or(0, |refusal| refusal.number)
}

fn printed(words: &str, queries: &str) -> String {
    let input = [kept(words), queries.as_bytes().to_vec()].concat();
    String::from_utf8(desk(&input)).expect("letters")
}

/// Clauses that the old rule refused with 8.
#[test]
fn a_number_is_bound_again_after_its_use() {
    for words in [
        "I,1,1 C,1,1 L,1,0,1",                 // by the p of the same line
        "I,1,1 C,1,1 L,1,0,1 L,1,0,1 L,1,0,1", // again and again
        "I,1,1 C,1,1 L,2,0,1 L,1,0,2",         // by a later p
        "I,1,1 C,1,1 L,2,0,1 L,1,0,2 L,2,0,1 L,1,0,2",
        "I,2,2 C,5,5 L,1,0,1", // the other one waits
        "I,2,2 C,5,7 L,1,0,1 L,2,0,2",
        "I,2,2 C,5,5 L,9,0,1 L,1,0,2 L,2,0,9", // three numbers in a round
        "I,1,3 C,1,1 L,1,1,1",                 // with another type
        "I,1,3 C,1,8 L,8,1,1",                 // p takes it apart
        "I,1,3 C,1,2 L,1,0,1 L,2,1,1",
    ] {
        let file = kept(words);
        assert_eq!(checked(&file), (0, 0), "{words}");
        assert_eq!(number_before(&file), 8, "{words}");
        assert_eq!(checked(&turn(&file).expect("accepted")), (0, 0), "{words}");
    }
}

#[test]
fn each_way_to_break_the_rule() {
    use Slip::*;
    for (words, slip) in [
        ("I,2,1 C,5,2 L,2,0,1", BoundByLeftAndLet),
        ("I,2,1 C,5,1 L,1,0,1 L,1,0,2", BoundByTwoLets),
        ("I,2,1 C,6,1", BoundTwiceInLeft),
        ("I,1,1 C,3,1 L,6,0,0", BoundTwiceInLet),
        ("I,2,1 C,5,1", LiveFromLeft),
        ("I,1,1 C,1,0 L,1,0,1", LiveFromLet),
        ("I,2,2 C,5,5 L,0,0,1", UsedByLetAndRight),
        ("I,1,1 C,1,2 L,0,0,1 L,2,0,1", UsedByTwoLets),
        ("I,1,2 C,1,6", UsedTwiceInRight),
        ("I,1,2 C,1,2 L,2,0,6", UsedTwiceInLet),
        ("I,1,2 C,1,5", UnboundInRight),
        ("I,1,1 C,1,1 L,1,0,5", UnboundInLet),
        ("I,1,1 C,0,1 L,1,0,1", UsedBeforeBound),
        ("I,1,1 C,1,2 L,1,0,7 L,2,0,1", UsedBeforeBound),
    ] {
        let file = file(words);
        assert_eq!(checked(&file), (8, CLAUSE), "{words}");
        assert_eq!(number_before(&file), 8, "{words}");
        let isos = read(&file).expect("no line is refused").isos;
        assert_eq!(slips(&isos[2].clauses[0]), [slip], "{words}");
    }
}

#[test]
fn each_binding_has_its_own_type() {
    // x0 is of two units, then a pair: the to-type has to be that of the last.
    assert_eq!(checked(&kept("I,1,3 C,1,1 L,1,1,1")), (0, 0));
    assert_eq!(checked(&file("I,1,1 C,1,1 L,1,1,1")), (10, CLAUSE));
    // A q may not have the type of a binding that is used up, or of a later one.
    assert_eq!(checked(&file("I,1,3 C,1,1 L,1,1,1 L,1,1,1")), (10, CLAUSE));
    assert_eq!(checked(&file("I,3,1 C,1,1 L,1,1,1")), (10, CLAUSE));
    // 8 goes before 10 as before.
    assert_eq!(checked(&file("I,1,1 C,1,0 L,1,1,1")), (8, CLAUSE));
    assert_eq!(checked(&kept("I,2,2 C,5,5 L,1,0,1")), (0, 0));
    assert_eq!(checked(&file("I,2,2 C,5,5 L,1,0,1 C,5,5")), (11, ISO));
}

/// A use with the type of a binding that is used up.
#[test]
fn files_with_the_type_of_another_binding() {
    let mut random = Random::new(36);
    for _ in 0..60 {
        let (file, line) = thread::mistyped(&mut random);
        assert_eq!(checked(&file), (10, line));
        assert_eq!(number_before(&file), 8);
        let isos = read(&file).expect("no line is refused").isos;
        let (last, earlier) = isos.split_last().expect("some isos");
        let clause = &last.clauses[0];
        assert!(slips(clause).is_empty() && used_with_some_type(clause, last, earlier));
        assert!(agains(clause, last, earlier).contains(&Again::OtherType));
    }
}

/// A value is that of the live binding, there and back.
#[test]
fn values_of_numbers_bound_again() {
    let asked = "Q,2,0,9,PLULU\nQ,2,0,9,PLURU\nQ,2,1,9,PLULU\nQ,2,1,9,PLURU\nQ,2,1,9,PRULU\n";
    let first = printed("I,2,2 C,5,5 L,1,0,1", asked);
    let wanted = "0,0\n0,2,PRULU\n0,2,PRURU\n0,2,PRULU\n0,2,PRURU\n0,2,PLULU\n";
    assert_eq!(first, wanted);
    // The first part turned and put last.
    let last = printed("I,2,2 C,5,7 L,1,0,1", asked);
    let wanted = "0,0\n0,2,PLURU\n0,2,PRURU\n0,2,PRULU\n0,2,PLULU\n0,2,PRURU\n";
    assert_eq!(last, wanted);
    // x2 takes the first part, x0 the second, x1 the first again, each turned.
    let round = printed("I,2,2 C,5,5 L,9,0,1 L,1,0,2 L,2,0,9", asked);
    let wanted = "0,0\n0,4,PRULU\n0,4,PLULU\n0,4,PLURU\n0,4,PRURU\n0,4,PLULU\n";
    assert_eq!(round, wanted);
    let types = printed("I,1,3 C,1,1 L,1,1,1", "Q,2,0,2,RU\nQ,2,1,2,PURU\n");
    assert_eq!(types, "0,0\n0,2,PURU\n0,2,RU\n");
}

/// Document 01's S, its further files and its answers.
#[test]
fn the_old_files_answer_alike() {
    const S: &str = "T,0,0,0 T,1,0,0 T,2,1,1 P,0,0,0 P,2,0,0 P,3,0,0 P,1,0,0 P,1,1,0 \
P,4,1,3 P,4,1,4 P,4,2,3 I,1,1 C,1,2 C,2,1 I,2,2 C,5,6 L,4,0,3 C,7,7";
    let words: Vec<&str> = S.split_whitespace().collect();
    let with = |line: usize, word: &'static str| {
        let mut words = words.clone();
        words[line - 1] = word;
        lines(&words.join(" "))
    };
    assert_eq!(checked(&with(17, "")), (8, 16));
    let files = [
        lines(S),
        with(17, ""),
        with(17, "L,4,0,1"),
        with(17, "L,4,1,3"),
        with(18, ""),
        with(18, "C,7,7 C,7,7"),
    ];
    for file in files.into_iter().chain(refused_files()) {
        let same = before::check(&file).err();
        assert_eq!(check(&file).err(), same);
    }
}

/// Each clause of the isos with its iso.
fn clauses(isos: &[Iso]) -> impl Iterator<Item = (usize, &Clause)> {
    let places = isos.iter().enumerate();
    places.flat_map(|(place, iso)| iso.clauses.iter().map(move |clause| (place, clause)))
}

/// Rule 8 by names, and by following each number alone, in both directions.
#[test]
fn two_ways_to_rule_8_agree() {
    let mut random = Random::new(31);
    let (mut kept, mut broken) = (0, 0);
    for round in 0..800 {
        let file = match round % 4 {
            0 => {
                let slip = *random.pick(&SLIPS);
                thread::slip(&mut random, slip).0
            }
            _ => any_file(&mut random),
        };
        let Ok(reader) = read(&file) else {
            continue;
        };
        let back: Vec<Iso> = reader.isos.iter().map(turned).collect();
        for isos in [&reader.isos, &back] {
            for (place, clause) in clauses(isos) {
                let given = clause::checked(clause, &isos[place], &isos[..=place]);
                let fine = slips(clause).is_empty();
                assert_eq!(given == Err(8), !fine, "{clause:?}");
                *(if fine { &mut kept } else { &mut broken }) += 1;
            }
        }
    }
    assert!(kept > 5_000 && broken > 300, "{kept} {broken}");
}

/// A clause keeps the rule exactly when its turned clause does.
#[test]
fn turning_keeps_and_breaks_alike() {
    let mut random = Random::new(32);
    for slip in SLIPS {
        for _ in 0..10 {
            let (file, line) = thread::slip(&mut random, slip);
            let isos = read(&file).expect("no line is refused").isos;
            for (iso, back) in isos.iter().zip(isos.iter().map(turned)) {
                for (clause, back) in iso.clauses.iter().zip(&back.clauses) {
                    assert_eq!(slips(clause).is_empty(), clause.line != line);
                    assert_eq!(slips(back).is_empty(), clause.line != line);
                }
            }
        }
    }
}

#[test]
fn each_slip_is_made_and_refused() {
    let mut random = Random::new(33);
    for slip in SLIPS {
        for _ in 0..25 {
            let (file, line) = thread::slip(&mut random, slip);
            assert_eq!(check(&file).err(), Some(Refusal { number: 8, line }));
            assert_eq!(number_before(&file), 8);
        }
    }
}

/// The ways in which an accepted file binds numbers again.
fn ways(file: &[u8]) -> BTreeSet<Again> {
    let isos = read(file).expect("accepted").isos;
    let all = clauses(&isos).flat_map(|(place, clause)| agains(clause, &isos[place], &isos));
    all.collect()
}

#[test]
fn accepted_files_bind_numbers_again() {
    let mut random = Random::new(34);
    let mut met = [0; AGAINS.len()];
    let (mut never, mut both) = (0, 0);
    for round in 0..400 {
        let file = match round % 8 {
            0 => thread::again(&mut random),
            1 => thread::crowded(&mut random),
            _ => accepted(&mut random),
        };
        assert_eq!(checked(&file), (0, 0));
        let ways = ways(&file);
        never += usize::from(ways.is_empty());
        assert!(!ways.is_empty() || round % 8 > 1);
        for (count, again) in met.iter_mut().zip(AGAINS) {
            *count += usize::from(ways.contains(&again));
        }
        both += usize::from(there_and_back(&mut random, &file) && !ways.is_empty());
    }
    println!("{met:?}, never {never}, there and back {both}");
    assert!(met.iter().all(|count| *count > 20), "{met:?}");
    assert!(never > 50 && both > 50);
}

/// Whether some iso gave its value back, and none another.
fn there_and_back(random: &mut Random, file: &[u8]) -> bool {
    let rules = check(file).expect("accepted");
    let turned = check(&turn(file).expect("accepted")).expect("accepted");
    let mut some = false;
    for iso in 0..rules.isos.len() {
        let mut value = Vec::new();
        query::sample(random, &rules.isos[iso].from, &mut value);
        let number = iso as u16;
        if let Ok((count, given)) = run_rules(&rules, number, false, 1_000, &value) {
            let same = Ok((count, value));
            let budget = count as u32;
            assert_eq!(run_rules(&rules, number, true, budget, &given), same);
            assert_eq!(run_rules(&turned, number, false, budget, &given), same);
            some = true;
        }
    }
    some
}

/// What the old rule accepted is accepted with the same answers; what it
/// refused otherwise than with 8 is refused alike.
#[test]
fn the_old_rule_is_kept_but_for_8() {
    let mut random = Random::new(35);
    let (mut accepted, mut alike, mut only_8, mut otherwise) = (0, 0, 0, 0);
    for _ in 0..1_500 {
        let file = any_file(&mut random);
        match (before::check(&file), check(&file)) {
            (Ok(before), Ok(now)) => {
                same_answers(&mut random, &before, &now);
                accepted += 1;
            }
            (Err(one), Err(two)) if one == two => alike += 1,
            (Err(refusal), now) => {
                assert_eq!(refusal.number, 8);
                *(if now.is_ok() {
                    &mut only_8
                } else {
                    &mut otherwise
                }) += 1;
            }
            (Ok(_), Err(refusal)) => panic!("accepted before, now {refusal:?}"),
        }
    }
    println!("accepted {accepted}, alike {alike}, only 8 {only_8}, otherwise {otherwise}");
    assert!(accepted > 300 && alike > 300 && only_8 > 100 && otherwise > 50);
}

fn same_answers(random: &mut Random, before: &Rules, now: &Rules) {
    assert_eq!(before.rows, now.rows);
    for iso in 0..now.isos.len() {
        for back in [false, true] {
            let isos = if back { &now.turned } else { &now.isos };
            let mut value = Vec::new();
            query::sample(random, &isos[iso].from, &mut value);
            let ran = |rules| run_rules(rules, iso as u16, back, 500, &value);
            assert_eq!(ran(before), ran(now));
        }
    }
}
