//! Isos of many clauses, lists of as many pairs, idle lines and the table of
//! five numbers a line: what is counted.

mod common;

use apart::areas::{Known, TABLE};
use apart::check;
use apart::generate::pair::{self, Pair};
use apart::generate::random::Random;
use common::S;
use compare::case::{file, Case};
use compare::idle::{self, ABOVE, BELOW, LIBRARY, RULES};
use compare::longer::{cases, count_file, count_list, BAD, MANY_PAIRS, OVER, WIDE, WRITTEN};
use compare::sizes;
use compare::tally::Tally;

/// The tally of one file.
fn counted(file: &[u8]) -> Tally {
    let mut tally = Tally::default();
    count_file(&mut tally, &Known::of(file));
    tally
}

/// A sum of so many units, and an iso of so many clauses that give its values
/// back, the first ones again where there are more clauses than values.
fn chain(count: usize, clauses: usize) -> Vec<u8> {
    let mut text = "T,0,0,0\n".to_string();
    text.extend((1..count).map(|place| format!("T,1,0,{}\n", place - 1)));
    text += "P,0,0,0\nP,2,0,0\n";
    let mut names = Vec::new();
    let mut next = 2;
    for depth in 0..count {
        let mut inner = usize::from(depth + 1 < count);
        for _ in 0..depth {
            text += &format!("P,3,{inner},0\n");
            inner = next;
            next += 1;
        }
        names.push(inner);
    }
    text += &format!("I,{0},{0}\n", count - 1);
    let clause = |place: usize| format!("C,{0},{0}\n", names[place % count]);
    text.extend((0..clauses).map(clause));
    text.into_bytes()
}

#[test]
fn clauses_are_counted() {
    // 33 clauses, 41, 129 where only 41 values are.
    for (count, clauses, number, columns) in [
        (32, 32, 0, &[0][..]),
        (33, 33, 0, &[1, WIDE]),
        (41, 41, 0, &[WIDE]),
        (41, 42, 11, &[WIDE]),
        (41, 128, 11, &[3, WIDE]),
        (41, 129, 7, &[OVER]),
        (20, 20, 0, &[]),
    ] {
        let file = chain(count, clauses);
        let given = check(&file).err().map_or(0, |refusal| refusal.number);
        assert_eq!(given, number, "{clauses}");
        let tally = counted(&file);
        let row = usize::from(number.saturating_sub(6));
        for column in 0..=OVER {
            let hits = tally.longer.clauses.count(row, column);
            let wanted = usize::from(columns.contains(&column));
            assert_eq!(hits, wanted, "{clauses} {column}");
        }
    }
    // Over the ceiling of let steps: 7, but for no clause.
    let nine = [
        &b"T,0,0,0\nP,0,0,0\nI,0,0\nC,0,0\nI,0,0\nC,0,0\n"[..],
        &b"L,0,0,0\n".repeat(9),
    ];
    assert_eq!(counted(&nine.concat()).longer.clauses.count(1, OVER), 0);
}

/// The cases hit all that is needed.
#[test]
fn cases_of_many_clauses() {
    let mut tally = Tally::default();
    let mut random = Random::new(3);
    for case in cases() {
        let (file, _) = file(&mut random, case);
        let given = check(&file).err().map_or(0, |refusal| refusal.number);
        let (Case::Longer(number, _) | Case::Weighed(_, number)) = case else {
            panic!("another case")
        };
        assert_eq!(given, number, "{case:?}");
        count_file(&mut tally, &Known::of(&file));
    }
    count_file(&mut tally, &Known::of(&chain(41, 129)));
    assert_eq!(tally.longer.clauses.missing(), Vec::<String>::new());
    assert_eq!(tally.longer.weights.missing(), Vec::<String>::new());
}

#[test]
fn pairs_are_counted() {
    let rules = check(&chain(33, 33)).expect("accepted");
    let mut tally = Tally::default();
    let list = |count: usize| -> Vec<u8> {
        let lines = (0..count).map(|line| format!("{line},{line}\n"));
        lines.collect::<String>().into_bytes()
    };
    count_list(&mut tally, &rules, [32, 32], &list(33), 0);
    count_list(&mut tally, &rules, [32, 32], &list(127), 20);
    count_list(&mut tally, &rules, [32, 32], &list(129), 7);
    count_list(&mut tally, &rules, [32, 32], &list(5), 20);
    let pairs = &tally.longer.pairs;
    assert_eq!(
        [pairs.count(WRITTEN, 1), pairs.count(WRITTEN, WIDE)],
        [1, 1]
    );
    assert_eq!([pairs.count(BAD, 2), pairs.count(BAD, WIDE)], [1, 1]);
    assert_eq!(pairs.count(MANY_PAIRS, OVER), 1);
}

#[test]
fn idle_lines_are_counted() {
    let unit = "P,0,0,0\nI,0,0\nC,0,0\n";
    for (text, rows) in [
        (format!("T,0,0,0\nT,0,0,0\n{unit}"), vec![idle::TYPE]),
        (
            format!("T,0,0,0\nT,0,0,0\nT,1,1,0\n{unit}"),
            vec![idle::TYPE, idle::NAMED_TYPE, idle::SEVERAL],
        ),
        (
            "T,0,0,0\nP,0,0,0\nP,1,0,0\nI,0,0\nC,0,0\n".to_string(),
            vec![idle::PATTERN],
        ),
        (
            "T,0,0,0\nP,0,0,0\nP,1,0,0\nP,2,1,0\nI,0,0\nC,0,0\n".to_string(),
            vec![idle::PATTERN, idle::NAMED_PATTERN, idle::SEVERAL],
        ),
        ("T,0,0,0\n".to_string(), vec![idle::TYPE, idle::NO_ISO]),
        (String::from_utf8(S.to_vec()).expect("letters"), vec![]),
    ] {
        let mut tally = Tally::default();
        idle::count(&mut tally, &Known::of(text.as_bytes()), LIBRARY);
        for row in idle::TYPE..=idle::SEVERAL {
            let wanted = usize::from(rows.contains(&row));
            assert_eq!(tally.idle.lines.count(row, LIBRARY), wanted, "{row} {text}");
            assert_eq!(tally.idle.lines.count(row, RULES), 0);
        }
    }
}

/// Every fault beside which an idle line can stand is among the pairs.
#[test]
fn pairs_with_idle_lines() {
    let mut tally = Tally::default();
    for pair in pair::all() {
        idle::count_pair(&mut tally, pair);
    }
    assert_eq!(tally.idle.beside.missing(), Vec::<String>::new());
    let pair = |first, second| Pair {
        first,
        second,
        together: false,
    };
    let mut tally = Tally::default();
    for (first, second) in [(3, 21), (21, 14), (21, 21), (3, 14)] {
        idle::count_pair(&mut tally, pair(first, second));
    }
    let beside = &tally.idle.beside;
    let hits = |column| (0..12).map(|row| beside.count(row, column)).sum::<usize>();
    assert_eq!((hits(ABOVE), hits(BELOW)), (1, 1));
    assert_eq!((beside.count(11, ABOVE), beside.count(0, BELOW)), (1, 1));
}

/// What is counted of a table: its length, and what is left in it.
#[test]
fn tables_are_counted() {
    let known = Known::of(S);
    let hit = |length: usize, number: u32, fill: bool| -> Vec<usize> {
        let mut table = vec![0; length];
        if fill {
            known.check(&mut table, &mut vec![0; 65_536]);
        }
        let mut tally = Tally::default();
        sizes::count(&mut tally, sizes::PLAY, &table, number);
        let rows = 0..11;
        rows.filter(|row| tally.sizes.count(*row, sizes::PLAY) > 0)
            .collect()
    };
    assert_eq!(hit(16_384, 1, false), [sizes::FORMER]);
    assert_eq!(hit(20_479, 1, false), [sizes::ONE_SHORT]);
    assert_eq!(hit(20_480, 1, false), [] as [usize; 0]);
    assert_eq!(hit(TABLE, 21, false), [sizes::EXACT, sizes::ZEROS]);
    assert_eq!(hit(TABLE + 1, 3, false), [sizes::MORE, sizes::ZEROS]);
    assert_eq!(hit(TABLE, 0, true)[..1], [sizes::EXACT]);
    assert_eq!(hit(TABLE, 0, true).len(), 4);
}
