//! Files opened on a desk, and settings as letters.

use rulefile::{
    bounds, check, number_of, run, setting_of, Accepted, Converted, Desk, Direction, Letters,
    NoLetters, Query, Refusal, Refused, Tally, Value, Witness, MAX_QUERIES, RESULT_LENGTH,
    TABLE_LENGTH, WORK_LENGTH,
};
use std::collections::HashSet;
use std::error::Error;
use Direction::{Back, Forward};

/// Document 01's file S, its lines parted by blanks.
const S: &str = "T,0,0,0 T,1,0,0 T,2,1,1 P,0,0,0 P,2,0,0 P,3,0,0 P,1,0,0 P,1,1,0 P,4,1,3 P,4,1,4 \
    P,4,2,3 I,1,1 C,1,2 C,2,1 I,2,2 C,5,6 L,4,0,3 C,7,7";

/// A file from its lines.
fn file(lines: &str) -> Vec<u8> {
    lines
        .split_whitespace()
        .flat_map(|line| [line.as_bytes(), b"\n"].concat())
        .collect()
}

fn letters(text: &str) -> Letters {
    text.parse().unwrap()
}

/// A refusal of what is asked, which names no line.
fn refused(refusal: Refusal) -> Refused {
    Refused { refusal, line: 0 }
}

fn converted<E>(count: u32, text: &str) -> Result<Converted, E> {
    let letters = letters(text);
    Ok(Converted { count, letters })
}

#[test]
fn letters_as_text() {
    for text in [
        "U",
        "LU",
        "RU",
        "PUU",
        "PRURRLU",
        "PPRULURU",
        "N",
        "KUN",
        "KRUKLUN",
        "PRUKPLULUN",
    ] {
        let letters = letters(text);
        assert_eq!(letters.to_string(), text);
        assert_eq!(format!("{letters:?}"), format!("\"{text}\""));
        assert_eq!(
            format!("{letters:>9}|{letters:<9}|"),
            format!("{text:>9}|{text:<9}|")
        );
        assert_eq!(
            (letters.as_bytes(), &*letters),
            (text.as_bytes(), text.as_bytes())
        );
        assert_eq!(Letters::try_from(text.as_bytes()), Ok(letters.clone()));
        assert!(letters == text && letters != "P" && letters == *text);
        assert_eq!(Vec::from(letters), text.as_bytes());
    }
    let few: HashSet<Letters> = ["LU", "RU", "LU"].map(letters).into();
    assert_eq!(few.len(), 2);
    // as the numbers of the settings of one type
    assert!(letters("PLURU") < letters("PRULU"));
}

#[test]
fn what_is_no_letters() {
    let longest = "L".repeat(RESULT_LENGTH - 1) + "U";
    assert_eq!(letters(&longest).len(), RESULT_LENGTH);
    for (text, why, words) in [
        (
            "",
            NoLetters::Missing,
            "the setting is not whole: letters are missing at its end",
        ),
        (
            "L",
            NoLetters::Missing,
            "the setting is not whole: letters are missing at its end",
        ),
        (
            "PRU",
            NoLetters::Missing,
            "the setting is not whole: letters are missing at its end",
        ),
        (
            "UU",
            NoLetters::Behind(2),
            "the setting ends before letter 2",
        ),
        (
            "PLURUU",
            NoLetters::Behind(6),
            "the setting ends before letter 6",
        ),
        (
            "pluru",
            NoLetters::Other(1),
            "letter 1 is none of U, L, R, P, N and K",
        ),
        (
            "PLURU\n",
            NoLetters::Other(6),
            "letter 6 is none of U, L, R, P, N and K",
        ),
        (
            " U",
            NoLetters::Other(1),
            "letter 1 is none of U, L, R, P, N and K",
        ),
        (
            "LÜ",
            NoLetters::Other(2),
            "letter 2 is none of U, L, R, P, N and K",
        ),
        (
            &format!("L{longest}"),
            NoLetters::TooMany,
            "no setting has more than 127 letters",
        ),
        (
            &"P".repeat(1_000_000),
            NoLetters::TooMany,
            "no setting has more than 127 letters",
        ),
    ] {
        assert_eq!(text.parse::<Letters>(), Err(why), "{text:.20}");
        assert_eq!(why.to_string(), words);
    }
    assert_eq!(Letters::try_from(&b"L\xff"[..]), Err(NoLetters::Other(2)));
    let error: Box<dyn Error> = Box::new(NoLetters::Missing);
    assert!(error.to_string().contains("not whole"));
}

/// Letters are no value of a type by themselves: the library says so.
#[test]
fn letters_of_another_type() {
    let s = file(S);
    let mut desk = Desk::new();
    let mut accepted = desk.open(&s).unwrap();
    let query = Query::new(1, Forward, 9, b"LU");
    assert_eq!(accepted.run(query), Err(refused(Refusal::NoValue)));
    let given = accepted.number_of(2, &letters("LU"));
    assert_eq!(given, Err(refused(Refusal::NoValue)));
}

#[test]
fn values_as_text() {
    let (count, refusal) = (2, Refusal::GapLeft);
    let value = Value {
        count,
        letters: b"LU".to_vec(),
    };
    assert_eq!(format!("{value:?}"), "Value { count: 2, letters: \"LU\" }");
    let refused = Refused { refusal, line: 6 };
    let shown = Witness {
        refused,
        letters: b"RU".to_vec(),
    };
    let text = "Witness { refused: Refused { refusal: GapLeft, line: 6 }, letters: \"RU\" }";
    assert_eq!(format!("{shown:?}"), text);
    let query = Query::new(0, Forward, 9, b"LU");
    let text = "Query { iso: 0, direction: Forward, budget: 9, letters: \"LU\" }";
    assert_eq!(format!("{query:?}"), text);
    let text = "Converted { count: 2, letters: \"LU\" }";
    assert_eq!(format!("{:?}", Converted::from(value)), text);
    assert_eq!(
        format!("{:?}", Desk::new().open(b"").unwrap()),
        "Accepted(\"\")"
    );
}

/// Everything that an accepted file can be asked, as the desk answers it with the file.
#[test]
fn an_opened_file() {
    let s = file(S);
    let mut other = Desk::new();
    let mut desk = Desk::new();
    let mut accepted = desk.open(&s).unwrap();
    assert_eq!(accepted.file(), s);
    assert_eq!(accepted.table()[..10], [84, 0, 0, 0, 1, 84, 1, 0, 0, 3]);
    assert_eq!(accepted.turn(), Ok(other.turn(&s).unwrap()));
    let there = accepted.run(Query::new(1, Forward, 9, &letters("PLURU")));
    assert_eq!(there, converted(2, "PLULU"));
    let back = accepted.run(Query::new(1, Back, 9, &there.unwrap().letters));
    assert_eq!(back, converted(2, "PLURU"));
    for (setting, text) in (0..).zip(["PLULU", "PLURU", "PRULU", "PRURU"]) {
        assert_eq!(accepted.number_of(2, &letters(text)), Ok(setting));
        assert_eq!(accepted.setting_of(2, setting), Ok(letters(text)));
    }
    assert_eq!(accepted.overlap(1, 2), Ok(other.overlap(&s, 1, 2).unwrap()));
    assert_eq!(accepted.bounds(1), Ok(other.bounds(&s, 1).unwrap()));
    let list = accepted.export(1, 9).unwrap();
    assert_eq!(list, b"0,1\n1,0\n2,2\n3,3\n");
    let imported = other.import(&s, 2, 2, &list).unwrap();
    assert_eq!(accepted.import(2, 2, &list), Ok(imported));
    let (mut types, mut settings) = ([2, 1], [0, 0]);
    let tally = accepted.play(&mut types, &mut settings, b"S,0,1,0\nS,1,1,0\n", 9);
    let played = Tally {
        done: 1,
        skipped: 1,
        spent: 0,
    };
    assert_eq!((tally, types, settings), (Ok(played), [2, 1], [1, 0]));
    assert_eq!(accepted.table(), {
        other.check(&s).unwrap();
        other.table()
    });
    // the desk is free again
    assert_eq!(
        desk.check(b"T"),
        Err(Refused {
            refusal: Refusal::BadLine,
            line: 1
        })
    );
}

#[test]
fn a_sheet_of_an_opened_file() {
    let s = file(S);
    let mut desk = Desk::new();
    let mut accepted = desk.open(&s).unwrap();
    let queries = [
        Query::new(1, Forward, 9, b"PLURU"),
        Query::new(1, Forward, 1, b"PLURU"),
        Query::new(2, Back, 1, b"U"),
    ];
    let answers = vec![
        converted(2, "PLULU"),
        Err(Refusal::Spent),
        Err(Refusal::NoIso),
    ];
    assert_eq!(accepted.sheet(&queries), Ok(answers));
    let many = vec![queries[0]; MAX_QUERIES + 1];
    assert_eq!(accepted.sheet(&many), Err(refused(Refusal::TooLong)));
}

/// What is asked of an accepted file is refused without a line.
#[test]
fn refusals_of_an_opened_file() {
    let s = file(S);
    let mut desk = Desk::new();
    let mut accepted = desk.open(&s).unwrap();
    let absent = refused(Refusal::NoIso);
    assert_eq!(accepted.run(Query::new(2, Forward, 9, b"U")), Err(absent));
    assert_eq!(accepted.number_of(3, &letters("U")), Err(absent));
    assert_eq!(accepted.setting_of(3, 0), Err(absent));
    let given = accepted.setting_of(1, 2);
    assert_eq!(given, Err(refused(Refusal::TooHigh)));
    assert_eq!(accepted.overlap(0, 8), Err(absent));
    assert_eq!(accepted.bounds(2), Err(absent));
    assert_eq!(accepted.export(1, 1), Err(refused(Refusal::Spent)));
    let imported = accepted.import(1, 1, b"0,0\n");
    assert_eq!(imported, Err(refused(Refusal::BadList)));
    let played = accepted.play(&mut [1], &mut [0], b"S,1,0,0\n", 9);
    assert_eq!(played, Err(refused(Refusal::BadScript)));
}

/// Both errors go the same way out of a function.
#[test]
fn verdict_and_answer_with_one_question_mark_each() {
    fn number(file: &[u8], ty: u32) -> Result<u32, Refused> {
        let mut desk = Desk::new();
        let mut accepted: Accepted = desk.open(file)?;
        let last = accepted.setting_of(ty, 3)?;
        accepted.number_of(ty, &last)
    }
    assert_eq!(number(&file(S), 2), Ok(3));
    assert_eq!(
        number(&file(S), 1),
        Err(Refused {
            refusal: Refusal::TooHigh,
            line: 0
        })
    );
    let refused = Refused {
        refusal: Refusal::OverlapLeft,
        line: 15,
    };
    assert_eq!(number(&file(&format!("{S} C,7,7")), 2), Err(refused));
}

/// The line of a refused file in the answers that have none of their own, and the lent areas as Check leaves them.
#[test]
fn the_line_of_a_refused_file_over_lent_areas() {
    let overlap = file(&format!("{S} C,7,7"));
    let mut expected = (vec![7; TABLE_LENGTH + 2], vec![7; WORK_LENGTH + 2]);
    let verdict = check(&overlap, &mut expected.0, &mut expected.1);
    assert_eq!(
        verdict,
        Err(Refused {
            refusal: Refusal::OverlapLeft,
            line: 15
        })
    );
    for call in 0..4 {
        let (mut table, mut work) = (vec![7; TABLE_LENGTH + 2], vec![7; WORK_LENGTH + 2]);
        let mut result = vec![7; RESULT_LENGTH];
        let query = Query::new(1, Forward, 9, b"PLURU");
        let given = match call {
            0 => run(&overlap, &mut table, &mut work, query, &mut result).map(|_| ()),
            1 => number_of(&overlap, &mut table, &mut work, 0, b"U").map(|_| ()),
            2 => setting_of(&overlap, &mut table, &mut work, 0, 0, &mut result).map(|_| ()),
            _ => bounds(&overlap, &mut table, &mut work, 0).map(|_| ()),
        };
        assert_eq!(given, verdict);
        assert!((table, work) == expected && result == [7; RESULT_LENGTH]);
    }
}

/// With an area too short nothing is looked at, also where the file is refused and only the result is short.
#[test]
fn short_areas_name_no_line() {
    let overlap = file(&format!("{S} C,7,7"));
    let short = Refused {
        refusal: Refusal::ShortArea,
        line: 0,
    };
    let (mut table, mut work) = (vec![7; TABLE_LENGTH], vec![7; WORK_LENGTH]);
    let mut result = vec![7; RESULT_LENGTH - 1];
    let query = Query::new(1, Forward, 9, b"PLURU");
    let ran = run(&overlap, &mut table, &mut work, query, &mut result);
    assert_eq!(ran, Err(short));
    let given = setting_of(&overlap, &mut table, &mut work, 0, 0, &mut result);
    assert_eq!(given, Err(short));
    assert!(table.iter().all(|number| *number == 7) && work.iter().all(|byte| *byte == 7));
}
