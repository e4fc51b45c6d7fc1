//! The wrapper over the library: document 01's examples, every refusal by name, lent areas of every
//! length, the stored examples, and the header.

use rulefile::{
    check, number_of, overlap, run, setting_of, sheet, turn, Desk, Direction, Overlap, Query, Ran,
    Refusal, Refused, Value, LIST_LENGTH, MAX_FILE_LENGTH, MAX_QUERIES, MAX_UNITS, NUMBERS_A_QUERY,
    RESULT_LENGTH, TABLE_LENGTH, WORK_LENGTH,
};
use std::error::Error;
use std::fs;
use std::path::{Path, PathBuf};
use Direction::{Back, Forward};

/// Document 01's file S, its lines parted by blanks.
const S: &str = "T,0,0,0 T,1,0,0 T,2,1,1 P,0,0,0 P,2,0,0 P,3,0,0 P,1,0,0 P,1,1,0 P,4,1,3 P,4,1,4 \
    P,4,2,3 I,1,1 C,1,2 C,2,1 I,2,2 C,5,6 L,4,0,3 C,7,7";
const S_TURNED: &str = "T,0,0,0 T,1,0,0 T,2,1,1 P,0,0,0 P,2,0,0 P,3,0,0 P,1,0,0 P,1,1,0 P,4,1,3 \
    P,4,1,4 P,4,2,3 I,1,1 C,2,1 C,1,2 I,2,2 C,6,5 L,3,0,4 C,7,7";

/// Document 01's queries after S.
const QUERIES: &str = "Q,1,0,9,PLURU\nQ,1,1,9,PLULU\nQ,1,0,2,PRULU\nQ,1,0,2,PLURU\nQ,1,0,1,PLURU\n\
    Q,2,0,9,U\nQ,1,0,9,PLU\n";

/// The words of documents 01 and 02, the first one for number 1.
const WORDS: [&str; 24] = [
    "short area",
    "too long",
    "bad line",
    "misplaced",
    "bad field",
    "bad name",
    "ceiling",
    "variable",
    "let shape",
    "type",
    "overlap left",
    "overlap right",
    "gap left",
    "gap right",
    "no iso",
    "no value",
    "spent",
    "too many values",
    "number too high",
    "bad list",
    "idle line",
    "bad script",
    "recursion",
    "too large",
];

/// The words of which a refusal's name is made; those of two are cut.
fn name_words(word: &str) -> &str {
    match word {
        "too many values" => "too many",
        "number too high" => "too high",
        word => word,
    }
}

/// A file from its lines.
fn file(lines: &str) -> Vec<u8> {
    lines
        .split_whitespace()
        .flat_map(|line| [line.as_bytes(), b"\n"].concat())
        .collect()
}

/// The lines of S without number `line`.
fn s_without(line: usize) -> String {
    let lines: Vec<&str> = S.split_whitespace().collect();
    [&lines[..line - 1], &lines[line..]].concat().join(" ")
}

/// S with line 17 as stated.
fn s_with_17(line: &str) -> String {
    S.replace("L,4,0,3", line)
}

fn refused(refusal: Refusal, line: usize) -> Refused {
    Refused { refusal, line }
}

fn value(count: u32, letters: &str) -> Result<Value, Refused> {
    Ok(Value {
        count,
        letters: letters.as_bytes().to_vec(),
    })
}

/// A file that is refused, by all services.
fn expect_refused(file: &[u8], refusal: Refusal, line: usize) {
    let mut desk = Desk::new();
    assert_eq!(desk.check(file), Err(refused(refusal, line)));
    assert_eq!(desk.turn(file), Err(refused(refusal, line)));
    for queries in ["", "Q,0,0,9,U\n", "Q"] {
        let answer = desk.sheet(file, queries.as_bytes());
        assert_eq!(answer, Err(refused(refusal, line)));
    }
    assert_eq!(
        desk.run(file, Query::new(0, Forward, 9, b"U")),
        Err(refused(refusal, line))
    );
    assert_eq!(desk.bounds(file, 0), Err(refused(refusal, line)));
    assert_eq!(desk.export(file, 0, 9), Err(refused(refusal, line)));
    let imported = desk.import(file, 0, 0, b"0,0\n");
    assert_eq!(imported, Err(refused(refusal, line)));
    let shown = desk.witness(file).map_err(|shown| shown.refused);
    assert_eq!(shown, Err(refused(refusal, line)));
    let opened = desk.open(file).map(|_| ());
    assert_eq!(opened, Err(refused(refusal, line)));
    for (left, right) in [(0, 0), (0, u32::MAX), (65_536, 1)] {
        let answer = desk.overlap(file, left, right);
        assert_eq!(answer, Err(refused(refusal, line)));
    }
    for script in [&b""[..], b"S,0,0,0\n", b"x"] {
        let answer = desk.play(file, &mut [0], &mut [u32::MAX], script, 9);
        assert_eq!(answer, Err(refused(refusal, line)));
    }
    for ty in [0, 256, u32::MAX] {
        let answer = desk.number_of(file, ty, b"");
        assert_eq!(answer, Err(refused(refusal, line)));
        let answer = desk.setting_of(file, ty, u32::MAX);
        assert_eq!(answer, Err(refused(refusal, line)));
    }
}

#[test]
fn files_of_document_01() {
    let mut desk = Desk::new();
    assert_eq!(desk.check(b""), Ok(()));
    assert_eq!(desk.check(&file(S)), Ok(()));
    expect_refused(&file(&s_without(18)), Refusal::IdleLine, 11);
    let gap = s_without(18).replacen(" P,4,2,3", "", 1);
    expect_refused(&file(&gap), Refusal::GapLeft, 14);
    expect_refused(&file(&format!("{S} C,7,7")), Refusal::OverlapLeft, 15);
    // request 14: an L line may name its own iso
    expect_refused(&file(&s_with_17("L,4,1,3")), Refusal::Type, 16);
    expect_refused(&file(&s_without(17)), Refusal::Variable, 16);
    expect_refused(&file(&s_with_17("L,4,0,1")), Refusal::Variable, 16);
    let gap = "T,0,0,0 T,1,0,0 P,0,0,0 P,2,0,0 I,0,1 C,0,1";
    expect_refused(&file(gap), Refusal::GapRight, 5);
}

#[test]
fn types_of_127_and_255_nodes() {
    let seven = "T,0,0,0 T,2,0,0 T,2,1,1 T,2,2,2 T,2,3,3 T,2,4,4 T,2,5,5";
    let used = format!("{seven} P,1,0,0 I,6,6 C,0,0");
    assert_eq!(Desk::new().check(&file(&used)), Ok(()));
    expect_refused(&file(seven), Refusal::IdleLine, 1);
    expect_refused(&file(&format!("{seven} T,2,6,6")), Refusal::Ceiling, 8);
}

#[test]
fn queries_of_document_01() {
    let mut desk = Desk::new();
    let s = file(S);
    assert_eq!(
        desk.run(&s, Query::new(1, Forward, 9, b"PLURU")),
        value(2, "PLULU")
    );
    assert_eq!(
        desk.run(&s, Query::new(1, Back, 9, b"PLULU")),
        value(2, "PLURU")
    );
    assert_eq!(
        desk.run(&s, Query::new(1, Forward, 2, b"PRULU")),
        value(1, "PRULU")
    );
    assert_eq!(
        desk.run(&s, Query::new(1, Forward, 2, b"PLURU")),
        value(2, "PLULU")
    );
    assert_eq!(
        desk.run(&s, Query::new(1, Forward, 1, b"PLURU")),
        Err(refused(Refusal::Spent, 0))
    );
    assert_eq!(
        desk.run(&s, Query::new(2, Forward, 9, b"U")),
        Err(refused(Refusal::NoIso, 0))
    );
    assert_eq!(
        desk.run(&s, Query::new(1, Forward, 9, b"PLU")),
        Err(refused(Refusal::NoValue, 0))
    );
}

/// What a query of a sheet is answered: a count and letters, or a refusal.
fn reply(count: u32, letters: &str) -> Result<Value, Refusal> {
    value(count, letters).map_err(|refused| refused.refusal)
}

#[test]
fn queries_of_document_01_in_one_sheet() {
    let replies = vec![
        reply(2, "PLULU"),
        reply(2, "PLURU"),
        reply(1, "PRULU"),
        reply(2, "PLULU"),
        Err(Refusal::Spent),
        Err(Refusal::NoIso),
        Err(Refusal::NoValue),
    ];
    let mut desk = Desk::new();
    assert_eq!(desk.sheet(&file(S), QUERIES.as_bytes()), Ok(replies));
    assert_eq!(desk.table(), rows(S));
}

/// Queries in one sheet are answered as each on its own, also those that no line of a sheet can say.
#[test]
fn queries_as_values_in_one_sheet() {
    let values: [&'static [u8]; 11] = [
        b"PLURU",
        b"LU",
        b"",
        b"PLURU\n",
        b"PLURU\r",
        b"plURU",
        b"PLURU,",
        b"\xff",
        b"\0",
        b"\r\nQ,1,0,9,PLURU",
        &[b'U'; 128],
    ];
    let mut desk = Desk::new();
    let s = file(S);
    for iso in [0, 1, 2, 65_535, 65_536, u32::MAX] {
        for (direction, budget) in [(Forward, 9), (Back, 2), (Back, 1), (Forward, u32::MAX)] {
            let ask = |letters: &&'static [u8]| Query::new(iso, direction, budget, letters);
            let asked: Vec<Query> = values.iter().map(ask).collect();
            let mut run = |query: &Query| desk.run(&s, *query).map_err(|refused| refused.refusal);
            let alone: Vec<_> = asked.iter().map(&mut run).collect();
            assert_eq!(desk.sheet_of(&s, &asked), Ok(alone));
        }
    }
    assert_eq!(desk.sheet_of(&s, &[]), Ok(vec![]));
    let many = vec![Query::new(0, Forward, 1, b"LU"); MAX_QUERIES + 1];
    assert_eq!(desk.sheet_of(&s, &many), Err(refused(Refusal::TooLong, 0)));
    assert_eq!(many[0].to_string(), "Q,0,0,1,LU");
}

#[test]
fn the_limits_of_a_sheet() {
    let mut desk = Desk::new();
    let s = file(S);
    let line = b"Q,0,0,1,LU\n";
    assert_eq!(desk.sheet(&s, b""), Ok(vec![]));
    assert_eq!(desk.sheet(b"", b""), Ok(vec![]));
    for queries in [1, 599, MAX_QUERIES] {
        let replies = vec![reply(1, "RU"); queries];
        assert_eq!(desk.sheet(&s, &line.repeat(queries)), Ok(replies));
    }
    let too_long = Err(refused(Refusal::TooLong, 0));
    let mut list = line.repeat(MAX_QUERIES);
    list.push(b'Q');
    assert_eq!(desk.sheet(&s, &list), too_long);
    assert_eq!(desk.sheet(b"T", &list), too_long);
    assert_eq!(desk.sheet(&s, &line.repeat(MAX_QUERIES + 1)), too_long);
    assert_eq!(desk.sheet(&s, &[b'\n'; MAX_QUERIES + 1]), too_long);
    let empty = vec![Err(Refusal::BadLine); MAX_QUERIES];
    assert_eq!(desk.sheet(&s, &[b'\n'; MAX_QUERIES]), Ok(empty));
}

#[test]
fn the_lines_of_a_sheet() {
    let line = |bytes: usize| format!("{:U<1$}\n", "Q,0,0,1,LU", bytes - 1);
    let cases = [
        ("Q,0,0,1,LU\n".to_string(), reply(1, "RU")),
        ("Q,0,1,4294967295,LU\n".to_string(), reply(1, "RU")),
        ("Q,0,0,4294967296,LU\n".to_string(), Err(Refusal::BadLine)),
        ("Q,65535,0,1,LU\n".to_string(), Err(Refusal::NoIso)),
        ("Q,65536,0,1,LU\n".to_string(), Err(Refusal::BadLine)),
        ("Q,0,2,1,LU\n".to_string(), Err(Refusal::BadLine)),
        ("Q,0,0,01,LU\n".to_string(), Err(Refusal::BadLine)),
        ("Q,0,0,0,LU\n".to_string(), Err(Refusal::Spent)),
        ("Q,0,0,0,\n".to_string(), Err(Refusal::NoValue)),
        ("Q,0,0,1\n".to_string(), Err(Refusal::BadLine)),
        ("Q,0,0,1,LU\r\n".to_string(), reply(1, "RU")),
        ("Q,0,0,1,LU\r\r\n".to_string(), Err(Refusal::NoValue)),
        ("T,0,0,0\n".to_string(), Err(Refusal::BadLine)),
        ("\n".to_string(), Err(Refusal::BadLine)),
        (line(200), Err(Refusal::NoValue)),
        (line(201), Err(Refusal::BadLine)),
        ("Q,0,0,1,LU".to_string(), Err(Refusal::BadLine)),
    ];
    let (lines, replies): (Vec<String>, Vec<_>) = cases.into_iter().unzip();
    let answers = Desk::new().sheet(&file(S), lines.concat().as_bytes());
    assert_eq!(answers, Ok(replies));
}

#[test]
fn turned_and_there_and_back() {
    let mut desk = Desk::new();
    let s = file(S);
    let turned = desk.turn(&s).unwrap();
    assert_eq!(turned, file(S_TURNED));
    assert_eq!(desk.check(&turned), Ok(()));
    assert_eq!(desk.turn(&turned), Ok(s.clone()));
    assert_eq!(desk.turn(b""), Ok(vec![]));
    for letters in [b"PLULU", b"PLURU", b"PRULU", b"PRURU"] {
        let there = desk.run(&s, Query::new(1, Forward, 9, letters)).unwrap();
        let back = desk
            .run(&turned, Query::new(1, Forward, 9, &there.letters))
            .unwrap();
        assert_eq!(back.letters, letters);
        assert_eq!(back.count, there.count);
        assert_eq!(
            desk.run(&s, Query::new(1, Back, 9, &there.letters)),
            Ok(back)
        );
    }
}

#[test]
fn a_file_for_each_refusal() {
    let bit = "T,0,0,0 T,1,0,0 P,0,0,0 P,2,0,0 P,3,0,0";
    let cases = [
        (Refusal::BadLine, "T,0,0,0 T,01,0,0".to_string(), 2),
        (Refusal::Misplaced, "T,0,0,0 P,0,0,0 T,0,0,0".to_string(), 3),
        (Refusal::BadField, "T,0,0,0 P,0,0,0 P,1,32,0".to_string(), 3),
        (Refusal::BadName, "T,0,0,0 T,1,0,1".to_string(), 2),
        (Refusal::Ceiling, "T,0,0,0 ".repeat(257), 257),
        (
            Refusal::Variable,
            format!("{bit} P,1,0,0 I,1,1 C,3,1 C,2,2"),
            8,
        ),
        (
            Refusal::LetShape,
            format!("{bit} P,1,0,0 P,1,1,0 P,2,4,0 I,1,1 C,1,2 C,2,1 I,1,1 C,3,4 L,5,0,3"),
            13,
        ),
        (
            Refusal::Type,
            "T,0,0,0 T,1,0,0 P,0,0,0 I,0,1 C,0,0".to_string(),
            5,
        ),
        (Refusal::OverlapLeft, format!("{bit} I,1,1 C,1,1 C,1,2"), 6),
        (Refusal::OverlapRight, format!("{bit} I,1,1 C,1,1 C,2,1"), 6),
        (
            Refusal::GapLeft,
            format!("{bit} I,1,0 C,1,0 I,1,1 C,2,2"),
            6,
        ),
        (
            Refusal::GapRight,
            format!("{bit} I,0,1 C,0,1 I,1,1 C,2,2"),
            6,
        ),
    ];
    for (place, (refusal, lines, line)) in cases.iter().enumerate() {
        assert_eq!(refusal.number() as usize, place + 3);
        expect_refused(&file(lines), *refusal, *line);
    }
}

#[test]
fn the_limits_of_a_file() {
    expect_refused(&[b'T'; 65_537], Refusal::TooLong, 0);
    expect_refused(&[b'T'; 65_536], Refusal::BadLine, 1);
    expect_refused(&[b'\n'; 4_097], Refusal::TooLong, 0);
    expect_refused(&[b'\n'; 4_096], Refusal::BadLine, 1);
    expect_refused(&[0], Refusal::BadLine, 1);
    expect_refused(&[255, 10], Refusal::BadLine, 1);
}

#[test]
fn the_limits_of_a_query() {
    let mut desk = Desk::new();
    let s = file(S);
    for iso in [2, 256, 65_535, 65_536, 65_537, u32::MAX] {
        assert_eq!(
            desk.run(&s, Query::new(iso, Forward, 9, b"LU")),
            Err(refused(Refusal::NoIso, 0))
        );
    }
    for budget in [1, 65_536, u32::MAX] {
        assert_eq!(
            desk.run(&s, Query::new(0, Forward, budget, b"LU")),
            value(1, "RU")
        );
    }
    assert_eq!(desk.run(&s, Query::new(0, Back, 1, b"LU")), value(1, "RU"));
    assert_eq!(
        desk.run(&s, Query::new(0, Forward, 0, b"LU")),
        Err(refused(Refusal::Spent, 0))
    );
    for letters in [
        b"".as_slice(),
        b"U",
        b"LU\0",
        b"L\xff",
        &[b'L'; 128],
        &vec![b'U'; 1_000_000],
    ] {
        assert_eq!(
            desk.run(&s, Query::new(0, Forward, 9, letters)),
            Err(refused(Refusal::NoValue, 0))
        );
    }
}

#[test]
fn a_value_of_127_letters() {
    let lines = "T,0,0,0 T,2,0,0 T,2,1,1 T,2,2,2 T,2,3,3 T,2,4,4 T,2,5,5 P,1,0,0 I,6,6 C,0,0";
    let mut letters = "U".to_string();
    for _ in 0..6 {
        letters = format!("P{letters}{letters}");
    }
    assert_eq!(letters.len(), RESULT_LENGTH);
    let mut desk = Desk::new();
    let lines = file(lines);
    assert_eq!(
        desk.run(&lines, Query::new(0, Forward, 1, letters.as_bytes())),
        value(1, &letters)
    );
    for wrong in [&letters[..126], &format!("{letters}U")] {
        let answer = desk.run(&lines, Query::new(0, Forward, 1, wrong.as_bytes()));
        assert_eq!(answer, Err(refused(Refusal::NoValue, 0)));
    }
}

/// A number and its letters, both ways.
fn expect_number(desk: &mut Desk, file: &[u8], ty: u32, setting: u32, letters: &str) {
    let bytes = letters.as_bytes();
    assert_eq!(desk.number_of(file, ty, bytes), Ok(setting), "{letters}");
    assert_eq!(desk.setting_of(file, ty, setting), Ok(bytes.to_vec()));
}

#[test]
fn settings_of_document_01_as_numbers() {
    let mut desk = Desk::new();
    let s = file(S);
    expect_number(&mut desk, &s, 0, 0, "U");
    for (setting, letters) in ["LU", "RU"].into_iter().enumerate() {
        expect_number(&mut desk, &s, 1, setting as u32, letters);
    }
    for (setting, letters) in ["PLULU", "PLURU", "PRULU", "PRURU"].into_iter().enumerate() {
        expect_number(&mut desk, &s, 2, setting as u32, letters);
    }
    assert_eq!(desk.table(), rows(S));
    // Three times two settings, the left ones of a sum before the right ones.
    let six = file("T,0,0,0 T,1,0,0 T,1,0,1 T,2,2,1 P,1,0,0 I,3,3 C,0,0");
    expect_number(&mut desk, &six, 3, 1, "PLURU");
    expect_number(&mut desk, &six, 3, 2, "PRLULU");
    expect_number(&mut desk, &six, 3, 5, "PRRURU");
}

/// Two P lines, in both orders.
fn expect_overlap(desk: &mut Desk, file: &[u8], lines: [u32; 2], clash: bool, pairs: u32) {
    let [one, two] = lines;
    let given = Ok(Overlap { clash, pairs });
    assert_eq!(desk.overlap(file, one, two), given, "{one} {two}");
    assert_eq!(desk.overlap(file, two, one), given, "{two} {one}");
}

#[test]
fn patterns_of_document_01_compared() {
    let mut desk = Desk::new();
    let s = file(S);
    expect_overlap(&mut desk, &s, [0, 0], false, 1);
    expect_overlap(&mut desk, &s, [1, 1], false, 2);
    expect_overlap(&mut desk, &s, [1, 2], true, 1);
    expect_overlap(&mut desk, &s, [1, 3], false, 1);
    expect_overlap(&mut desk, &s, [3, 5], false, 1);
    expect_overlap(&mut desk, &s, [1, 5], false, 1);
    expect_overlap(&mut desk, &s, [5, 6], false, 4);
    expect_overlap(&mut desk, &s, [5, 7], true, 2);
    assert_eq!(desk.table(), rows(S));
}

#[test]
fn the_first_clash_ends_a_comparison() {
    let mut desk = Desk::new();
    // 3: left, right; 4: right, left; 5: left, left; 6: a variable, right; 8 to 13: pairs up to 127 nodes.
    // Each stands in an iso whose clauses leave nothing out.
    let lines =
        "T,0,0,0 T,1,0,0 T,2,1,1 T,2,0,0 T,2,3,3 T,2,4,4 T,2,5,5 T,2,6,6 T,2,7,7 T,2,0,1 T,2,3,1 \
        P,0,0,0 P,2,0,0 P,3,0,0 P,4,1,2 P,4,2,1 P,4,1,1 P,1,0,0 P,4,6,2 \
        P,4,0,0 P,4,8,8 P,4,9,9 P,4,10,10 P,4,11,11 P,4,12,12 P,4,0,1 P,4,8,2 \
        P,4,2,2 P,4,6,1 P,4,0,2 P,4,8,1 I,2,2 C,3,3 C,4,4 C,5,5 C,16,16 I,2,2 C,7,7 C,17,17 \
        I,8,8 C,13,13 I,9,9 C,14,14 C,18,18 I,10,10 C,15,15 C,19,19";
    let lines = file(lines);
    expect_overlap(&mut desk, &lines, [3, 4], true, 2);
    expect_overlap(&mut desk, &lines, [3, 5], true, 4);
    expect_overlap(&mut desk, &lines, [5, 7], true, 3);
    expect_overlap(&mut desk, &lines, [3, 7], false, 4);
    expect_overlap(&mut desk, &lines, [13, 13], false, 127);
    expect_overlap(&mut desk, &lines, [13, 12], false, 63);
    // A unit against a pair, and what follows.
    expect_overlap(&mut desk, &lines, [14, 15], true, 3);
}

#[test]
fn refusals_of_overlaps() {
    let mut desk = Desk::new();
    let s = file(S);
    let absent = Err(refused(Refusal::NoIso, 0));
    for line in [8, 17, 256, 65_536, 65_541, 1 << 31, u32::MAX] {
        for (left, right) in [(line, 5), (5, line), (line, line)] {
            assert_eq!(desk.overlap(&s, left, right), absent);
            assert_eq!(desk.table(), rows(S));
        }
    }
    assert_eq!(desk.overlap(b"", 0, 0), absent);
}

/// So many two-valued types as one chain of products; T line `count` is the last.
fn bits(count: u32) -> String {
    let chain = (1..count).map(|above| format!(" T,2,1,{above}"));
    let chain = chain.collect::<String>();
    format!("T,0,0,0 T,1,0,0{chain} P,1,0,0 I,{count},{count} C,0,0")
}

#[test]
fn the_limit_of_numbers() {
    let mut desk = Desk::new();
    let highest = "PRU".repeat(30) + "RU";
    let bits_31 = file(&bits(31));
    expect_number(&mut desk, &bits_31, 31, 0, &highest.replace('R', "L"));
    expect_number(&mut desk, &bits_31, 31, (1 << 31) - 1, &highest);
    for above in [1 << 31, u32::MAX] {
        let answer = desk.setting_of(&bits_31, 31, above);
        assert_eq!(answer, Err(refused(Refusal::TooHigh, 0)));
    }
    // "a product of 32 two-valued types passes it by one"
    let bits_32 = file(&bits(32));
    expect_number(&mut desk, &bits_32, 31, (1 << 31) - 1, &highest);
    let letters = format!("PRU{highest}");
    let too_many = refused(Refusal::TooMany, 0);
    for letters in [&letters[..], &highest, "", "U"] {
        let answer = desk.number_of(&bits_32, 32, letters.as_bytes());
        assert_eq!(answer, Err(too_many));
    }
    for setting in [0, 1, u32::MAX] {
        assert_eq!(desk.setting_of(&bits_32, 32, setting), Err(too_many));
    }
}

#[test]
fn refusals_of_settings() {
    let mut desk = Desk::new();
    let s = file(S);
    for ty in [3, 17, 256, 65_536, 65_538, 1 << 31, u32::MAX] {
        let no_type = refused(Refusal::NoIso, 0);
        for letters in [&b"PLURU"[..], b"LU", b"U", b""] {
            assert_eq!(desk.number_of(&s, ty, letters), Err(no_type));
        }
        for setting in [0, 4, u32::MAX] {
            assert_eq!(desk.setting_of(&s, ty, setting), Err(no_type));
        }
    }
    let long = vec![b'P'; 1_000_000];
    for letters in [
        &b""[..],
        b"U",
        b"PLU",
        b"PLURUU",
        b"pluru",
        b"PLUR\0",
        b"PLUR\xff",
        &long,
    ] {
        let answer = desk.number_of(&s, 2, letters);
        assert_eq!(answer, Err(refused(Refusal::NoValue, 0)));
    }
    for (ty, count) in [(0, 1), (1, 2), (2, 4)] {
        for setting in [count, count + 1, 65_536, 1 << 31, u32::MAX] {
            let answer = desk.setting_of(&s, ty, setting);
            assert_eq!(answer, Err(refused(Refusal::TooHigh, 0)));
        }
    }
    assert_eq!(
        desk.number_of(b"", 0, b"U"),
        Err(refused(Refusal::NoIso, 0))
    );
    assert_eq!(desk.setting_of(b"", 0, 0), Err(refused(Refusal::NoIso, 0)));
}

#[test]
fn refusals_by_number_and_word() {
    for (place, word) in WORDS.iter().enumerate() {
        let number = place as u32 + 1;
        let refusal = Refusal::of(number).unwrap();
        assert_eq!((refusal.number(), refusal.word()), (number, *word));
        let name = format!("{refusal:?}").to_lowercase();
        assert_eq!(name, name_words(word).replace(' ', ""));
    }
    for number in [0, 25, 26, 256, 257, 65_537, u32::MAX] {
        assert_eq!(Refusal::of(number), None);
    }
}

#[test]
fn refusals_as_text() {
    let text = |refusal, line| refused(refusal, line).to_string();
    assert_eq!(text(Refusal::ShortArea, 0), "refused with 1, short area");
    assert_eq!(text(Refusal::TooLong, 0), "refused with 2, too long");
    assert_eq!(
        text(Refusal::BadLine, 1),
        "refused with 3, bad line, at line 1"
    );
    assert_eq!(
        text(Refusal::Type, 4096),
        "refused with 10, type, at line 4096"
    );
    assert_eq!(text(Refusal::Spent, 0), "refused with 17, spent");
    for (place, word) in WORDS.iter().enumerate() {
        let refusal = Refusal::of(place as u32 + 1).unwrap();
        assert_eq!(
            text(refusal, 7),
            format!("refused with {}, {word}, at line 7", place + 1)
        );
    }
    let error: Box<dyn Error> = Box::new(refused(Refusal::GapLeft, 15));
    assert_eq!(error.to_string(), "refused with 13, gap left, at line 15");
}

/// A pattern without a zero.
fn pattern(length: usize) -> Vec<u8> {
    (0..length).map(|place| (place % 251 + 1) as u8).collect()
}

fn wide_pattern(length: usize) -> Vec<u16> {
    (0..length)
        .map(|place| (place % 65_521 + 1) as u16)
        .collect()
}

fn number_pattern(length: usize) -> Vec<u32> {
    let wide = |place: usize| 0xA5A5_0001 + place as u32;
    (0..length).map(wide).collect()
}

/// What an accepted file leaves in the table.
fn rows(lines: &str) -> Vec<u16> {
    let mut table = vec![0; TABLE_LENGTH];
    let (mut types, mut patterns) = (Vec::new(), Vec::new());
    for (line, row) in lines.split_whitespace().zip(table.chunks_mut(5)) {
        row[0] = u16::from(line.as_bytes()[0]);
        for (field, number) in line.split(',').skip(1).zip(&mut row[1..]) {
            *number = field.parse().unwrap();
        }
        let [kind, a, b] = [row[1], row[2], row[3]].map(usize::from);
        match row[0] {
            84 => types.push(if kind == 0 {
                1
            } else {
                1 + types[a] + types[b]
            }),
            80 => patterns.push(match kind {
                0 | 1 => 1,
                4 => 1 + patterns[a] + patterns[b],
                _ => 1 + patterns[a],
            }),
            _ => continue,
        }
        let sizes = if row[0] == 84 { &types } else { &patterns };
        row[4] = *sizes.last().unwrap();
    }
    table
}

/// Areas that are lent, and how they are to be found afterwards. A sheet's letters are its output.
struct Lent {
    table: Vec<u16>,
    work: Vec<u8>,
    out: Vec<u8>,
    numbers: Vec<u32>,
}

impl Lent {
    fn new(table: usize, work: usize, out: usize) -> Self {
        Lent {
            table: wide_pattern(table),
            work: pattern(work),
            out: pattern(out),
            numbers: vec![],
        }
    }

    fn with_numbers(self, numbers: usize) -> Self {
        let numbers = number_pattern(numbers);
        Lent { numbers, ..self }
    }

    fn check(&mut self, file: &[u8]) -> Result<(), Refused> {
        check(file, &mut self.table, &mut self.work)
    }

    fn turn(&mut self, file: &[u8]) -> Result<usize, Refused> {
        turn(file, &mut self.table, &mut self.work, &mut self.out)
    }

    fn run(&mut self, file: &[u8], query: Query) -> Result<Ran, Refused> {
        run(file, &mut self.table, &mut self.work, query, &mut self.out)
    }

    fn sheet(&mut self, file: &[u8], queries: &[u8]) -> Result<usize, Refused> {
        let (table, work) = (&mut self.table, &mut self.work);
        sheet(file, table, work, queries, &mut self.numbers, &mut self.out)
    }

    fn number_of(&mut self, file: &[u8], ty: u32, letters: &[u8]) -> Result<u32, Refused> {
        number_of(file, &mut self.table, &mut self.work, ty, letters)
    }

    fn setting_of(&mut self, file: &[u8], ty: u32, setting: u32) -> Result<usize, Refused> {
        let (table, work) = (&mut self.table, &mut self.work);
        setting_of(file, table, work, ty, setting, &mut self.out)
    }

    fn overlap(&mut self, file: &[u8], left: u32, right: u32) -> Result<Overlap, Refused> {
        overlap(file, &mut self.table, &mut self.work, left, right)
    }

    /// The table begins as stated, the work area with zeros, the output with the text; all else is kept.
    fn expect(&self, table: &[u16], text: &[u8]) {
        self.expect_sheet(table, &[], text);
    }

    /// The same, and the numbers begin as stated.
    fn expect_sheet(&self, table: &[u16], numbers: &[u32], text: &[u8]) {
        assert_eq!(self.table[..TABLE_LENGTH], *table);
        assert_eq!(
            self.table[TABLE_LENGTH..],
            wide_pattern(self.table.len())[TABLE_LENGTH..]
        );
        assert!(self.work[..WORK_LENGTH].iter().all(|&byte| byte == 0));
        assert_eq!(
            self.work[WORK_LENGTH..],
            pattern(self.work.len())[WORK_LENGTH..]
        );
        assert_eq!(self.out[..text.len()], *text);
        assert_eq!(
            self.out[text.len()..],
            pattern(self.out.len())[text.len()..]
        );
        assert_eq!(self.numbers[..numbers.len()], *numbers);
        assert_eq!(
            self.numbers[numbers.len()..],
            number_pattern(self.numbers.len())[numbers.len()..]
        );
    }

    fn expect_unchanged(&self) {
        assert_eq!(self.table, wide_pattern(self.table.len()));
        assert_eq!(self.work, pattern(self.work.len()));
        assert_eq!(self.out, pattern(self.out.len()));
        assert_eq!(self.numbers, number_pattern(self.numbers.len()));
    }
}

const QUERY: Query = Query {
    iso: 1,
    direction: Forward,
    budget: 2,
    letters: b"PLURU",
};

#[test]
fn exact_and_longer_areas() {
    let s = file(S);
    for extra in [0, 1, 1000] {
        let lent = |out| Lent::new(TABLE_LENGTH + extra, WORK_LENGTH + extra, out + extra);
        let mut areas = lent(0);
        assert_eq!(areas.check(&s), Ok(()));
        areas.expect(&rows(S), b"");
        let mut areas = lent(s.len());
        assert_eq!(areas.turn(&s), Ok(s.len()));
        areas.expect(&rows(S), &file(S_TURNED));
        let mut areas = lent(RESULT_LENGTH);
        assert_eq!(
            areas.run(&s, QUERY),
            Ok(Ran {
                count: 2,
                length: 5
            })
        );
        areas.expect(&rows(S), b"PLULU");
    }
}

#[test]
fn areas_after_refusals() {
    let s = file(S);
    let wrong = file(&format!("{S} C,7,7"));
    for extra in [0, 1, 1000] {
        let lent = |out| Lent::new(TABLE_LENGTH + extra, WORK_LENGTH + extra, out + extra);
        let mut areas = lent(0);
        assert_eq!(areas.check(&wrong), Err(refused(Refusal::OverlapLeft, 15)));
        areas.expect(&rows(""), b"");
        let mut areas = lent(wrong.len());
        assert_eq!(areas.turn(&wrong), Err(refused(Refusal::OverlapLeft, 15)));
        areas.expect(&rows(""), b"");
        let mut areas = lent(RESULT_LENGTH);
        assert_eq!(
            areas.run(&wrong, QUERY),
            Err(refused(Refusal::OverlapLeft, 15))
        );
        areas.expect(&rows(""), b"");
        for (query, refusal) in [
            (Query { iso: 2, ..QUERY }, Refusal::NoIso),
            (
                Query {
                    letters: b"PLU",
                    ..QUERY
                },
                Refusal::NoValue,
            ),
            (Query { budget: 1, ..QUERY }, Refusal::Spent),
        ] {
            let mut areas = lent(RESULT_LENGTH);
            assert_eq!(areas.run(&s, query), Err(refused(refusal, 0)));
            areas.expect(&rows(S), b"");
        }
    }
}

#[test]
fn areas_of_settings() {
    let (s, large) = (file(S), file(&bits(32)));
    let wrong = file(&format!("{S} C,7,7"));
    // the refused file names its line
    let told = |refusal| {
        refused(
            refusal,
            if refusal == Refusal::OverlapLeft {
                15
            } else {
                0
            },
        )
    };
    for extra in [0, 1, 1000] {
        let lent = |out| Lent::new(TABLE_LENGTH + extra, WORK_LENGTH + extra, out + extra);
        for (file, ty, letters, answer, table) in [
            (&s, 2, "PRULU", Ok(2), rows(S)),
            (&s, 3, "PRULU", Err(Refusal::NoIso), rows(S)),
            (&s, 2, "PRUL", Err(Refusal::NoValue), rows(S)),
            (&large, 32, "", Err(Refusal::TooMany), rows(&bits(32))),
            (&wrong, 2, "PRULU", Err(Refusal::OverlapLeft), rows("")),
        ] {
            let mut areas = lent(0);
            let given = areas.number_of(file, ty, letters.as_bytes());
            assert_eq!(given, answer.map_err(told));
            areas.expect(&table, b"");
        }
        for (file, ty, setting, answer, table) in [
            (&s, 2, 2, Ok("PRULU"), rows(S)),
            (&s, 0, 0, Ok("U"), rows(S)),
            (&s, 3, 2, Err(Refusal::NoIso), rows(S)),
            (&s, 2, 4, Err(Refusal::TooHigh), rows(S)),
            (&large, 32, 0, Err(Refusal::TooMany), rows(&bits(32))),
            (&wrong, 2, 2, Err(Refusal::OverlapLeft), rows("")),
        ] {
            let mut areas = lent(RESULT_LENGTH);
            let given = areas.setting_of(file, ty, setting);
            let length = answer.map(str::len);
            assert_eq!(given, length.map_err(told));
            areas.expect(&table, answer.unwrap_or_default().as_bytes());
        }
    }
}

#[test]
fn short_and_empty_areas_of_settings() {
    let short = refused(Refusal::ShortArea, 0);
    let full = [TABLE_LENGTH, WORK_LENGTH, RESULT_LENGTH];
    let files = [
        file(S),
        file(&bits(32)),
        file("T"),
        b"".to_vec(),
        vec![b'T'; 65_537],
    ];
    for place in 0..3 {
        for length in [full[place] - 1, 0] {
            let mut lengths = full;
            lengths[place] = length;
            let mut areas = Lent::new(lengths[0], lengths[1], lengths[2]);
            for (file, ty) in files.iter().flat_map(|file| [(file, 0), (file, 32)]) {
                assert_eq!(areas.setting_of(file, ty, 0), Err(short));
                assert_eq!(areas.setting_of(file, ty, u32::MAX), Err(short));
                // The way to a number has no result.
                if place < 2 {
                    assert_eq!(areas.number_of(file, ty, b"U"), Err(short));
                    assert_eq!(areas.number_of(file, ty, b""), Err(short));
                }
            }
            areas.expect_unchanged();
        }
    }
}

#[test]
fn areas_of_overlaps() {
    let s = file(S);
    let wrong = file(&format!("{S} C,7,7"));
    for extra in [0, 1, 1000] {
        for (file, right, answer, table) in [
            (&s, 7, Ok((true, 2)), rows(S)),
            (&s, 8, Err(refused(Refusal::NoIso, 0)), rows(S)),
            (&wrong, 7, Err(refused(Refusal::OverlapLeft, 15)), rows("")),
        ] {
            let mut areas = Lent::new(TABLE_LENGTH + extra, WORK_LENGTH + extra, 0);
            let given = areas.overlap(file, 5, right);
            assert_eq!(given.map(|given| (given.clash, given.pairs)), answer);
            areas.expect(&table, b"");
        }
    }
    for (table, work) in [
        (TABLE_LENGTH - 1, WORK_LENGTH),
        (TABLE_LENGTH, WORK_LENGTH - 1),
        (0, WORK_LENGTH),
        (TABLE_LENGTH, 0),
    ] {
        let mut areas = Lent::new(table, work, 0);
        for file in [&s, &wrong, &vec![b'T'; 65_537]] {
            let short = Err(refused(Refusal::ShortArea, 0));
            assert_eq!(areas.overlap(file, 5, 7), short);
            assert_eq!(areas.overlap(file, 5, 8), short);
        }
        areas.expect_unchanged();
    }
}

#[test]
fn short_and_empty_areas() {
    let s = file(S);
    let short = refused(Refusal::ShortArea, 0);
    let full = [TABLE_LENGTH, WORK_LENGTH];
    for (table, work) in [
        (full[0] - 1, full[1]),
        (full[0], full[1] - 1),
        (0, full[1]),
        (full[0], 0),
        (0, 0),
    ] {
        let mut areas = Lent::new(table, work, s.len());
        assert_eq!(areas.check(&s), Err(short));
        assert_eq!(areas.turn(&s), Err(short));
        assert_eq!(areas.run(&s, QUERY), Err(short));
        areas.expect_unchanged();
    }
    for (turn_length, run_length) in [(s.len() - 1, RESULT_LENGTH - 1), (0, 0)] {
        let mut areas = Lent::new(full[0], full[1], turn_length);
        assert_eq!(areas.turn(&s), Err(short));
        areas.expect_unchanged();
        let mut areas = Lent::new(full[0], full[1], run_length);
        assert_eq!(areas.run(&s, QUERY), Err(short));
        areas.expect_unchanged();
    }
}

/// A list of the queries of document 01 and a line of another form, and what they leave in the numbers and
/// in the letters.
fn list_and_areas() -> (Vec<u8>, Vec<u32>, Vec<u8>) {
    let list = format!("{QUERIES}Q\n").into_bytes();
    let threes = [
        [0, 2, 5],
        [0, 2, 5],
        [0, 1, 5],
        [0, 2, 5],
        [17, 0, 0],
        [15, 0, 0],
        [16, 0, 0],
        [3, 0, 0],
    ];
    let mut letters = pattern(threes.len() * RESULT_LENGTH);
    let written = ["PLULU", "PLURU", "PRULU", "PLULU"];
    for (own, text) in letters.chunks_mut(RESULT_LENGTH).zip(written) {
        own[..text.len()].copy_from_slice(text.as_bytes());
    }
    (list, threes.concat(), letters)
}

#[test]
fn areas_of_a_sheet() {
    let (list, numbers, letters) = list_and_areas();
    let wrong = file(&format!("{S} C,7,7"));
    for extra in [0, 1, 1000] {
        let lent = || {
            Lent::new(
                TABLE_LENGTH + extra,
                WORK_LENGTH + extra,
                letters.len() + extra,
            )
            .with_numbers(numbers.len() + extra)
        };
        let mut areas = lent();
        assert_eq!(areas.sheet(&file(S), &list), Ok(8));
        areas.expect_sheet(&rows(S), &numbers, &letters);
        let mut areas = lent();
        let overlap = Err(refused(Refusal::OverlapLeft, 15));
        assert_eq!(areas.sheet(&wrong, &list), overlap);
        areas.expect(&rows(""), b"");
        let mut areas = lent();
        assert_eq!(areas.sheet(&file(S), b""), Ok(0));
        areas.expect(&rows(S), b"");
    }
}

#[test]
fn short_and_empty_areas_of_a_sheet() {
    let (list, numbers, letters) = list_and_areas();
    let full = [TABLE_LENGTH, WORK_LENGTH, letters.len(), numbers.len()];
    let one_short = (0..4).map(|place| (place, full[place] - 1));
    let empty = (0..4).map(|place| (place, 0));
    for (place, length) in one_short.chain(empty) {
        let mut lengths = full;
        lengths[place] = length;
        let [table, work, out, numbers] = lengths;
        let mut areas = Lent::new(table, work, out).with_numbers(numbers);
        for bytes in [file(S), file("T"), vec![b'T'; 65_537]] {
            let answer = areas.sheet(&bytes, &list);
            assert_eq!(answer, Err(refused(Refusal::ShortArea, 0)));
        }
        areas.expect_unchanged();
    }
    let mut areas = Lent::new(TABLE_LENGTH, WORK_LENGTH, 0);
    assert_eq!(areas.sheet(b"", b""), Ok(0));
    areas.expect(&rows(""), b"");
    let mut areas = Lent::new(0, 0, 0);
    assert_eq!(areas.sheet(b"", b""), Err(refused(Refusal::ShortArea, 0)));
}

#[test]
fn too_long_changes_nothing() {
    let long = vec![b'T'; 65_537];
    let mut areas = Lent::new(TABLE_LENGTH, WORK_LENGTH, long.len());
    assert_eq!(areas.check(&long), Err(refused(Refusal::TooLong, 0)));
    assert_eq!(areas.turn(&long), Err(refused(Refusal::TooLong, 0)));
    assert_eq!(areas.run(&long, QUERY), Err(refused(Refusal::TooLong, 0)));
    assert_eq!(
        areas.number_of(&long, 0, b"U"),
        Err(refused(Refusal::TooLong, 0))
    );
    assert_eq!(
        areas.setting_of(&long, 0, 0),
        Err(refused(Refusal::TooLong, 0))
    );
    areas.expect_unchanged();
    let mut areas = Lent::new(TABLE_LENGTH, WORK_LENGTH, long.len() - 1);
    assert_eq!(areas.turn(&long), Err(refused(Refusal::ShortArea, 0)));
    areas.expect_unchanged();
    let list = "Q,1,0,9,PLURU\n".repeat(MAX_QUERIES + 1);
    for (queries, number) in [(600, Refusal::ShortArea), (601, Refusal::TooLong)] {
        let mut areas = Lent::new(TABLE_LENGTH, WORK_LENGTH, queries * RESULT_LENGTH)
            .with_numbers(queries * NUMBERS_A_QUERY);
        for bytes in [&file(S), &file("T"), &long] {
            let answer = areas.sheet(bytes, list.as_bytes());
            assert_eq!(answer, Err(refused(number, 0)));
        }
        areas.expect_unchanged();
    }
}

#[test]
fn a_desk_is_used_again() {
    let mut desk = Desk::default();
    let s = file(S);
    assert_eq!(desk.table(), rows(""));
    for _ in 0..3 {
        assert_eq!(desk.check(&s), Ok(()));
        assert_eq!(desk.table(), rows(S));
        assert_eq!(
            desk.clone().run(&s, Query::new(1, Forward, 9, b"PLURU")),
            value(2, "PLULU")
        );
        assert_eq!(desk.check(b"T"), Err(refused(Refusal::BadLine, 1)));
        assert_eq!(desk.table(), rows(""));
        assert_eq!(desk.turn(&s), Ok(file(S_TURNED)));
        assert_eq!(
            desk.check(&[b'T'; 65_537]),
            Err(refused(Refusal::TooLong, 0))
        );
        assert_eq!(desk.table(), rows(S));
    }
}

#[test]
fn desks_in_threads() {
    let through = |(letters, count, given): (&'static str, u32, &'static str)| {
        std::thread::spawn(move || {
            let mut desk = Desk::new();
            let list = format!("Q,1,0,2,{letters}\nQ\nQ,1,1,2,{given}\n");
            let replies = [
                reply(count, given),
                Err(Refusal::BadLine),
                reply(count, letters),
            ];
            (0..200).all(|_| {
                let number = desk.number_of(&file(S), 2, letters.as_bytes()).unwrap();
                desk.setting_of(&file(S), 2, number) == Ok(letters.as_bytes().to_vec())
                    && desk.run(&file(S), Query::new(1, Forward, 2, letters.as_bytes()))
                        == value(count, given)
                    && desk.sheet(&file(S), list.as_bytes()) == Ok(replies.to_vec())
            })
        })
    };
    let runs = [
        ("PLULU", 2, "PLURU"),
        ("PLURU", 2, "PLULU"),
        ("PRULU", 1, "PRULU"),
        ("PRURU", 1, "PRURU"),
    ];
    let threads: Vec<_> = runs.into_iter().map(through).collect();
    assert_eq!(threads.len(), 4);
    for thread in threads {
        assert!(thread.join().unwrap());
    }
}

/// The fields of a query `Q,iso,direction,budget,letters`. Its ending is a line feed, or a carriage return and
/// a line feed.
fn query_of(line: &str) -> Query<'_> {
    let text = line.strip_suffix('\n').unwrap();
    let text = text.strip_suffix('\r').unwrap_or(text);
    let fields: Vec<&str> = text.splitn(5, ',').collect();
    Query {
        iso: fields[1].parse().unwrap(),
        direction: if fields[2] == "0" { Forward } else { Back },
        budget: fields[3].parse().unwrap(),
        letters: fields[4].as_bytes(),
    }
}

/// What the desk program prints for a query. A run of the file is a run of the turned file the other way.
fn answer(desk: &mut Desk, file: &[u8], turned: &[u8], query: Query) -> String {
    let answer = desk.run(file, query);
    let direction = if query.direction == Forward {
        Back
    } else {
        Forward
    };
    assert_eq!(desk.run(turned, Query { direction, ..query }), answer);
    printed(answer.map_err(|refused| refused.refusal))
}

/// The line that the desk program prints.
fn printed(answer: Result<Value, Refusal>) -> String {
    match answer {
        Ok(value) => format!(
            "0,{},{}\n",
            value.count,
            String::from_utf8(value.letters).unwrap()
        ),
        Err(refusal) => format!("{},0,\n", refusal.number()),
    }
}

/// What the desk program prints for its input. A file turned twice is the file without its carriage returns; all
/// queries in one sheet are answered as each on its own.
fn answers(input: &str) -> String {
    let mut desk = Desk::new();
    let queries = input
        .split_inclusive('\n')
        .skip_while(|line| !line.starts_with('Q'));
    let length = input.len() - queries.clone().map(str::len).sum::<usize>();
    let (file, list) = input.as_bytes().split_at(length);
    if let Err(refused) = desk.check(file) {
        assert_eq!(desk.sheet(file, list), Err(refused));
        return format!("{},{}\n", refused.refusal.number(), refused.line);
    }
    let turned = desk.turn(file).unwrap();
    let mut without = file.to_vec();
    without.retain(|byte| *byte != b'\r');
    assert_eq!(desk.turn(&turned).unwrap(), without);
    let lines = queries.map(|line| answer(&mut desk, file, &turned, query_of(line)));
    let lines: Vec<String> = lines.collect();
    let sheet = desk.sheet(file, list).unwrap().into_iter().map(printed);
    assert_eq!(sheet.collect::<Vec<String>>(), lines);
    format!("0,0\n{}", lines.concat())
}

/// The files below a folder whose names end so.
fn below(folder: &Path, ending: &str) -> Vec<PathBuf> {
    let paths = fs::read_dir(folder)
        .unwrap()
        .map(|entry| entry.unwrap().path());
    let (folders, files): (Vec<_>, Vec<_>) = paths.partition(|path| path.is_dir());
    let here = files
        .into_iter()
        .filter(|path| path.extension().is_some_and(|end| end == ending));
    here.chain(folders.iter().flat_map(|folder| below(folder, ending)))
        .collect()
}

/// The stored examples whose names end so.
fn examples(ending: &str) -> Vec<PathBuf> {
    let folder = Path::new(env!("CARGO_MANIFEST_DIR")).join("../../examples");
    below(&folder, ending)
}

/// What the desk program reads: a stored input, or a rule file and the queries beside it.
fn read_example(path: &Path) -> String {
    let mut text = fs::read_to_string(path).unwrap();
    if path.extension().is_some_and(|end| end == "rules") {
        text += &fs::read_to_string(path.with_extension("queries")).unwrap_or_default();
    }
    text
}

#[test]
fn stored_examples() {
    let inputs = [examples("in"), examples("rules")];
    assert!(inputs.iter().all(|inputs| inputs.len() > 5));
    for input in inputs.concat() {
        let expected = fs::read_to_string(input.with_extension("out")).unwrap();
        let found = answers(&read_example(&input));
        assert_eq!(found, expected, "{}", input.display());
    }
}

/// The line that answers `N,type,letters`. The number that comes out is sent back.
fn answer_letters(desk: &mut Desk, file: &[u8], ty: u32, letters: &str) -> String {
    match desk.number_of(file, ty, letters.as_bytes()) {
        Ok(setting) => {
            let back = desk.setting_of(file, ty, setting);
            assert_eq!(back, Ok(letters.as_bytes().to_vec()));
            format!("0,{setting}\n")
        }
        Err(refused) => format!("{},0\n", refused.refusal.number()),
    }
}

/// The line that answers `S,type,number`. The letters that come out are sent back.
fn answer_number(desk: &mut Desk, file: &[u8], ty: u32, setting: u32) -> String {
    match desk.setting_of(file, ty, setting) {
        Ok(letters) => {
            assert_eq!(desk.number_of(file, ty, &letters), Ok(setting));
            format!("0,{}\n", String::from_utf8(letters).unwrap())
        }
        Err(refused) => format!("{},\n", refused.refusal.number()),
    }
}

/// The line that answers `E,iso,budget` or `M,from,to` with a list: the lines written, each behind a blank.
fn answer_lines(written: Result<Vec<u8>, Refused>) -> String {
    match written {
        Ok(written) => {
            let text = String::from_utf8(written).unwrap();
            let lines: Vec<&str> = text.lines().collect();
            format!("0, {}\n", lines.join(" "))
        }
        Err(refused) => format!("{},\n", refused.refusal.number()),
    }
}

/// The file that `M,from,to` and a list, each line behind a blank, give. It gives the list back.
fn answer_list(desk: &mut Desk, file: &[u8], from: u32, text: &str) -> String {
    let (to, list) = text.split_once(' ').unwrap_or((text, ""));
    let list = list.split_whitespace().map(|line| format!("{line}\n"));
    let list = list.collect::<String>();
    let written = desk.import(file, from, to.parse().unwrap(), list.as_bytes());
    if let Ok(written) = &written {
        assert_eq!(desk.export(written, 0, 1), Ok(list.into_bytes()));
    }
    answer_lines(written)
}

/// The line that answers `U,budget` with units and a script. Where every visit is done, the script backward restores
/// the units.
fn answer_play(desk: &mut Desk, file: &[u8], text: &str) -> String {
    let mut words = text.split_whitespace();
    let budget = words.next().unwrap().parse().unwrap();
    let (script, units): (Vec<&str>, Vec<&str>) =
        words.partition(|word| word.starts_with(['S', 's']));
    let unit = |word: &str| {
        let (ty, setting) = word.split_once(',').unwrap();
        (ty.parse::<u32>().unwrap(), setting.parse::<u32>().unwrap())
    };
    let before: (Vec<u32>, Vec<u32>) = units.into_iter().map(unit).unzip();
    let (mut types, mut settings) = before.clone();
    let lines: String = script.iter().map(|line| format!("{line}\n")).collect();
    let given = desk.play(file, &mut types, &mut settings, lines.as_bytes(), budget);
    let answer = match given {
        Ok(tally) => format!("0,{},{},{}", tally.done, tally.skipped, tally.spent),
        Err(refused) => format!("{},0,0,0", refused.refusal.number()),
    };
    let after: String = types
        .iter()
        .zip(&settings)
        .map(|(ty, setting)| format!(" {ty},{setting}"))
        .collect();
    if given.is_ok_and(|tally| tally.done as usize == script.len()) {
        let turned = |line: &&str| match line.strip_suffix(",0") {
            Some(front) => format!("{front},1\n"),
            None => format!("{},0\n", line.strip_suffix(",1").unwrap()),
        };
        let back: String = script.iter().rev().map(turned).collect();
        let again = desk.play(file, &mut types, &mut settings, back.as_bytes(), budget);
        assert_eq!((again, (types, settings)), (given, before));
    }
    format!("{answer}{after}\n")
}

/// The line that answers a call of a stored example.
fn answer_call(desk: &mut Desk, file: &[u8], line: &str) -> String {
    if let Some(play) = line.strip_prefix("U,") {
        return answer_play(desk, file, play);
    }
    let fields: Vec<&str> = line.splitn(3, ',').collect();
    let first = fields[1].parse().unwrap();
    match fields[0] {
        "N" => answer_letters(desk, file, first, fields[2]),
        "S" => answer_number(desk, file, first, fields[2].parse().unwrap()),
        "E" => answer_lines(desk.export(file, first, fields[2].parse().unwrap())),
        "M" => answer_list(desk, file, first, fields[2]),
        _ => panic!("{line} is no call"),
    }
}

/// What the example program prints for a file and calls.
fn answer_calls(text: &str) -> String {
    let calls = text
        .split_inclusive('\n')
        .skip_while(|line| !line.starts_with(['N', 'S', 'E', 'M', 'U']));
    let length = text.len() - calls.clone().map(str::len).sum::<usize>();
    let file = &text.as_bytes()[..length];
    let mut desk = Desk::new();
    let calls = calls.map(|line| answer_call(&mut desk, file, line.trim_end_matches('\n')));
    let calls: String = calls.collect();
    match desk.check(file) {
        Ok(()) => format!("0,0\n{calls}"),
        Err(refused) => format!("{},{}\n", refused.refusal.number(), refused.line),
    }
}

#[test]
fn stored_calls() {
    let calls = examples("calls");
    assert!(calls.len() >= 3, "{} examples", calls.len());
    let mut numbers = Vec::new();
    for path in calls {
        let expected = fs::read_to_string(path.with_extension("answers")).unwrap();
        let found = answer_calls(&fs::read_to_string(&path).unwrap());
        assert_eq!(found, expected, "{}", path.display());
        let number = |line: &str| line.split(',').next().unwrap().parse::<u32>().unwrap();
        numbers.extend(expected.lines().map(number));
    }
    for number in [0, 7, 15, 16, 17, 18, 19, 20, 22] {
        assert!(numbers.contains(&number), "{number} in no example");
    }
}

/// The numbers that the header gives: `#define NAME n` and `NAME = n`, without the prefix.
fn header_numbers() -> Vec<(String, u32)> {
    let header = include_str!("../../../include/rulefile.h");
    let mut numbers = Vec::new();
    for line in header.lines() {
        let words: Vec<&str> = line
            .split(|c: char| c.is_whitespace() || c == ',')
            .filter(|word| !word.is_empty())
            .collect();
        let (name, number) = match words[..] {
            ["#define", "RULEFILE_VERSION", ..] => continue,
            ["#define", name, number, ..] | [name, "=", number, ..] => (name, number),
            _ => continue,
        };
        numbers.push((
            name.strip_prefix("RULEFILE_").unwrap().to_string(),
            number.parse().unwrap(),
        ));
    }
    numbers
}

#[test]
fn header_and_wrapper_agree() {
    let mut expected = vec![
        ("TABLE_LENGTH".to_string(), TABLE_LENGTH as u32),
        ("WORK_LENGTH".to_string(), WORK_LENGTH as u32),
        ("RESULT_LENGTH".to_string(), RESULT_LENGTH as u32),
        ("LIST_LENGTH".to_string(), LIST_LENGTH as u32),
        ("NUMBERS_A_QUERY".to_string(), NUMBERS_A_QUERY as u32),
        ("MAX_QUERIES".to_string(), MAX_QUERIES as u32),
        ("MAX_UNITS".to_string(), MAX_UNITS as u32),
        ("MAX_FILE_LENGTH".to_string(), MAX_FILE_LENGTH as u32),
        ("MAX_LINES".to_string(), 4_096),
        ("ACCEPTED".to_string(), 0),
    ];
    let refusals = (0..=100).filter_map(Refusal::of);
    expected.extend(refusals.map(|refusal| {
        (
            name_words(refusal.word()).to_uppercase().replace(' ', "_"),
            refusal.number(),
        )
    }));
    assert_eq!(expected.len(), 10 + WORDS.len());
    assert_eq!(header_numbers(), expected);
}
