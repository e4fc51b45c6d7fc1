//! The sheet, from the words of request 01 and document 01.

use apart::areas::{check_areas, run_areas, Known, RESULT, TABLE, WORK};
use apart::check;
use apart::desk::query as query_of;
use apart::lines::split;
use apart::sheet::{sheet, Lent, NUMBERS, QUERIES};

mod common;
use common::{lines, refused_files, REFUSED};

/// "File S (one line each, parted here by blanks)".
const S: &str = "T,0,0,0 T,1,0,0 T,2,1,1 P,0,0,0 P,2,0,0 P,3,0,0 P,1,0,0 P,1,1,0 \
P,4,1,3 P,4,1,4 P,4,2,3 I,1,1 C,1,2 C,2,1 I,2,2 C,5,6 L,4,0,3 C,7,7";

/// The queries of document 01 after S; number, count and letters of each.
const ASKED: [(&str, u32, u32, &str); 7] = [
    ("Q,1,0,9,PLURU", 0, 2, "PLULU"),
    ("Q,1,1,9,PLULU", 0, 2, "PLURU"),
    ("Q,1,0,2,PRULU", 0, 1, "PRULU"),
    ("Q,1,0,2,PLURU", 0, 2, "PLULU"),
    ("Q,1,0,1,PLURU", 17, 0, ""),
    ("Q,2,0,9,U", 15, 0, ""),
    ("Q,1,0,9,PLU", 16, 0, ""),
];

/// Queries of another form.
const BAD_QUERIES: [&str; 20] = [
    "",
    "Q",
    "Q,0,0,1",
    "q,0,0,1,LU",
    "QQ,0,0,1,LU",
    " Q,0,0,1,LU",
    "Q,,0,1,LU",
    "Q,0,,1,LU",
    "Q,0,0,,LU",
    "Q,00,0,1,LU",
    "Q,0,00,1,LU",
    "Q,0,0,01,LU",
    "Q,65536,0,1,LU",
    "Q,0,2,1,LU",
    "Q,0,0,4294967296,LU",
    "Q,0,0,-1,LU",
    "Q;0;0;1;LU",
    "T,0,0,0",
    "\0",
    "Q,0\0,0,1,LU",
];

/// The queries of document 01 in one list.
fn asked() -> Vec<u8> {
    let lines: Vec<String> = ASKED.iter().map(|asked| format!("{}\n", asked.0)).collect();
    lines.concat().into_bytes()
}

/// One query so many times.
fn times(count: usize) -> Vec<u8> {
    b"Q,0,0,1,LU\n".repeat(count)
}

/// Lent areas, filled with what no call leaves behind.
#[derive(Debug, Clone, PartialEq, Eq)]
struct Areas {
    table: Vec<u16>,
    work: Vec<u8>,
    numbers: Vec<u32>,
    letters: Vec<u8>,
}

impl Areas {
    /// Exactly long enough for so many queries.
    fn exact(queries: usize) -> Areas {
        Areas::of([TABLE, WORK, queries * NUMBERS, queries * RESULT])
    }

    /// Longer than needed for so many queries.
    fn longer(queries: usize) -> Areas {
        let numbers = (queries + 1) * NUMBERS + 1;
        Areas::of([TABLE + 6, WORK + 4, numbers, (queries + 1) * RESULT + 9])
    }

    /// Areas of these lengths.
    fn of([table, work, numbers, letters]: [usize; 4]) -> Areas {
        Areas {
            table: vec![7; table],
            work: vec![8; work],
            numbers: (0..numbers as u32).map(|place| !place).collect(),
            letters: (0..letters).map(|place| (place % 61) as u8).collect(),
        }
    }

    /// Number, line and queries answered.
    fn sheet(&mut self, file: &[u8], list: &[u8]) -> (u8, usize, usize) {
        let lent = Lent {
            table: &mut self.table,
            work: &mut self.work,
            numbers: &mut self.numbers,
            letters: &mut self.letters,
        };
        let given = sheet(&Known::of(file), list, lent);
        (given.number, given.line, given.queries)
    }

    /// The numbers of one query.
    fn three(&self, query: usize) -> &[u32] {
        &self.numbers[NUMBERS * query..NUMBERS * (query + 1)]
    }

    /// The bytes of one query.
    fn place(&self, query: usize) -> &[u8] {
        &self.letters[RESULT * query..RESULT * (query + 1)]
    }

    /// Whether table and work are as Check of the file leaves them.
    fn as_checked(&self, before: &Areas, file: &[u8]) -> bool {
        let mut checked = before.clone();
        check_areas(file, &mut checked.table, &mut checked.work);
        (&self.table, &self.work) == (&checked.table, &checked.work)
    }
}

/// A list for S in areas longer than needed: all areas afterwards, and those
/// before.
fn answered(list: &[u8], queries: usize) -> (Areas, Areas) {
    let before = Areas::longer(queries);
    let mut after = before.clone();
    assert_eq!(after.sheet(&lines(S), list), (0, 0, queries));
    assert!(after.as_checked(&before, &lines(S)));
    assert_eq!(
        after.numbers[queries * NUMBERS..],
        before.numbers[queries * NUMBERS..]
    );
    assert_eq!(
        after.letters[queries * RESULT..],
        before.letters[queries * RESULT..]
    );
    (after, before)
}

/// "three numbers of 32 bits in a lent area, in the same order"; "its letters
/// stand in 127 bytes of its own in one lent area".
#[test]
fn the_table_of_queries_in_one_sheet() {
    let (after, before) = answered(&asked(), 7);
    for (query, (line, number, count, letters)) in ASKED.iter().enumerate() {
        let length = letters.len();
        assert_eq!(
            after.three(query),
            [*number, *count, length as u32],
            "{line}"
        );
        assert_eq!(&after.place(query)[..length], letters.as_bytes(), "{line}");
        assert_eq!(
            after.place(query)[length..],
            before.place(query)[length..],
            "{line}"
        );
    }
    let mut exact = Areas::exact(7);
    assert_eq!(exact.sheet(&lines(S), &asked()), (0, 0, 7));
    assert_eq!(exact.numbers, after.numbers[..21]);
    assert_eq!(exact.letters, after.letters[..889]);
}

/// "equal to those of a lone run".
#[test]
fn each_query_is_answered_as_alone() {
    let list = lines(
        "Q,0,0,1,LU Q,0,1,1,LU Q,0,0,0,LU Q,1,1,1,PLULU Q,1,1,2,PLURU Q,32,0,9,U Q,0,0,4294967295,RU \
Q,65535,1,0,x Q,0,0,1,LUU Q,1,0,2,PRURU",
    );
    let (after, before) = answered(&list, 10);
    for (query, line) in split(&list).into_iter().enumerate() {
        let lone = query_of(line).unwrap();
        let mut result = before.place(query).to_vec();
        let (mut table, mut work) = (vec![0; TABLE], vec![0; WORK]);
        let ran = run_areas(&lines(S), &mut table, &mut work, lone, &mut result);
        let three = [ran.number.into(), ran.count as u32, ran.length as u32];
        assert_eq!(after.three(query), three, "{query}");
        assert_eq!(after.place(query), result, "{query}");
    }
}

/// "A refused query leaves its 127 bytes unchanged and its neighbours
/// untouched."
#[test]
fn refused_queries_leave_their_bytes() {
    for (refused, number) in [
        ("Q,2,0,9,LU", 15),
        ("Q,0,0,9,U", 16),
        ("Q,0,0,0,LU", 17),
        ("x", 3),
    ] {
        let list = format!("Q,0,0,1,LU\n{refused}\nQ,0,0,1,RU\n");
        let (after, before) = answered(list.as_bytes(), 3);
        assert_eq!(
            after.numbers[..9],
            [0, 1, 2, number, 0, 0, 0, 1, 2],
            "{refused}"
        );
        assert_eq!(after.place(1), before.place(1), "{refused}");
        assert_eq!(&after.place(0)[..2], b"RU", "{refused}");
        assert_eq!(after.place(0)[2..], before.place(0)[2..], "{refused}");
        assert_eq!(&after.place(2)[..2], b"LU", "{refused}");
        assert_eq!(after.place(2)[2..], before.place(2)[2..], "{refused}");
    }
}

/// "A query of another form, or over 200 bytes with its line feed, is refused
/// 3."
#[test]
fn a_query_of_another_form_is_3() {
    for bad in BAD_QUERIES {
        let list = format!("Q,0,0,1,LU\n{bad}\nQ,0,0,1,RU\n");
        let (after, before) = answered(list.as_bytes(), 3);
        assert_eq!(after.numbers[..9], [0, 1, 2, 3, 0, 0, 0, 1, 2], "{bad}");
        assert_eq!(after.place(1), before.place(1), "{bad}");
    }
    for (length, number) in [(199, 16), (200, 16), (201, 3), (202, 3), (70_000, 3)] {
        let line = format!("Q,0,0,1,{}\n", "U".repeat(length - 9));
        assert_eq!(line.len(), length);
        let (after, _) = answered(line.as_bytes(), 1);
        assert_eq!(after.numbers[..3], [number, 0, 0], "{length}");
    }
    let (after, _) = answered(b"Q,0,0,1,\nQ,0,0,1,\0\xff\n\xff\n\n", 4);
    assert_eq!(after.numbers[..12], [16, 0, 0, 16, 0, 0, 3, 0, 0, 3, 0, 0]);
}

/// "Each query ends in a line feed"; "a last line without a line feed counts
/// as a line".
#[test]
fn a_last_line_without_line_feed_is_3() {
    let (after, before) = answered(b"Q,0,0,1,LU\nQ,0,0,1,LU", 2);
    assert_eq!(after.numbers[..6], [0, 1, 2, 3, 0, 0]);
    assert_eq!(after.place(1), before.place(1));
    let (after, before) = answered(b"Q", 1);
    assert_eq!(after.numbers[..3], [3, 0, 0]);
    assert_eq!(after.place(0), before.place(0));
    // It needs its own part of the areas too.
    let mut areas = Areas::exact(1);
    let same = areas.clone();
    let given = areas.sheet(&lines(S), b"Q,0,0,1,LU\nQ,0,0,1,LU");
    assert_eq!((given, areas), ((1, 0, 0), same));
}

#[test]
fn an_empty_list_needs_no_numbers_and_no_letters() {
    let before = Areas::exact(0);
    let mut after = before.clone();
    assert_eq!((after.numbers.len(), after.letters.len()), (0, 0));
    assert_eq!(after.sheet(&lines(S), b""), (0, 0, 0));
    assert!(after.as_checked(&before, &lines(S)));
    let (after, before) = answered(b"", 0);
    assert_eq!(
        (after.numbers, after.letters),
        (before.numbers, before.letters)
    );
    assert_eq!(Areas::exact(0).sheet(b"", b""), (0, 0, 0));
    assert_eq!(Areas::exact(0).sheet(b"x\n", b""), (3, 1, 0));
}

/// "over 600 queries is 2".
#[test]
fn six_hundred_queries_and_one_more() {
    assert_eq!(QUERIES, 600);
    let (after, before) = answered(&times(600), 600);
    for query in 0..600 {
        assert_eq!(after.three(query), [0, 1, 2], "{query}");
        assert_eq!(&after.place(query)[..2], b"RU", "{query}");
        assert_eq!(after.place(query)[2..], before.place(query)[2..], "{query}");
    }
    let cut = [&times(599)[..], b"x"].concat();
    let (after, _) = answered(&cut, 600);
    assert_eq!(after.three(599), [3, 0, 0]);
    let cut = [&times(600)[..], b"x"].concat();
    for list in [times(601), times(5_000), cut, vec![b'\n'; 601]] {
        let before = Areas::longer(5_000);
        let mut after = before.clone();
        assert_eq!(after.sheet(&lines(S), &list), (2, 0, 0));
        assert_eq!(after, before);
    }
}

/// "A lent area too short for the queries given is 1".
#[test]
fn areas_too_short_change_nothing() {
    for (list, queries) in [(asked(), 7), (times(1), 1), (times(600), 600)] {
        let exact = [TABLE, WORK, queries * NUMBERS, queries * RESULT];
        assert_eq!(Areas::of(exact).sheet(&lines(S), &list), (0, 0, queries));
        for area in 0..4 {
            for length in [exact[area] - 1, exact[area] / 2, 0] {
                let mut lengths = exact.map(|length| length + 5);
                lengths[area] = length;
                let before = Areas::of(lengths);
                let mut after = before.clone();
                assert_eq!(after.sheet(&lines(S), &list), (1, 0, 0), "{lengths:?}");
                assert_eq!(after, before, "{lengths:?}");
            }
        }
    }
}

/// "Order: 1, then 2", and only then the lines of the file.
#[test]
fn refusal_1_goes_before_2_and_2_before_the_file() {
    let long = vec![b'T'; 65_537];
    for file in [lines(S), lines("x"), lines("T,0,0,0 I,0,0"), long] {
        let exact = [TABLE, WORK, 601 * NUMBERS, 601 * RESULT];
        let over = Areas::of(exact);
        let mut after = over.clone();
        assert_eq!(after.sheet(&file, &times(601)), (2, 0, 0));
        assert_eq!(after, over);
        for area in 0..4 {
            let mut lengths = exact;
            lengths[area] -= 1;
            let short = Areas::of(lengths);
            let mut after = short.clone();
            assert_eq!(after.sheet(&file, &times(601)), (1, 0, 0), "{area}");
            assert_eq!(after, short, "{area}");
        }
    }
    // Areas long enough for 600 are too short for 601.
    assert_eq!(Areas::exact(600).sheet(&lines(S), &times(601)), (1, 0, 0));
}

/// "A refused file refuses the whole call."
#[test]
fn a_refused_file_leaves_numbers_and_letters() {
    let mut numbers = Vec::new();
    for file in refused_files() {
        let refusal = check(&file).err().unwrap();
        numbers.push(refusal.number);
        let before = Areas::longer(7);
        for list in [asked(), Vec::new(), b"x".to_vec()] {
            let mut after = before.clone();
            let given = after.sheet(&file, &list);
            assert_eq!(given, (refusal.number, refusal.line, 0));
            assert_eq!(after.numbers, before.numbers);
            assert_eq!(after.letters, before.letters);
            assert!(after.as_checked(&before, &file));
            // "Refusals 1 and 2 change nothing."
            let left = if refusal.number == 2 { (7, 8) } else { (0, 0) };
            assert!(after.table[..TABLE].iter().all(|cell| *cell == left.0));
            assert!(after.work[..WORK].iter().all(|byte| *byte == left.1));
            assert!(after.table[TABLE..].iter().all(|cell| *cell == 7));
            assert!(after.work[WORK..].iter().all(|byte| *byte == 8));
        }
    }
    assert_eq!(numbers, REFUSED);
}
