//! What is shuffled, how refused files are told apart, and that each answer
//! that breaks the law is reported.

mod common;

use apart::areas::Known;
use apart::check;
use apart::desk::desk;
use apart::generate::random::Random;
use common::{unspoiled, Spoil, Spoiled, S};
use compare::block::Block;
use compare::case::Case;
use compare::desk::Program;
use compare::shuffle::{
    kind, may_be, several, shuffled, sorted, ACCEPTED, BOUNDS, CHECK, ELSEWHERE, LISTS, ONE, RULES,
    SETTINGS, SEVERAL, SIDE,
};
use std::collections::BTreeSet;
use std::io;

const HEAD: &str = "T,0,0,0\nT,1,0,0\nP,0,0,0\nP,2,0,0\nP,3,0,0\nP,1,0,0\nI,1,1\n";

fn with(clauses: &str) -> Vec<u8> {
    [HEAD, clauses].concat().into_bytes()
}

/// The same with a last iso that names all P lines.
fn used(clauses: &str) -> Vec<u8> {
    with(&(clauses.to_string() + "I,1,1\nC,0,1\nC,2,3\n"))
}

/// All files that are made of one.
fn all(file: &[u8]) -> BTreeSet<Vec<u8>> {
    let mut random = Random::new(7);
    (0..200).map(|_| shuffled(&mut random, file).file).collect()
}

#[test]
fn each_order_is_made_and_no_other_file() {
    let file = with("C,0,1\nL,3,0,3\nL,3,1,3\nC,1,2\nC,2,0\nL,0,0,0\n");
    let made = all(&file);
    assert_eq!(made.len(), 6);
    let blocks = ["C,0,1\nL,3,0,3\nL,3,1,3\n", "C,1,2\n", "C,2,0\nL,0,0,0\n"];
    for other in made {
        let text = String::from_utf8(other.clone()).unwrap();
        assert!(blocks.iter().all(|block| text.contains(block)));
        assert_eq!((text.len(), text.find("I,1,1")), (file.len(), Some(48)));
        assert_eq!(sorted(&other), sorted(&file));
    }
}

#[test]
fn clauses_stay_in_their_iso() {
    let file = with("C,0,1\nC,1,2\nI,1,1\nC,2,3\nC,3,1\n");
    assert_eq!(all(&file).len(), 4);
    let moved = with("C,0,1\nC,2,3\nI,1,1\nC,1,2\nC,3,1\n");
    assert_ne!(sorted(&file), sorted(&moved));
    let left = with("C,0,1\nL,3,0,3\nC,1,2\n");
    let behind = with("C,1,2\nL,3,0,3\nC,0,1\n");
    assert_ne!(sorted(&left), sorted(&behind));
}

#[test]
fn a_last_line_without_a_line_feed_stays() {
    for file in [
        with("C,0,1\nC,1,2\nC,2"),
        with("C,0,1\nC,1,2\nC,2,2\nL,0,0"),
    ] {
        assert_eq!(all(&file).len(), 2);
    }
    assert_eq!(all(&with("C,0,1\nC,1,2\nT,0,0,0\nC,2,1\nC,1,1\n")).len(), 4);
}

#[test]
fn what_moved_is_told() {
    let mut random = Random::new(8);
    let file = with("C,0,1\nC,1,2\nI,1,1\nC,2,3\nL,0,0,0\nC,3,1\n");
    let made: Vec<_> = (0..50).map(|_| shuffled(&mut random, &file)).collect();
    for shuffle in made {
        let text = String::from_utf8(shuffle.file).unwrap();
        let first = !text.contains("C,0,1\nC,1,2");
        let second = !text.contains("C,2,3\nL,0,0,0\nC,3,1");
        assert_eq!(shuffle.isos, usize::from(first) + usize::from(second));
        assert_eq!(shuffle.lets, second);
    }
}

#[test]
fn refused_files_are_told_apart() {
    let files = [
        ("C,3,0\nC,1,1\n", (8, 8), ONE),
        ("C,3,0\nC,1,3\n", (8, 8), ONE),
        ("C,3,0\nC,0,1\n", (8, 8), SEVERAL),
        ("C,1,1\n", (13, 7), SIDE),
        ("C,1,1\nC,1,2\n", (11, 7), SIDE),
        ("C,1,9\nC,1,1\n", (6, 8), ONE),
        ("C,1,9\nC,1\n", (6, 8), SEVERAL),
        ("C,1,9\nC,1,1\nL,3,9,3\n", (6, 8), SEVERAL),
        ("L,3,0,3\nC,1,1\nC,2,2\n", (4, 8), ELSEWHERE),
        ("C,1,1\nC,2,2\nP,0,0,0\n", (4, 10), ELSEWHERE),
    ];
    for (clauses, (number, line), row) in files {
        let file = used(clauses);
        let refusal = check(&file).err().expect("refused");
        assert_eq!((refusal.number, refusal.line), (number, line), "{clauses}");
        assert_eq!(kind(&file, refusal), row, "{clauses}");
    }
    let many = used(&"C,1,1\n".repeat(129));
    let refusal = check(&many).err().expect("refused");
    assert_eq!((refusal.number, refusal.line), (7, 7 + 129));
    assert_eq!(kind(&many, refusal), SEVERAL);
    let idle = with("C,1,1\nC,2,2\n");
    let refusal = check(&idle).err().expect("refused");
    assert_eq!((refusal.number, refusal.line), (21, 6));
    assert_eq!(kind(&idle, refusal), ELSEWHERE);
}

#[test]
fn files_with_several_faults_are_made() {
    let numbers = |form| -> BTreeSet<u8> {
        let mut random = Random::new(10);
        let files = (0..60).map(|_| several(&mut random, form));
        let refusal = |file: Vec<u8>| {
            let refusal = check(&file).err().expect("refused");
            assert_eq!(kind(&file, refusal), SEVERAL);
            refusal.number
        };
        files.map(refusal).collect()
    };
    assert_eq!(numbers(false), BTreeSet::from([8, 9, 10]));
    assert_eq!(numbers(true), BTreeSet::from([3, 6, 7]));
}

#[test]
fn what_may_be_answered() {
    assert!(may_be(ACCEPTED, (0, 0), (0, 0)));
    assert!(!may_be(ACCEPTED, (0, 0), (11, 7)));
    assert!(may_be(ONE, (8, 9), (8, 12)));
    assert!(!may_be(ONE, (8, 9), (9, 9)));
    assert!(may_be(SEVERAL, (8, 9), (10, 11)));
    assert!(may_be(SEVERAL, (3, 9), (7, 11)));
    assert!(!may_be(SEVERAL, (8, 9), (7, 9)));
    assert!(!may_be(SEVERAL, (8, 9), (0, 0)));
    for row in [SIDE, ELSEWHERE] {
        assert!(may_be(row, (12, 9), (12, 9)));
        assert!(!may_be(row, (12, 9), (12, 8)));
    }
}

/// The desk program of the checker written apart.
struct Desk(fn(&mut Vec<u8>));

impl Program for Desk {
    fn printed(&mut self, input: &[u8]) -> io::Result<Vec<u8>> {
        let mut printed = desk(input);
        (self.0)(&mut printed);
        Ok(printed)
    }
}

/// The mismatches of some cases, and what was counted of them.
fn compared(program: fn(&mut Vec<u8>), services: Spoil) -> (usize, [usize; 5]) {
    let mut block = Block::new(Desk(program), Spoiled(services), &mut Random::new(5));
    for seed in 0..60 {
        let case = [Case::Accepted, Case::Aimed(8), Case::Aimed(13)][seed as usize % 3];
        block.case(&mut Random::new(seed), case, 9).unwrap();
    }
    let counts = [RULES, CHECK, SETTINGS, BOUNDS, LISTS]
        .map(|column| block.tally.shuffled.count(ACCEPTED, column));
    (block.tally.mismatches, counts)
}

#[test]
fn the_law_is_held() {
    let (mismatches, counts) = compared(|_| {}, unspoiled);
    assert_eq!(mismatches, 0);
    assert!(counts.iter().all(|count| *count > 2), "{counts:?}");
}

/// A checker for which the order of clauses tells: it refuses a file whose
/// first two clauses do not stand in the order of their bytes.
fn ordered(file: &[u8]) -> bool {
    let lines: Vec<&[u8]> = file.split_inclusive(|byte| *byte == b'\n').collect();
    lines
        .windows(2)
        .all(|two| two[0][0] != b'C' || two[1][0] != b'C' || two[0] <= two[1])
}

#[test]
fn an_answer_by_the_order_is_reported() {
    assert!(ordered(&with("C,1,1\nC,2,2\n")) && !ordered(&with("C,2,2\nC,1,1\n")));
    struct ByOrder;
    impl Program for ByOrder {
        fn printed(&mut self, input: &[u8]) -> io::Result<Vec<u8>> {
            let printed = desk(input);
            Ok(if ordered(input) {
                printed
            } else {
                b"11,7\n".to_vec()
            })
        }
    }
    let mut block = Block::new(ByOrder, Spoiled(unspoiled), &mut Random::new(9));
    let known = Known::of(S);
    assert!(known.checked.is_ok());
    for seed in 0..20 {
        block
            .case(&mut Random::new(seed), Case::Accepted, 3)
            .unwrap();
    }
    assert!(block.tally.mismatches > 5);
    assert!(block
        .tally
        .reports
        .iter()
        .any(|report| report.text.contains("printed line 1")));
}
