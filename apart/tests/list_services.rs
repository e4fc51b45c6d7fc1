//! Request 14 by hand: each sentence of it, and what the other services make of
//! lists.

mod common;

use apart::areas::{Known, Query, Ran};
use apart::bounds::bounds_rules;
use apart::desk::desk;
use apart::lines::LISTS;
use apart::numbering::{number_of_rules, setting_of_rules};
use apart::overlap::overlap_rules;
use apart::pair_lists::{export_rules, import_rules};
use apart::recursion::{ends, has_lists};
use apart::units::play_rules;
use apart::witness::{witness, witness_of, Witnessed};
use apart::{check_with, run_rules, turn_rules, Refusal, Rules};
use common::lines;

/// Zones of two values, each exchanged; the same beside two values; a list as it
/// is; and an iso without lists.
const ZONES: &str = "T,0,0,0 T,1,0,0 T,3,1,0 T,2,2,1 \
P,0,0,0 P,2,0,0 P,3,0,0 P,5,0,0 P,1,0,0 P,1,1,0 P,6,1,4 P,6,2,4 P,6,1,5 P,6,2,5 \
P,1,2,0 P,1,3,0 P,6,10,4 P,4,12,11 P,4,4,11 P,6,10,5 P,4,15,11 P,4,5,11 P,4,3,11";

/// Isos 0 to 3 of them; their lines begin at 24.
const ISOS: &str = "I,2,2 C,3,3 C,6,9 L,5,0,4 C,7,8 L,5,0,4 \
I,3,3 C,18,18 C,13,16 L,17,1,14 I,2,2 C,4,4 I,1,1 C,1,2 C,2,1";

fn zones() -> Rules {
    check(&format!("{ZONES} {ISOS}")).unwrap_or_else(|refusal| panic!("{refusal:?}"))
}

fn check(words: &str) -> Result<Rules, Refusal> {
    check_with(&lines(words), true)
}

fn refused(words: &str) -> (u8, usize) {
    let refusal = check(words).err();
    refusal.map_or((0, 0), |refusal| (refusal.number, refusal.line))
}

fn ran(rules: &Rules, iso: u16, back: bool, budget: u32, value: &str) -> String {
    match run_rules(rules, iso, back, budget, value.as_bytes()) {
        Ok((count, given)) => format!("0,{count},{}", String::from_utf8_lossy(&given)),
        Err(refusal) => format!("{},0,", refusal.number),
    }
}

#[test]
fn a_list_of_zones() {
    let rules = zones();
    assert_eq!(ran(&rules, 0, false, 9, "KLUKRUN"), "0,3,KRUKLUN");
    assert_eq!(ran(&rules, 0, true, 3, "KRUKLUN"), "0,3,KLUKRUN");
    assert_eq!(ran(&rules, 0, false, 2, "KLUKRUN"), "17,0,");
    assert_eq!(ran(&rules, 0, false, 1, "N"), "0,1,N");
    assert_eq!(ran(&rules, 1, false, 9, "PKLUKRUNRU"), "0,3,PKLUKRUNRU");
    for wrong in ["", "K", "KLU", "KN", "KUN", "NN", "LU", "U"] {
        assert_eq!(ran(&rules, 0, false, 9, wrong), "16,0,", "{wrong}");
    }
    for iso in 0..4 {
        assert!(ends(&rules.isos, iso) && ends(&rules.turned, iso));
        assert_eq!(has_lists(&rules.isos, iso), iso < 3);
    }
}

#[test]
fn kinds_fields_and_names() {
    assert_eq!(refused("T,3,0,0"), (6, 1));
    assert_eq!(refused("T,0,0,0 T,3,0,1"), (5, 2));
    assert_eq!(refused("T,0,0,0 T,3,9,1"), (5, 2));
    assert_eq!(refused("T,0,0,0 T,3,1,0"), (6, 2));
    assert_eq!(refused("T,4,0,0"), (5, 1));
    assert_eq!(refused("P,5,0,1"), (5, 1));
    assert_eq!(refused("P,5,1,0"), (5, 1));
    assert_eq!(refused("P,6,0,0"), (6, 1));
    assert_eq!(refused("P,5,0,0 P,6,0,1"), (6, 2));
    assert_eq!(refused("P,5,0,0 P,6,1,0"), (6, 2));
    assert_eq!(refused("P,7,0,0"), (5, 1));
    // Its own iso may be named, a later one not.
    assert_eq!(refused("T,0,0,0 P,0,0,0 I,0,0 C,0,0 L,0,1,0"), (6, 5));
    assert_eq!(refused("T,0,0,0 P,0,0,0 I,0,0 C,0,0 L,0,0,0"), (23, 3));
    // Without these lines.
    let former = |words: &str| {
        let refusal = check_with(&lines(words), false).err();
        refusal.map(|refusal| (refusal.number, refusal.line))
    };
    assert_eq!(former("T,0,0,0 T,3,0,0"), Some((5, 2)));
    assert_eq!(former("P,5,0,0"), Some((5, 1)));
    assert_eq!(former("P,5,0,0 P,6,0,0"), Some((5, 1)));
    assert_eq!(former("T,0,0,0 P,0,0,0 I,0,0 C,0,0 L,0,0,0"), Some((6, 5)));
}

/// "127 nodes"; "Both P kinds count towards the 40".
#[test]
fn ceilings() {
    let deep = |lists: usize| {
        let types: String = (0..lists).map(|ty| format!(" T,3,{ty},0")).collect();
        format!("T,0,0,0{types} P,1,0,0 I,{lists},{lists} C,0,0")
    };
    assert_eq!(refused(&deep(126)), (0, 0));
    assert_eq!(refused(&deep(127)), (7, 128));
    let long = |elements: usize, end: &str| {
        let above = |place: usize| format!(" P,6,0,{}", 1 + place);
        let patterns: String = (0..elements).map(above).collect();
        format!(
            "T,0,0,0 T,3,0,0 P,0,0,0 {end}{patterns} I,1,1 C,{0},{0}",
            elements + 1
        )
    };
    // 39 elements and an empty list, 40 elements and a variable.
    assert_eq!(refused(&long(39, "P,5,0,0")).0, 13);
    assert_eq!(refused(&long(40, "P,5,0,0")), (7, 44));
    assert_eq!(refused(&long(40, "P,1,0,0")).0, 13);
    assert_eq!(refused(&long(41, "P,1,0,0")), (7, 45));
}

/// "either in a let pattern is 9"; types of lists by their trees.
#[test]
fn shapes_and_types() {
    let head = "T,0,0,0 T,3,0,0 T,3,0,0 T,1,0,0 T,3,3,0 P,0,0,0 P,1,0,0 P,5,0,0 P,6,0,1 P,6,0,2";
    let of = |iso: &str| refused(&format!("{head} {iso} I,4,2 C,0,1 C,2,3 C,4,4 I,1,3"));
    let line = 11;
    // The last iso names all P lines; 8 of it says that what is before it stands.
    assert_eq!(of("I,1,2 C,1,1"), (8, line + 3));
    assert_eq!(of("I,1,1 C,1,1 I,1,1 C,2,1 L,1,0,2"), (9, line + 3));
    assert_eq!(of("I,1,1 C,1,1 I,1,1 C,1,2 L,2,0,1"), (9, line + 3));
    assert_eq!(of("I,1,1 C,1,1 I,1,1 C,3,1 L,1,0,3"), (9, line + 3));
    assert_eq!(of("I,1,4 C,1,1"), (10, line + 1));
    assert_eq!(of("I,4,4 C,3,3"), (10, line + 1));
    assert_eq!(of("I,3,3 C,2,2"), (10, line + 1));
    assert_eq!(of("I,1,1 C,0,0"), (10, line + 1));
    // Empty against an element; nothing else clashes there.
    assert_eq!(of("I,1,1 C,2,2 C,3,3"), (8, line + 4));
    assert_eq!(of("I,1,1 C,2,2 C,2,3"), (8, line + 2));
    assert_eq!(of("I,1,1 C,2,2 C,2,4"), (11, line));
    assert_eq!(of("I,1,1 C,4,2 C,2,2"), (12, line));
    assert_eq!(of("I,1,1 C,2,2"), (13, line));
    assert_eq!(of("I,1,1 C,2,2 C,4,4"), (13, line));
    assert_eq!(of("I,0,1 C,0,2"), (14, line));
}

/// Patterns: 0 unit, 1 to 4 variables 0 to 3, 5 empty, 6 and 7 an element before
/// variable 0 and 1, 8 and 9 one before these, 10 one before empty, 11 and 12 pairs
/// of 6 and 7 with variables 2 and 3, then of variables 2 and 0, 3 and 1, of empty
/// and 2, of 1 and 3, 0 and 2; 18 an element before variable 2.
const UNITS: &str = "T,0,0,0 T,3,0,0 T,2,1,1 P,0,0,0 P,1,0,0 P,1,1,0 P,1,2,0 P,1,3,0 P,5,0,0 \
P,6,0,1 P,6,0,2 P,6,0,6 P,6,0,7 P,6,0,5 P,4,6,3 P,4,7,4 P,4,3,1 P,4,4,2 P,4,5,3 P,4,2,4 P,4,1,3 P,6,0,3";

/// 23 by the document's sentences. Iso 0 gives lists of units back; a last iso
/// names all P lines, and is refused with 8 where the one before it stands.
#[test]
fn the_rule_of_23() {
    let of = |iso: &str| {
        let all: String = (0..9)
            .map(|pair| format!(" C,{},{}", pair * 2, pair * 2 + 1))
            .collect();
        refused(&format!("{UNITS} I,1,1 C,1,1 {iso} I,2,0{all} C,18,18"))
    };
    // Iso 1 stands at line 25, its clauses behind it.
    let line = 25;
    let head = UNITS.split_whitespace().count();
    assert_eq!(head, 22);
    // As written and as turned: what is behind it is looked at.
    let stands = |given: (u8, usize)| given.0 == 8 && given.1 > line + 3;
    assert!(stands(of("I,1,1 C,5,5 C,6,7 L,2,1,1")));
    // As written alone, as turned alone.
    assert!(stands(of("I,1,1 C,5,5 C,6,18 L,2,1,1 L,3,0,2")));
    assert!(stands(of("I,1,1 C,5,5 C,6,18 L,2,0,1 L,3,1,2")));
    // "as the left pattern bound it": used before and behind; bound again.
    assert_eq!(
        of("I,1,1 C,5,5 C,6,6 L,2,0,1 L,3,1,2 L,1,0,3"),
        (23, line + 2)
    );
    assert_eq!(
        of("I,1,1 C,5,5 C,6,6 L,1,0,1 L,1,1,1 L,1,0,1"),
        (23, line + 2)
    );
    // "makes at most one".
    assert_eq!(of("I,1,1 C,6,18 L,2,1,1 L,3,1,2 C,5,5"), (23, line + 1));
    // "on that element's whole tail, a variable".
    assert_eq!(of("I,1,1 C,5,5 C,10,10 C,8,9 L,2,1,1"), (23, line + 3));
    // "each left pattern shows empty or an element there".
    assert_eq!(of("I,1,1 C,5,5 C,6,7 L,2,1,1 C,1,1"), (23, line + 4));
    assert_eq!(of("I,1,1 C,1,2 L,2,1,1"), (23, line + 1));
    // "alone or as the first part of a pair".
    assert!(stands(of("I,2,2 C,15,15 C,11,12 L,16,1,17")));
    assert_eq!(of("I,2,2 C,15,15 C,11,12 L,14,1,13"), (23, line + 2));
}

/// 23 with the I line: the from-type is neither, as it is written.
#[test]
fn from_types_of_23() {
    let head = "T,0,0,0 T,3,0,0 T,2,1,0 T,2,0,1 P,0,0,0 P,1,0,0 P,1,1,0 P,5,0,0 P,6,0,1 P,6,0,2";
    // (list, unit) to the same: a pair of empty or an element, and a unit.
    let pairs = "P,4,3,0 P,4,4,0 P,4,5,0 P,4,1,0 P,4,2,0 P,4,0,3 P,4,0,4 P,4,0,5 P,4,0,1 P,4,0,2";
    let use_all = "I,3,2 C,6,7 C,8,9 C,10,11 C,12,13 C,14,15";
    let of = |iso: &str| refused(&format!("{head} {pairs} {iso} {use_all}"));
    let line = 21;
    // The list is the first part on both sides, or on one of them.
    assert_eq!(of("I,2,2 C,6,6 C,7,8 L,10,0,9"), (8, line + 5));
    assert_eq!(of("I,2,3 C,6,11 C,7,13 L,15,0,9"), (8, line + 5));
    assert_eq!(of("I,3,2 C,11,6 C,12,8 L,10,0,14"), (8, line + 5));
    // On neither.
    assert_eq!(of("I,3,3 C,11,11 C,12,13 L,15,0,14"), (23, line));
    assert_eq!(of("I,0,0 C,0,0 L,0,0,0"), (23, line));
}

/// 24 in request 09: "when the smallest value is over 127 letters".
#[test]
fn a_witness_of_many_letters() {
    // Elements of 63 letters and of 61: two of them are 129 letters and 125.
    let file = |units: usize| {
        let types: String = (0..units).map(|ty| format!(" T,2,0,{ty}")).collect();
        let list = units + 1;
        let words = format!(
            "T,0,0,0{types} T,3,{units},0 P,1,0,0 P,5,0,0 P,6,0,1 I,{list},{list} C,1,1 C,2,2"
        );
        lines(&words)
    };
    for (units, number, length) in [(30, 13, 125), (31, 24, 0)] {
        let file = file(units);
        let known = Known::with(&file, true);
        let line = units + 6;
        let (mut table, mut work) = (vec![7; 20_480], vec![7; 65_536]);
        let mut result = vec![b'x'; 127];
        let given = witness(&known, &mut table, &mut work, &mut result);
        let wanted = Witnessed {
            number,
            line: if number == 24 { 0 } else { line },
            length,
        };
        assert_eq!(given, wanted);
        assert!(result[length..].iter().all(|byte| *byte == b'x'));
        assert!(table.iter().all(|number| *number == 0));
        let refusal = known.checked.err().expect("refused");
        let letters = witness_of(&file, refusal).expect("a value");
        assert_eq!(letters.len(), 4 * units + 5);
    }
    // Byte order: K before N, but fewer letters first.
    let shown = |words: &str| {
        let file = lines(words);
        let refusal = check_with(&file, true).err().expect("refused");
        String::from_utf8(witness_of(&file, refusal).expect("a value")).expect("letters")
    };
    let head = "T,0,0,0 T,1,0,0 T,3,1,0 P,1,0,0 P,5,0,0 P,0,0,0 P,2,2,0 P,6,3,0";
    assert_eq!(shown(&format!("{head} I,2,2 I,2,2 C,0,1 C,4,4")), "N");
    assert_eq!(
        shown(&format!("{head} I,2,2 C,1,1 I,2,2 C,0,1 C,4,4")),
        "KLUN"
    );
    assert_eq!(
        shown(&format!("{head} I,2,2 C,1,1 C,4,4 I,2,2 C,0,1")),
        "KRUN"
    );
    assert_eq!(
        shown(&format!("{head} I,2,2 C,4,4 C,4,4 I,2,2 C,0,1")),
        "KLUN"
    );
}

/// "Reqs 02, 05, 07 and 12 refuse 18 where a type they are given, or a type of the
/// iso or of one it calls, holds a list".
#[test]
fn services_that_refuse_lists() {
    let rules = zones();
    let number = |given: Result<(), Refusal>| given.err().map_or(0, |refusal| refusal.number);
    for (ty, wanted) in [(0, 0), (1, 0), (2, 18), (3, 18), (4, 15)] {
        let value: &[u8] = [&b"U"[..], b"LU", b"N", b"PNLU", b""][ty as usize];
        assert_eq!(number(number_of_rules(&rules, ty, value).map(drop)), wanted);
        assert_eq!(number(setting_of_rules(&rules, ty, 0).map(drop)), wanted);
        let list = b"0,0\n1,1\n";
        let other = if wanted == 0 {
            20 * u8::from(ty == 0)
        } else {
            wanted
        };
        assert_eq!(number(import_rules(&rules, 1, ty, list).map(drop)), other);
        assert_eq!(number(import_rules(&rules, ty, 1, list).map(drop)), other);
        assert_eq!(
            number(play_rules(&rules, &[(ty, 0)], b"", 9).map(drop)),
            wanted
        );
    }
    for (iso, wanted) in [(0, 18), (1, 18), (2, 18), (3, 0), (4, 15)] {
        assert_eq!(number(bounds_rules(&rules, iso).map(drop)), wanted);
        assert_eq!(number(export_rules(&rules, iso, 9).map(drop)), wanted);
    }
    // "a script is tested line by line, on each 22 before 18".
    let play = |script: &str| number(play_rules(&rules, &[(1, 0)], script.as_bytes(), 9).map(drop));
    assert_eq!(play("S,0,3,0\n"), 0);
    assert_eq!(play("S,0,0,0\n"), 18);
    assert_eq!(play("S,0,0,2\n"), 22);
    assert_eq!(play("S,1,0,0\n"), 22);
    assert_eq!(play("S,0,3,0\nS,0,2,1\nS,0,9,0\n"), 18);
    assert_eq!(play("S,0,3,0\nS,0,9,0\nS,0,2,1\n"), 22);
}

/// Request 04 compares lists; a pair against an element is no clash, and nothing
/// below them is compared.
#[test]
fn overlaps_of_lists() {
    let words = "T,0,0,0 T,1,0,0 T,3,1,0 T,2,1,2 P,0,0,0 P,2,0,0 P,3,0,0 P,5,0,0 P,1,0,0 \
P,6,1,3 P,6,2,3 P,6,1,4 P,4,1,3 P,6,1,5 P,6,2,4 P,4,4,3 I,2,2 C,3,3 C,5,5 C,6,6 C,9,9";
    let words = format!("{words} I,3,3 C,8,8 C,11,11 I,2,2 C,7,7 C,10,10");
    // Refused, with the patterns as they are read.
    let reader = apart::lines::read_with(&lines(&words), true).unwrap_or_else(|_| panic!("read"));
    let rules = Rules {
        rows: reader.rows,
        types: reader.types,
        patterns: reader.patterns,
        isos: Vec::new(),
        turned: Vec::new(),
    };
    let of = |one, two| overlap_rules(&rules, one, two).expect("both lines");
    assert_eq!(of(3, 5), (true, 1));
    assert_eq!(of(5, 3), (true, 1));
    assert_eq!(of(3, 3), (false, 1));
    assert_eq!(of(3, 4), (false, 1));
    assert_eq!(of(5, 6), (true, 2));
    assert_eq!(of(5, 5), (false, 4));
    assert_eq!(of(5, 7), (false, 4));
    assert_eq!(of(5, 9), (true, 4));
    assert_eq!(of(5, 8), (false, 1));
    assert_eq!(of(0, 3), (false, 1));
}

/// The table of a file with lists, and its turned file.
#[test]
fn table_and_turned_file() {
    let words = format!("{ZONES} {ISOS}");
    let file = lines(&words);
    let known = Known::with(&file, true);
    let (mut table, mut work) = (vec![7; 20_480], vec![7; 65_536]);
    let mut result = vec![b'x'; 127];
    let query = Query {
        iso: 0,
        back: false,
        budget: 9,
        value: b"KLUN",
    };
    let ran = known.run(&mut table, &mut work, query, &mut result);
    let wanted = Ran {
        number: 0,
        count: 2,
        length: 4,
    };
    assert_eq!((ran, &result[..4]), (wanted, &b"KRUN"[..]));
    assert_eq!(table[10..20], [84, 3, 1, 0, 4, 84, 2, 2, 1, 8]);
    assert_eq!(table[35..40], [80, 5, 0, 0, 1]);
    assert_eq!(table[50..55], [80, 6, 1, 4, 4]);
    let rules = zones();
    let turned = String::from_utf8(turn_rules(&rules)).expect("text");
    assert!(turned.contains("C,9,6\nL,4,0,5\n"), "{turned}");
}

/// The desk program takes these lines where they are switched on.
#[test]
fn the_switch() {
    let input = lines(&format!("{ZONES} {ISOS} Q,0,0,9,KLUN"));
    let printed = String::from_utf8(desk(&input)).expect("text");
    let wanted = if LISTS { "0,0\n0,2,KRUN\n" } else { "5,3\n" };
    assert_eq!(printed, wanted);
}
