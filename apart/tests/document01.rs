//! Every example of document 01, one file for each refusal, pairs of faults,
//! the readings of open points, there and back, turning twice.

use apart::areas::{check_areas, run_areas, turn_areas, Checked, Query, Ran, Turned};
use apart::cover::covers;
use apart::desk::desk;
use apart::tree::{Pattern, Type};
use apart::{check, run, turn};
use std::cmp::Ordering;
use std::rc::Rc;

/// "File S (one line each, parted here by blanks)".
const S: &str = "T,0,0,0 T,1,0,0 T,2,1,1 P,0,0,0 P,2,0,0 P,3,0,0 P,1,0,0 P,1,1,0 \
P,4,1,3 P,4,1,4 P,4,2,3 I,1,1 C,1,2 C,2,1 I,2,2 C,5,6 L,4,0,3 C,7,7";

/// Lines of none of the five forms.
const BAD_LINES: [&str; 33] = [
    "t,0,0,0",
    "X,0,0,0",
    "T,0,0",
    "T,0,0,0,0",
    "T",
    "T,",
    ",0,0,0",
    "T,,0,0",
    "T,0,,0",
    "T,0,0,",
    "T,00,0,0",
    "T,0,01,0",
    "T,+0,0,0",
    "T,-1,0,0",
    "T,65536,0,0",
    "T,0,99999,0",
    "T,0,0,18446744073709551616",
    "TT,0,0,0",
    "\"T\",0,0,0",
    "T;0;0;0",
    "T,0x0,0,0",
    "I,0",
    "I,0,0,0",
    "C,0",
    "C,0,0,0",
    "L,0,0",
    "L,0,0,0,0",
    "P,0,0",
    "T,0,0,0\r\r",
    "T,\0,0,0",
    "T,0,0,0x",
    "T,1e1,0,0",
    "T,\u{0661},0,0",
];

/// Queries of another form.
const BAD_QUERIES: [&str; 23] = [
    "Q,65536,0,1,LU",
    "Q,0,2,1,LU",
    "Q,0,0,4294967296,LU",
    "Q,00,0,1,LU",
    "Q,0,00,1,LU",
    "Q,0,0,01,LU",
    "Q,0,0,1",
    "Q,0,0",
    "Q",
    "Qx,0,0,1,LU",
    "Q ,0,0,1,LU",
    "Q,,0,1,LU",
    "Q,0,,1,LU",
    "Q,0,0,,LU",
    "Q,-0,0,1,LU",
    "Q,0, 0,1,LU",
    "",
    "T,0,0,0",
    "Q;0;0;1;LU",
    "Q,0,01,1,LU",
    "Q,0,0,99999999999999999999999,LU",
    "q,0,0,1,LU",
    ",0,0,1,LU",
];

/// Lines parted by blanks, each given its line feed.
fn file(words: &str) -> Vec<u8> {
    let lines: Vec<String> = words.split_whitespace().map(|w| format!("{w}\n")).collect();
    lines.concat().into_bytes()
}

/// `(number, line)` of the check, `(0, 0)` when accepted.
fn checked(bytes: &[u8]) -> (u8, usize) {
    match check(bytes) {
        Ok(_) => (0, 0),
        Err(refusal) => (refusal.number, refusal.line),
    }
}

fn of(words: &str) -> (u8, usize) {
    checked(&file(words))
}

/// S with one of its lines (from 1) replaced by other lines, or by none.
fn s_with(line: usize, words: &str) -> String {
    let mut lines: Vec<&str> = S.split_whitespace().collect();
    lines[line - 1] = words;
    lines.join(" ")
}

fn printed(words: &str, queries: &str) -> String {
    let input = [file(words), queries.as_bytes().to_vec()].concat();
    String::from_utf8(desk(&input)).unwrap()
}

/// A right-nested sum of `leaves` units and its patterns: T line `leaves - 1`
/// is the type; the P lines of the leaves are returned.
fn wide_sum(leaves: usize) -> (String, Vec<usize>) {
    let mut words = String::from("T,0,0,0");
    for place in 1..leaves {
        words += &format!(" T,1,0,{}", place - 1);
    }
    words += " P,0,0,0 P,2,0,0";
    let mut next = 2;
    let mut names = Vec::new();
    for depth in 0..leaves {
        let last = depth == leaves - 1;
        let mut inner = if last { 0 } else { 1 };
        for _ in 0..depth {
            words += &format!(" P,3,{inner},0");
            inner = next;
            next += 1;
        }
        names.push(inner);
    }
    (words, names)
}

/// A product of so many sums of two units, which is the T line of that number,
/// and the P lines of all its values.
fn bits(count: usize) -> (String, Vec<usize>) {
    let mut words = String::from("T,0,0,0 T,1,0,0");
    for below in 1..count {
        words += &format!(" T,2,1,{below}");
    }
    words += " P,0,0,0 P,2,0,0 P,3,0,0";
    let (mut names, mut next) = (vec![1, 2], 3);
    for _ in 1..count {
        let longer: Vec<String> = [1, 2]
            .into_iter()
            .flat_map(|side| names.iter().map(move |name| format!(" P,4,{side},{name}")))
            .collect();
        words += &longer.concat();
        names = (next..next + longer.len()).collect();
        next += longer.len();
    }
    (words, names)
}

/// A C line for each of the P lines, on both sides.
fn clauses(names: &[usize]) -> String {
    let clauses: Vec<String> = names
        .iter()
        .map(|name| format!(" C,{name},{name}"))
        .collect();
    clauses.concat()
}

/// Lines in chains of 64, of one unit each and 63 pairs or products: the last
/// of each chain has 127 nodes.
fn chains(letter: char, kind: usize, count: usize) -> String {
    let mut words = String::new();
    for unit in (0..count).map(|chain| 64 * chain) {
        words += &format!("{letter},0,0,0 ");
        for below in unit..unit + 63 {
            words += &format!("{letter},{kind},{unit},{below} ");
        }
    }
    words
}

#[test]
fn the_table_of_queries() {
    let queries = [
        ("Q,1,0,9,PLURU", "0,2,PLULU"),
        ("Q,1,1,9,PLULU", "0,2,PLURU"),
        ("Q,1,0,2,PRULU", "0,1,PRULU"),
        ("Q,1,0,2,PLURU", "0,2,PLULU"),
        ("Q,1,0,1,PLURU", "17,0,"),
        ("Q,2,0,9,U", "15,0,"),
        ("Q,1,0,9,PLU", "16,0,"),
    ];
    let mut asked = String::new();
    let mut wanted = String::from("0,0\n");
    for (query, line) in queries {
        assert_eq!(printed(S, &format!("{query}\n")), format!("0,0\n{line}\n"));
        asked += &format!("{query}\n");
        wanted += &format!("{line}\n");
    }
    assert_eq!(printed(S, &asked), wanted);
}

#[test]
fn the_further_examples() {
    assert_eq!(checked(b""), (0, 0));
    assert_eq!(desk(b""), b"0,0\n");
    let turned = String::from_utf8(turn(&file(S)).unwrap()).unwrap();
    let turned: Vec<&str> = turned.lines().collect();
    let own: Vec<&str> = S.split_whitespace().collect();
    assert_eq!(turned[..12], own[..12]);
    assert_eq!(turned[12..14], ["C,2,1", "C,1,2"]);
    assert_eq!(turned[14], "I,2,2");
    assert_eq!(turned[15..], ["C,6,5", "L,3,0,4", "C,7,7"]);
    assert_eq!(of(&s_with(18, "")), (21, 11));
    assert_eq!(of(&s_with(18, "C,7,7 C,7,7")), (11, 15));
    // Request 14: "S with line 17 as L,4,1,3 is now `10,16`".
    assert_eq!(of(&s_with(17, "L,4,1,3")), (10, 16));
    assert_eq!(of(&s_with(17, "L,4,2,3")), (6, 17));
    assert_eq!(of(&s_with(17, "")), (8, 16));
    assert_eq!(of(&s_with(17, "L,4,0,1")), (8, 16));
    let gap = "T,0,0,0 T,1,0,0 P,0,0,0 P,2,0,0 I,0,1 C,0,1";
    assert_eq!(of(gap), (14, 5));
    let seven = "T,0,0,0 T,2,0,0 T,2,1,1 T,2,2,2 T,2,3,3 T,2,4,4 T,2,5,5";
    assert_eq!(of(&format!("{seven} P,1,0,0 I,6,6 C,0,0")), (0, 0));
    assert_eq!(of(seven), (21, 1));
    assert_eq!(of(&format!("{seven} T,2,6,6")), (7, 8));
}

#[test]
fn refusal_2_by_bytes_and_lines() {
    let long = vec![b'x'; 65_536];
    assert_eq!(checked(&long), (3, 1));
    assert_eq!(checked(&[long.clone(), vec![b'x']].concat()), (2, 0));
    assert_eq!(checked(&b"\n".repeat(4_096)), (3, 1));
    assert_eq!(checked(&b"\n".repeat(4_097)), (2, 0));
    let open = [b"\n".repeat(4_096), b"x".to_vec()].concat();
    assert_eq!(checked(&open), (2, 0));
    assert_eq!(checked(&open[1..]), (3, 1));
}

#[test]
fn four_thousand_and_ninety_six_lines() {
    // Thirteen isos of 32 clauses, with as many let steps of the unit type
    // as fill the file.
    let (mut words, names) = wide_sum(32);
    words += " I,0,0 C,0,0";
    let mut spare = 4_096 - words.split_whitespace().count() - 13 * 33;
    for _ in 0..13 {
        words += " I,31,31";
        for name in &names {
            let lets = spare.min(8);
            spare -= lets;
            words += &format!(" C,{name},{name}");
            words += &" L,0,0,0".repeat(lets);
        }
    }
    assert_eq!(words.split_whitespace().count(), 4_096);
    assert_eq!(of(&words), (0, 0));
    assert_eq!(of(&format!("{words} C,0,0")), (2, 0));
    let (mut table, mut work, _) = areas();
    let answer = check_areas(&file(&words), &mut table, &mut work);
    assert_eq!(answer, Checked { number: 0, line: 0 });
    assert_eq!(
        table[20_475..20_481],
        [
            67,
            u16::try_from(names[31]).unwrap(),
            u16::try_from(names[31]).unwrap(),
            0,
            0,
            7
        ]
    );
}

#[test]
fn refusal_3_by_form() {
    for line in BAD_LINES {
        let bytes = format!("T,0,0,0\n{line}\n");
        assert_eq!(checked(bytes.as_bytes()), (3, 2), "{line:?}");
    }
    for line in [
        "T,0,0, 0",
        " T,0,0,0",
        "T,0,0,0 ",
        "T ,0,0,0",
        "T,0,\t0,0",
        "",
    ] {
        let bytes = format!("T,0,0,0\n{line}\n");
        assert_eq!(checked(bytes.as_bytes()), (3, 2), "{line:?}");
    }
    assert_eq!(checked(b"\n"), (3, 1));
    assert_eq!(checked(b"T,0,0,0"), (3, 1));
    assert_eq!(checked(b"T,0,0,0\nT,0,0,0"), (3, 2));
    assert_eq!(checked(b"T,0,0,0\r\n"), (21, 1));
    assert_eq!(checked(b"T,0,0,0\r\r\n"), (3, 1));
    assert_eq!(checked(b"T,0,0,0\r"), (3, 1));
    assert_eq!(checked(b"T,7,0,0\nT,0,0,0"), (5, 1));
    assert_eq!(of("T,65535,0,0"), (5, 1));
}

#[test]
fn refusal_4_by_the_lines_above() {
    assert_eq!(of("P,0,0,0 T,0,0,0"), (4, 2));
    assert_eq!(of("T,0,0,0 I,0,0 T,0,0,0"), (4, 3));
    assert_eq!(of("T,0,0,0 I,0,0 P,0,0,0"), (4, 3));
    assert_eq!(of("T,0,0,0 P,0,0,0 I,0,0 C,0,0 P,0,0,0"), (4, 5));
    assert_eq!(of("T,0,0,0 P,0,0,0 I,0,0 C,0,0 T,0,0,0"), (4, 5));
    assert_eq!(of("T,0,0,0 P,0,0,0 C,0,0"), (4, 3));
    assert_eq!(of("C,0,0"), (4, 1));
    assert_eq!(of("L,0,0,0"), (4, 1));
    assert_eq!(of("T,0,0,0 P,0,0,0 I,0,0 L,0,0,0"), (4, 4));
    assert_eq!(of("T,0,0,0 P,0,0,0 L,0,0,0"), (4, 3));
    assert_eq!(of("I,0,0"), (6, 1));
    assert_eq!(
        of("T,0,0,0 P,0,0,0 I,0,0 I,0,0 C,0,0 L,0,0,0 L,0,0,0"),
        (13, 3)
    );
}

#[test]
fn refusal_5_by_kind_idle_and_variable() {
    for line in ["T,4,0,0", "T,0,1,0", "T,0,0,1", "T,3,0,1", "T,3,9,9"] {
        assert_eq!(of(&format!("T,0,0,0 {line}")), (5, 2), "{line}");
    }
    for line in [
        "P,5,0,1", "P,0,1,0", "P,0,0,1", "P,1,32,0", "P,1,0,1", "P,2,0,1", "P,3,0,1", "P,9,9,9",
        "P,5,1,0", "P,7,0,0",
    ] {
        assert_eq!(of(&format!("P,0,0,0 {line}")), (5, 2), "{line}");
    }
    assert_eq!(of("P,1,31,0"), (21, 1));
    assert_eq!(of("T,0,0,0 P,1,31,0 I,0,0 C,0,0"), (0, 0));
}

#[test]
fn refusal_6_by_name() {
    for words in ["T,1,0,0", "T,2,0,0", "P,2,0,0", "P,3,0,0", "P,4,0,0"] {
        assert_eq!(of(words), (6, 1), "{words}");
    }
    for line in ["T,1,0,1", "T,1,1,0", "T,2,0,1", "T,2,1,0", "I,0,1", "I,1,0"] {
        assert_eq!(of(&format!("T,0,0,0 {line}")), (6, 2), "{line}");
    }
    for line in ["P,4,0,1", "P,4,1,0", "P,2,1,0", "P,3,1,0"] {
        assert_eq!(of(&format!("P,0,0,0 {line}")), (6, 2), "{line}");
    }
    let one = "T,0,0,0 P,0,0,0 I,0,0 C,0,0 I,0,0";
    assert_eq!(of(&format!("{one} C,0,1")), (6, 6));
    assert_eq!(of(&format!("{one} C,1,0")), (6, 6));
    for line in ["L,1,0,0", "L,0,0,1", "L,0,2,0", "L,0,65535,0"] {
        assert_eq!(of(&format!("{one} C,0,0 {line}")), (6, 7), "{line}");
    }
    assert_eq!(of(&format!("{one} C,0,0 L,0,0,0")), (0, 0));
    // Request 14: "An L line may name its own iso".
    assert_eq!(of(&format!("{one} C,0,0 L,0,1,0")), (23, 5));
    assert_eq!(of("T,0,0,0 P,0,0,0 I,0,0 C,0,0 L,0,0,0"), (23, 3));
}

#[test]
fn refusal_7_by_counts() {
    // Lines that nothing uses are read to the end.
    assert_eq!(of(&"T,0,0,0 ".repeat(256)), (21, 1));
    assert_eq!(of(&"T,0,0,0 ".repeat(257)), (7, 257));
    assert_eq!(of(&"P,0,0,0 ".repeat(1_024)), (21, 1));
    assert_eq!(of(&"P,0,0,0 ".repeat(1_025)), (7, 1_025));
    let types = chains('T', 2, 4) + "P,1,0,0";
    let isos = [63, 127, 191, 255].map(|ty| format!(" I,{ty},{ty} C,0,0"));
    assert_eq!(of(&(types + &isos.concat())), (0, 0));
    let patterns = chains('T', 2, 1) + &chains('P', 4, 16);
    let isos: Vec<String> = (0..16)
        .map(|chain| format!("I,63,63{} ", clauses(&[64 * chain + 63])))
        .collect();
    assert_eq!(of(&(patterns + &isos.concat())), (0, 0));
    let start = "T,0,0,0 P,0,0,0 ";
    let iso = "I,0,0 C,0,0 ";
    assert_eq!(of(&format!("{start}{}", iso.repeat(32))), (0, 0));
    assert_eq!(of(&format!("{start}{}", iso.repeat(33))), (7, 67));
    let more = |count: usize| format!("{start}{iso}{iso}{}", "L,0,0,0 ".repeat(count));
    assert_eq!(of(&more(8)), (0, 0));
    assert_eq!(of(&more(9)), (7, 15));
    assert_eq!(
        of(&format!("{}C,0,0 {}", more(8), "L,0,0,0 ".repeat(8))),
        (11, 5)
    );
}

/// Request 13: "128 clauses an iso instead of 32".
#[test]
fn refusal_7_by_clauses() {
    for count in [32, 33, 40, 41] {
        let (words, names) = wide_sum(count);
        let ty = count - 1;
        let full = format!("{words} I,{ty},{ty}{}", clauses(&names));
        assert_eq!(of(&full), (0, 0), "{count}");
    }
    let (words, names) = bits(7);
    assert_eq!(names.len(), 128);
    let full = format!("{words} I,7,7{}", clauses(&names));
    assert_eq!(of(&full), (0, 0));
    let lines = full.split_whitespace().count();
    assert_eq!(of(&format!("{full} C,0,0")), (7, lines + 1));
    assert_eq!(of(&format!("{full} I,0,0 C,0,0")), (0, 0));
    // One value left out, one twice, and a fault in the last clause.
    let most = format!("{words} I,7,7{}", clauses(&names[..127]));
    let (line, last) = (lines - 128, names[127]);
    let used = format!(" I,7,7 C,{last},{last}");
    assert_eq!(of(&(most.clone() + &used)), (13, line));
    assert_eq!(
        of(&format!("{most} C,{0},{last}{used}", names[0])),
        (11, line)
    );
    assert_eq!(
        of(&format!("{most} C,{last},{0}{used}", names[0])),
        (12, line)
    );
    assert_eq!(of(&format!("{most} C,{last},0{used}")), (10, lines));
}

/// Forty left and right nodes one below the other, as P line 40, and the 41
/// values of a type that has this one.
fn forty_sides() -> (String, Vec<usize>) {
    let side = |place: usize| 2 + place % 2;
    let mut types = String::from("T,0,0,0");
    let mut patterns = String::from(" P,0,0,0");
    for below in 0..40 {
        let [left, right] = if below % 2 == 0 {
            [below, 0]
        } else {
            [0, below]
        };
        types += &format!(" T,1,{left},{right}");
        patterns += &format!(" P,{},{below},0", side(below));
    }
    let (mut names, mut next) = (vec![40], 41);
    for other in 0..40 {
        patterns += &format!(" P,{},0,0", 5 - side(other));
        for above in other + 1..40 {
            patterns += &format!(" P,{},{next},0", side(above));
            next += 1;
        }
        names.push(next);
        next += 1;
    }
    (types + &patterns, names)
}

#[test]
fn refusal_7_by_trees() {
    let doubled = |letter: char, kind: usize| {
        let more: Vec<String> = (0..6)
            .map(|below| format!(" {letter},{kind},{below},{below}"))
            .collect();
        format!("{letter},0,0,0{}", more.concat())
    };
    let (products, pairs) = (doubled('T', 2), doubled('P', 4));
    assert_eq!(of(&format!("{products} {pairs} I,6,6 C,6,6")), (0, 0));
    let both = format!("{products} T,2,0,5 {pairs} P,4,0,5");
    assert_eq!(of(&format!("{both} I,6,6 C,6,6 I,7,7 C,7,7")), (0, 0));
    assert_eq!(of(&format!("{pairs} P,2,6,0")), (7, 8));
    assert_eq!(of(&format!("{pairs} P,4,0,5")), (21, 1));
    assert_eq!(of(&format!("{pairs} P,4,0,6")), (7, 8));
    let sums = doubled('T', 1);
    assert_eq!(of(&format!("{sums} P,1,0,0 I,6,6 C,0,0")), (0, 0));
    assert_eq!(of(&format!("{sums} T,1,0,6")), (7, 8));
    assert_eq!(of(&format!("{sums} T,1,6,6")), (7, 8));
    let (words, names) = forty_sides();
    assert_eq!(of(&format!("{words} I,40,40{}", clauses(&names))), (0, 0));
    let mut deep = String::from("P,0,0,0");
    for place in 0..40 {
        deep += &format!(" P,{},{place},0", 2 + place % 2);
    }
    assert_eq!(of(&deep), (21, 1));
    assert_eq!(of(&format!("{deep} P,4,40,0")), (21, 1));
    assert_eq!(of(&format!("{deep} P,3,40,0")), (7, 42));
    assert_eq!(of(&format!("{deep} P,4,20,20 P,4,20,21")), (7, 43));
    assert_eq!(of(&format!("{deep} P,4,40,1")), (7, 42));
}

/// Unit, a sum of two units, its pairs, and patterns: 0 unit, 1 x0, 2 x1, 3 left
/// unit, 4 right unit, 5 pair x0 x1, 6 pair x0 x0, 7 pair x1 x0, 8 left x0, 9
/// right x0.
const HEAD: &str = "T,0,0,0 T,1,0,0 T,2,1,1 P,0,0,0 P,1,0,0 P,1,1,0 P,2,0,0 P,3,0,0 P,4,1,2 \
P,4,1,1 P,4,2,1 P,2,1,0 P,3,1,0 ";

/// The answer to `HEAD` and isos behind it of which one is refused: a last iso
/// names all P lines, and is not looked at.
fn headed(isos: &str) -> (u8, usize) {
    of(&format!(
        "{HEAD} {isos} I,2,2 C,0,1 C,2,3 C,4,5 C,6,7 C,8,9"
    ))
}

#[test]
fn refusal_8_by_variables() {
    let swap = "I,1,1 C,3,4 C,4,3";
    for clause in [
        "C,6,6", // bound twice, used twice
        "C,5,6", // x0 used twice, x1 not used
        "C,6,5", // x0 bound twice
        "C,1,2", // x1 not bound
        "C,0,1", "C,1,0", "C,5,1",
    ] {
        assert_eq!(
            headed(&format!("{swap} I,2,2 {clause}")),
            (8, 18),
            "{clause}"
        );
    }
    for (clause, number) in [
        ("C,1,1 L,2,0,1", 8), // used twice, x1 not used
        ("C,1,2 L,2,0,2", 8), // used before bound
        ("C,1,2 L,1,0,2 L,2,0,1", 8),
        ("C,1,2 L,2,0,1 L,2,0,1", 8),
        ("C,1,1 L,0,0,0", 10), // variables hold, types do not
    ] {
        let given = headed(&format!("{swap} I,1,1 {clause}"));
        assert_eq!(given, (number, 18), "{clause}");
    }
    // The first P lines of `HEAD`, each used.
    let first = "T,0,0,0 T,1,0,0 P,0,0,0 P,1,0,0 P,1,1,0 P,2,0,0 P,3,0,0";
    for clause in [
        "C,1,1 L,1,0,1",         // request 03: a used-up number is bound again
        "C,1,2 L,2,0,1",         // sent through
        "C,1,1 L,2,0,1 L,1,0,2", // request 03: and by a later line
    ] {
        let file = format!("{first} {swap} I,1,1 C,1,1 I,1,1 C,2,2 I,1,1 {clause}");
        assert_eq!(of(&file), (0, 0), "{clause}");
    }
}

#[test]
fn refusal_9_by_let_shape() {
    let sum = "I,1,1 C,3,4 C,4,3 I,0,1";
    assert_eq!(headed(&format!("{sum} C,1,2 L,2,0,8")), (9, 18));
    assert_eq!(headed(&format!("{sum} C,1,2 L,9,0,1")), (8, 18));
    assert_eq!(headed(&format!("{sum} C,0,1 L,1,0,3")), (9, 18));
    assert_eq!(headed(&format!("{sum} C,1,0 L,3,0,1")), (9, 18));
    // below a pair as well
    let deep = "T,0,0,0 T,1,0,0 T,2,1,1 P,0,0,0 P,2,0,0 P,1,0,0 P,1,1,0 P,4,1,2 \
I,2,2 C,2,2 I,1,2 C,2,3 L,3,0,4";
    assert_eq!(of(deep), (9, 12));
}

#[test]
fn refusal_10_by_types() {
    let swap = "I,1,1 C,3,4 C,4,3";
    for (iso, clause) in [
        ("I,1,0", "C,1,1"),
        ("I,1,1", "C,0,3"),
        ("I,0,0", "C,3,0"),
        ("I,1,2", "C,5,5"),
        ("I,2,1", "C,5,5"),
        ("I,0,0", "C,1,2 L,2,0,1"),
        ("I,2,2", "C,1,2 L,2,0,1"),
        ("I,2,1", "C,5,2 L,0,0,1"),
    ] {
        let given = headed(&format!("{swap} {iso} {clause}"));
        assert_eq!(given, (10, 18), "{clause}");
    }
    // "Types compared by line number" is a wrong reading.
    let twice = "T,0,0,0 T,0,0,0 T,1,0,1 T,1,1,0 P,1,0,0 I,2,3 C,0,0";
    assert_eq!(of(twice), (0, 0));
    let chained = "T,0,0,0 T,0,0,0 T,1,0,1 T,1,1,0 P,1,0,0 P,1,1,0 I,2,3 C,0,0 I,3,2 C,0,1 L,1,0,0";
    assert_eq!(of(chained), (0, 0));
    // unlike sums are not the same
    let unlike = "T,0,0,0 T,1,0,0 T,1,1,0 T,1,0,1 P,1,0,0 I,2,3 C,0,0";
    assert_eq!(of(unlike), (10, 7));
}

#[test]
fn refusals_11_to_14() {
    let iso = "I,1,1";
    assert_eq!(headed(&format!("{iso} C,3,3 C,3,4")), (11, 14));
    assert_eq!(headed(&format!("{iso} C,3,3 C,4,3")), (12, 14));
    assert_eq!(headed(&format!("{iso} C,1,1 C,4,4")), (11, 14));
    assert_eq!(headed(&format!("{iso} C,3,3")), (13, 14));
    assert_eq!(headed(iso), (13, 14));
    assert_eq!(headed("I,0,1 C,0,3"), (14, 14));
    assert_eq!(headed("I,0,1 C,0,3 C,0,4"), (11, 14));
    assert_eq!(headed("I,1,0 C,3,0 C,4,0"), (12, 14));
    assert_eq!(headed("I,0,0"), (13, 14));
    // a variable of unit type overlaps the unit pattern
    assert_eq!(headed("I,0,0 C,0,0 C,1,1"), (11, 14));
    // an earlier iso goes first, whole
    assert_eq!(headed(&format!("{iso} C,3,3 I,1,1 C,1,2")), (13, 14));
    assert_eq!(headed(&format!("{iso} C,3,3 C,3,4 C,1,2")), (8, 17));
}

/// Three sums: the five patterns that no splitting of one part alone gives.
fn cyclic(names: &str) -> String {
    let head = "T,0,0,0 T,1,0,0 T,2,1,1 T,2,1,2 P,0,0,0 P,1,0,0 P,2,0,0 P,3,0,0 \
P,4,3,1 P,4,2,4 P,4,2,3 P,4,1,6 P,4,1,2 P,4,3,8 P,4,2,2 P,4,2,10 P,4,3,3 P,4,3,12";
    // 5 (L,R,x) 7 (x,L,R) 9 (R,x,L) 11 (L,L,L) 13 (R,R,R)
    format!("{head} I,3,3 {names}")
}

#[test]
fn covering_is_by_closed_values() {
    let all = "C,5,5 C,7,7 C,9,9 C,11,11 C,13,13";
    assert_eq!(of(&cyclic(all)), (0, 0));
    for gone in ["C,5,5", "C,7,7", "C,9,9", "C,11,11", "C,13,13"] {
        // A last iso uses its lines.
        let fewer = format!("{} I,3,3 {gone}", all.replace(gone, ""));
        assert_eq!(of(&cyclic(&fewer)), (13, 19), "{gone}");
    }
    assert_eq!(of(&cyclic("C,5,7 C,7,9 C,9,5 C,11,13 C,13,11")), (0, 0));
    assert_eq!(of(&cyclic("C,5,7 C,7,9 C,9,7 C,11,13 C,13,11")), (12, 19));
}

#[test]
fn pairs_of_faults_in_both_orders() {
    // on one line the lowest
    assert_eq!(of("P,0,0,0 T,9,9,9"), (4, 2));
    assert_eq!(of("P,0,0,0 T,1,9,9"), (4, 2));
    assert_eq!(of("T,1,9,9"), (6, 1));
    assert_eq!(of("P,2,9,9"), (5, 1));
    assert_eq!(of("P,0,0,0 T,00,0,0"), (3, 2));
    assert_eq!(
        of(&format!("{}T,1,0,256", "T,0,0,0 ".repeat(256))),
        (6, 257)
    );
    assert_eq!(of(&format!("{}T,0,0,1", "T,0,0,0 ".repeat(256))), (5, 257));
    assert_eq!(
        of(&format!("{}P,2,1024,0", "P,0,0,0 ".repeat(1_024))),
        (6, 1_025)
    );
    // two lines: the first
    assert_eq!(of("T,1,0,0 x"), (6, 1));
    assert_eq!(of("x T,1,0,0"), (3, 1));
    assert_eq!(of("T,7,0,0 x P,1,77,0"), (5, 1));
    assert_eq!(of(&format!("{}x", "T,0,0,0 ".repeat(257))), (7, 257));
    assert_eq!(of(&format!("x {}", "T,0,0,0 ".repeat(257))), (3, 1));
}

#[test]
fn pairs_of_faults_in_clauses_and_isos() {
    // a line fault goes before every clause and iso fault
    assert_eq!(of(&format!("{HEAD} I,1,1 C,3,3 x")), (3, 16));
    assert_eq!(of(&format!("{HEAD} I,1,1 C,1,2 I,1,99")), (6, 16));
    // clauses: 8 in a later clause goes before 11 to 14 of the same iso
    assert_eq!(headed("I,1,1 C,3,3 C,3,3 C,1,2"), (8, 17));
    assert_eq!(headed("I,1,1 C,0,0 C,1,2"), (10, 15));
    assert_eq!(headed("I,1,1 C,1,2 C,0,0"), (8, 15));
    // isos: the lowest of 11 to 14
    assert_eq!(headed("I,1,1 C,3,3 C,3,3"), (11, 14));
    assert_eq!(headed("I,2,1 C,5,5"), (10, 15));
    let four = |isos: &str| {
        let head = "T,0,0,0 T,1,0,0 T,1,1,1 P,0,0,0 P,2,0,0 P,3,0,0 P,2,1,0 P,2,2,0 P,3,1,0";
        of(&format!("{head} {isos} I,2,2 C,0,1 C,2,3 C,4,5"))
    };
    assert_eq!(four("I,2,2 C,3,3 C,4,3"), (12, 10));
    assert_eq!(four("I,2,2 C,3,3 C,4,4"), (13, 10));
    assert_eq!(four("I,1,2 C,1,3 C,2,4"), (14, 10));
    assert_eq!(four("I,1,2 C,1,3"), (13, 10));
    // isos one by one
    assert_eq!(four("I,1,2 C,1,3 I,1,1 C,0,0"), (13, 10));
    assert_eq!(four("I,1,1 C,0,0 I,1,2 C,1,3"), (10, 11));
}

/// Request 11: 21 comes "after 7 for the whole file and before 8", "at the first
/// such line".
#[test]
fn idle_lines_before_and_behind_other_faults() {
    let unit = "T,0,0,0 P,0,0,0 I,0,0 C,0,0";
    assert_eq!(of(unit), (0, 0));
    // T and P lines, named by nothing and by idle lines alone.
    assert_eq!(of("T,0,0,0 T,0,0,0 P,0,0,0 I,0,0 C,0,0"), (21, 2));
    assert_eq!(of("T,0,0,0 T,0,0,0 P,0,0,0 I,1,1 C,0,0"), (21, 1));
    assert_eq!(of("T,0,0,0 P,0,0,0 P,2,0,0 I,0,0 C,0,0"), (21, 3));
    assert_eq!(of("T,0,0,0 T,0,0,0 T,1,1,0 P,0,0,0 I,0,0 C,0,0"), (21, 2));
    assert_eq!(of("T,0,0,0 P,0,0,0 P,1,7,0 P,3,1,0 I,0,0 C,0,0"), (21, 3));
    // Used by an L line alone, from an iso that is at fault.
    assert_eq!(of(&format!("{unit} I,0,0 C,0,0 L,0,0,0")), (0, 0));
    let lets = "T,0,0,0 P,0,0,0 P,0,0,0 P,0,0,0 I,0,0 C,0,0 I,0,0 C,0,0";
    assert_eq!(of(&format!("{lets} L,1,0,2")), (0, 0));
    assert_eq!(of(&format!("{lets} L,1,0,0")), (21, 4));
    assert_eq!(of(&format!("{lets} L,0,0,2")), (21, 3));
    // 3 to 7 on any line go first, 8 to 14 come behind.
    let idle = "T,0,0,0 T,1,0,0 P,0,0,0 P,1,0,0 P,1,1,0 P,2,0,0";
    let nine = format!("I,0,0 C,0,0 I,0,0 C,0,0{}", " L,0,0,0".repeat(9));
    for (isos, wanted) in [
        ("x", (3, 7)),
        ("T,0,0,0", (4, 7)),
        ("P,9,0,0", (5, 7)),
        ("I,0,2", (6, 7)),
        (&nine, (7, 19)),
        ("I,1,1 C,0,1", (21, 5)),
        ("I,1,1 C,1,1 I,0,1 C,0,1 L,1,0,3", (21, 5)),
        ("I,1,1 C,0,0", (21, 4)),
        ("I,1,1 C,3,3 C,3,3", (21, 4)),
        ("I,1,1 C,3,3 C,1,1", (21, 5)),
        ("I,1,1", (21, 3)),
    ] {
        assert_eq!(of(&format!("{idle} {isos}")), wanted, "{isos}");
    }
}

#[test]
fn the_run_in_its_order() {
    let bytes = file(S);
    let number = |iso, back, budget, value: &[u8]| match run(&bytes, iso, back, budget, value) {
        Ok(_) => 0,
        Err(refusal) => refusal.number,
    };
    assert_eq!(number(2, false, 0, b"x"), 15);
    assert_eq!(number(65_535, true, 0, b"x"), 15);
    assert_eq!(number(1, false, 0, b"x"), 16);
    assert_eq!(number(1, false, 0, b"PLULU"), 17);
    assert_eq!(number(0, false, 0, b"LU"), 17);
    assert_eq!(number(0, false, 1, b"LU"), 0);
    for value in ["", "U", "L", "LUU", "LL", "PLU", "lU", "LU,", "LU ", "\0"] {
        assert_eq!(number(0, false, 9, value.as_bytes()), 16, "{value:?}");
    }
    assert_eq!(number(0, false, 9, &[b'P'; 5_000]), 16);
    let refused = run(&file("x"), 9, false, 0, b"x").unwrap_err();
    assert_eq!((refused.number, refused.line), (3, 1));
}

#[test]
fn the_starting_type_of_a_run_back_is_the_to_type() {
    let words = "T,0,0,0 T,1,0,0 T,2,0,1 P,0,0,0 P,1,0,0 P,4,0,1 I,1,2 C,1,2";
    let asked = "Q,0,0,1,LU\nQ,0,1,1,PULU\nQ,0,1,1,LU\nQ,0,0,1,PULU\n";
    let wanted = "0,0\n0,1,PULU\n0,1,LU\n16,0,\n16,0,\n";
    assert_eq!(printed(words, asked), wanted);
}

/// Iso 0 exchanges two units; iso k sends its value through iso k - 1 twice.
fn tower(height: usize) -> String {
    let mut words = String::from(
        "T,0,0,0 T,1,0,0 P,0,0,0 P,2,0,0 P,3,0,0 P,1,0,0 P,1,1,0 P,1,2,0 I,1,1 C,1,2 C,2,1",
    );
    for below in 0..height {
        words += &format!(" I,1,1 C,3,5 L,4,{below},3 L,5,{below},4");
    }
    words
}

#[test]
fn the_count_of_a_tower() {
    let bytes = file(&tower(31));
    assert_eq!(run(&bytes, 3, false, 15, b"LU"), Ok((15, b"LU".to_vec())));
    assert_eq!(run(&bytes, 3, false, 14, b"LU").unwrap_err().number, 17);
    assert_eq!(run(&bytes, 3, true, 15, b"RU"), Ok((15, b"RU".to_vec())));
    assert_eq!(run(&bytes, 0, true, 15, b"RU"), Ok((1, b"LU".to_vec())));
    assert_eq!(run(&bytes, 31, true, 1_000, b"RU").unwrap_err().number, 17);
}

#[test]
fn the_let_steps_of_a_run_back_are_last_to_first() {
    // Three values a, b, c in a round; iso 0 goes a to b to c to a, iso 1
    // exchanges a and b; iso 2 does iso 0 and then iso 1.
    let words = "T,0,0,0 T,1,0,0 T,1,0,1 P,0,0,0 P,2,0,0 P,3,0,0 P,3,1,0 P,3,2,0 \
P,1,0,0 P,1,1,0 P,1,2,0 I,2,2 C,1,3 C,3,4 C,4,1 I,2,2 C,1,3 C,3,1 C,4,4 \
I,2,2 C,5,7 L,6,0,5 L,7,1,6";
    let asked = "Q,2,0,3,LU\nQ,2,0,3,RLU\nQ,2,0,3,RRU\nQ,2,1,3,LU\nQ,2,1,3,RRU\nQ,2,1,3,RLU\n";
    let wanted = "0,0\n0,3,LU\n0,3,RRU\n0,3,RLU\n0,3,LU\n0,3,RLU\n0,3,RRU\n";
    assert_eq!(printed(words, asked), wanted);
}

#[test]
fn there_and_back_and_turning_twice() {
    let files = [
        S.to_string(),
        tower(5),
        cyclic("C,5,7 C,7,9 C,9,5 C,11,13 C,13,11"),
    ];
    for words in &files {
        let bytes = file(words);
        let turned = turn(&bytes).unwrap();
        assert_eq!(turned.len(), bytes.len());
        assert_eq!(turn(&turned).unwrap(), bytes);
        for iso in 0..6 {
            for value in [
                "LU", "RU", "PLURU", "PLULU", "PRULU", "PLUPRULU", "PRUPRURU",
            ] {
                there_and_back(&bytes, &turned, iso, value.as_bytes());
            }
        }
    }
}

fn there_and_back(bytes: &[u8], turned: &[u8], iso: u16, value: &[u8]) {
    let Ok((count, given)) = run(bytes, iso, false, 10_000, value) else {
        return;
    };
    assert_eq!(
        run(bytes, iso, true, 10_000, &given),
        Ok((count, value.to_vec()))
    );
    assert_eq!(
        run(turned, iso, false, 10_000, &given),
        Ok((count, value.to_vec()))
    );
    assert_eq!(run(turned, iso, true, 10_000, value), Ok((count, given)));
}

#[test]
fn a_variable_may_wait_and_order_of_lets_counts() {
    // q and p hold pairs; a unit goes in, a unit comes out.
    let words = "T,0,0,0 T,1,0,0 T,2,1,0 P,0,0,0 P,1,0,0 P,1,1,0 P,1,2,0 P,4,1,0 P,4,2,0 P,4,2,1 \
P,4,1,2 P,4,3,1 T,9,9,9";
    assert_eq!(of(words), (4, 13));
    let words = "T,0,0,0 T,1,0,0 T,2,1,0 T,2,1,1 P,0,0,0 P,1,0,0 P,1,1,0 P,1,2,0 P,4,1,0 P,4,3,0 \
P,4,1,2 P,4,2,3 I,2,2 C,4,4 I,3,3 C,6,7 L,5,0,4";
    assert_eq!(printed(words, "Q,1,0,2,PLURU\n"), "0,0\n0,2,PRULU\n");
}

#[test]
fn the_desk_readings() {
    assert_eq!(desk(b"Q,0,0,0,\n"), b"0,0\n15,0,\n");
    assert_eq!(desk(b"Q"), b"0,0\n3,0,\n");
    assert_eq!(desk(b"Q\n\nx\nQ,0,0,0"), b"0,0\n3,0,\n3,0,\n3,0,\n3,0,\n");
    assert_eq!(desk(b"x\nQ,0,0,0,\n"), b"3,1\n");
    assert_eq!(desk(b"T,0,0,0"), b"3,1\n");
    assert_eq!(desk(&vec![b'x'; 65_537]), b"2,0\n");
    let long = [vec![b'x'; 65_537], b"\nQ,0,0,0,\n".to_vec()].concat();
    assert_eq!(desk(&long), b"2,0\n");
    for query in BAD_QUERIES {
        let asked = format!("Q,0,0,1,LU\n{query}\nQ,0,0,1,RU\n");
        assert_eq!(printed(S, &asked), "0,0\n0,1,RU\n3,0,\n0,1,LU\n", "{query}");
    }
    let asked = "Q,0,0,4294967295,LU\nQ,0,0,1,\nQ,0,0,1,,\nQ,0,0,1,LU,\nQ,0,0,1,\0\nQ,0,0,1,LU\r\nQ,65535,1,0,\n";
    let wanted = "0,0\n0,1,RU\n16,0,\n16,0,\n16,0,\n16,0,\n0,1,RU\n15,0,\n";
    assert_eq!(printed(S, asked), wanted);
    let at = format!("Q,0,0,1,{}\n", "U".repeat(191));
    assert_eq!(at.len(), 200);
    assert_eq!(printed(S, &at), "0,0\n16,0,\n");
    let over = format!("Q,0,0,1,{}\n", "U".repeat(192));
    assert_eq!(printed(S, &over), "0,0\n3,0,\n");
    assert_eq!(printed(S, "Q,0,0,1,LU"), "0,0\n3,0,\n");
}

/// Areas longer than stated, filled with what is not zero.
fn areas() -> (Vec<u16>, Vec<u8>, Vec<u8>) {
    (vec![7; 20_490], vec![8; 65_540], vec![9; 70_000])
}

#[test]
fn the_areas_of_an_accepted_file() {
    let bytes = file(S);
    let (mut table, mut work, _) = areas();
    let answer = check_areas(&bytes, &mut table, &mut work);
    assert_eq!(answer, Checked { number: 0, line: 0 });
    assert_eq!(table[..10], [84, 0, 0, 0, 1, 84, 1, 0, 0, 3]);
    assert_eq!(table[10..15], [84, 2, 1, 1, 7]);
    assert_eq!(table[40..45], [80, 4, 1, 3, 4]);
    assert_eq!(table[55..65], [73, 1, 1, 0, 0, 67, 1, 2, 0, 0]);
    assert_eq!(table[80..90], [76, 4, 0, 3, 0, 67, 7, 7, 0, 0]);
    assert!(table[90..20_480].iter().all(|number| *number == 0));
    assert!(table[20_480..].iter().all(|number| *number == 7));
    assert!(work[..65_536].iter().all(|byte| *byte == 0));
    assert!(work[65_536..].iter().all(|byte| *byte == 8));
}

#[test]
fn the_areas_of_turn_and_run() {
    let bytes = file(S);
    let (mut table, mut work, mut output) = areas();
    check_areas(&bytes, &mut table, &mut work);
    let held = table.clone();
    let length = bytes.len();
    let answer = turn_areas(&bytes, &mut table, &mut work, &mut output);
    assert_eq!(
        answer,
        Turned {
            number: 0,
            line: 0,
            length
        }
    );
    assert_eq!(output[..length], turn(&bytes).unwrap());
    assert!(output[length..].iter().all(|byte| *byte == 9));
    assert_eq!(table, held);
    let query = Query {
        iso: 1,
        back: true,
        budget: 2,
        value: b"PLULU",
    };
    let mut result = vec![9; 130];
    let answer = run_areas(&bytes, &mut table, &mut work, query, &mut result);
    assert_eq!(
        answer,
        Ran {
            number: 0,
            count: 2,
            length: 5
        }
    );
    assert_eq!(&result[..6], b"PLURU\x09");
    assert_eq!(table, held);
}

#[test]
fn the_areas_of_a_refused_run() {
    let bytes = file(S);
    for (iso, budget, value, number) in [(2, 9, "U", 15), (1, 9, "U", 16), (1, 1, "PLULU", 17)] {
        let (mut table, mut work, mut output) = areas();
        let query = Query {
            iso,
            back: false,
            budget,
            value: value.as_bytes(),
        };
        let answer = run_areas(&bytes, &mut table, &mut work, query, &mut output);
        assert_eq!(
            answer,
            Ran {
                number,
                count: 0,
                length: 0
            }
        );
        assert_eq!(table[..5], [84, 0, 0, 0, 1]);
        assert_eq!(table[85..95], [67, 7, 7, 0, 0, 0, 0, 0, 0, 0]);
        assert!(work[..65_536].iter().all(|byte| *byte == 0));
        assert!(output.iter().all(|byte| *byte == 9));
    }
}

/// Lengths of table, work and output, all of which stay as they were.
fn all_kept([t, w, o]: [usize; 3], bytes: &[u8], number: u8) {
    let (mut table, mut work, mut output) = (vec![7u16; t], vec![8u8; w], vec![9u8; o]);
    let query = Query {
        iso: 0,
        back: false,
        budget: 1,
        value: b"LU",
    };
    let ran = run_areas(bytes, &mut table, &mut work, query, &mut output);
    assert_eq!(
        ran,
        Ran {
            number,
            count: 0,
            length: 0
        }
    );
    let turned = turn_areas(bytes, &mut table, &mut work, &mut output);
    assert_eq!(
        turned,
        Turned {
            number,
            line: 0,
            length: 0
        }
    );
    if o > 126 {
        let answer = check_areas(bytes, &mut table, &mut work);
        assert_eq!(answer, Checked { number, line: 0 });
    }
    assert_eq!((table, work, output), (vec![7; t], vec![8; w], vec![9; o]));
}

#[test]
fn the_areas_of_refusals_1_and_2_keep_all() {
    let fine = file(S);
    let long = vec![b'x'; 65_537];
    all_kept([20_479, 65_536, 70_000], &fine, 1);
    all_kept([20_480, 65_535, 70_000], &fine, 1);
    all_kept([20_480, 65_536, 126], &fine, 1);
    all_kept([20_480, 65_536, 70_000], &long, 2);
    all_kept([20_479, 65_536, 70_000], &long, 1);
    all_kept([20_480, 65_536, 126], &long, 1);
}

#[test]
fn the_area_of_turn_is_as_long_as_the_file() {
    let fine = file(S);
    let (mut table, mut work, _) = areas();
    let mut output = vec![9; fine.len()];
    let turned = turn_areas(&fine, &mut table, &mut work, &mut output[1..]);
    assert_eq!((turned.number, table[0], work[0], output[1]), (1, 7, 8, 9));
    let turned = turn_areas(&fine, &mut table, &mut work, &mut output);
    assert_eq!((turned.number, turned.length), (0, fine.len()));
}

#[test]
fn the_areas_of_refusals_3_to_14_and_21_are_zero() {
    for words in [
        "T,0,0,0",
        "x",
        "P,0,0,0 T,0,0,0",
        "T,9,0,0",
        "T,1,0,0",
        "T,0,0,0 I,0,0",
    ] {
        let (mut table, mut work, mut output) = areas();
        let answer = turn_areas(&file(words), &mut table, &mut work, &mut output);
        assert_eq!((answer.number, answer.line), of(words));
        assert_eq!(answer.length, 0);
        assert!(table[..20_480].iter().all(|number| *number == 0));
        assert!(table[20_480..].iter().all(|number| *number == 7));
        assert!(work[..65_536].iter().all(|byte| *byte == 0));
        assert!(work[65_536..].iter().all(|byte| *byte == 8));
        assert!(output.iter().all(|byte| *byte == 9));
    }
}

/// Place `place` of row `row`: left before place `row`, right at it, and a
/// variable behind it.
fn part(row: usize, place: usize) -> Rc<Pattern> {
    let inner = Rc::new(Pattern::Unit);
    Rc::new(match place.cmp(&row) {
        Ordering::Less => Pattern::Left(inner),
        Ordering::Equal => Pattern::Right(inner),
        Ordering::Greater => Pattern::Variable(0),
    })
}

#[test]
fn wide_covers_end_quickly() {
    // A product of twenty-one sums; all rows are orthogonal, and the last has
    // left everywhere.
    let unit = Rc::new(Type::Unit);
    let two = Rc::new(Type::Sum(Rc::clone(&unit), unit));
    let mut ty = Rc::clone(&two);
    for _ in 1..21 {
        ty = Rc::new(Type::Product(Rc::clone(&two), ty));
    }
    assert!(ty.nodes() <= 127);
    let row = |row: usize| {
        let mut pattern = part(row, 20);
        for place in (0..20).rev() {
            pattern = Rc::new(Pattern::Pair(part(row, place), pattern));
        }
        pattern
    };
    let rows: Vec<Rc<Pattern>> = (0..22).map(row).collect();
    let all: Vec<&Pattern> = rows.iter().map(|row| &**row).collect();
    assert!(covers(&ty, &all));
    for gone in 0..22 {
        let mut fewer = all.clone();
        fewer.remove(gone);
        assert!(!covers(&ty, &fewer));
    }
}
