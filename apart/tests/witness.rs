//! Request 09 by hand, and its two ways held to each other.

mod common;

use apart::areas::Known;
use apart::check;
use apart::generate::miss::aimed;
use apart::generate::random::Random;
use apart::lines::Iso;
use apart::tree::Value;
use apart::witness::{refused_iso, witness, witness_of, Side, Witnessed};
use common::{lines, refused_files, REFUSED};

/// Document 01's file S without its last line.
const S: &str = "T,0,0,0 T,1,0,0 T,2,1,1 P,0,0,0 P,2,0,0 P,3,0,0 P,1,0,0 P,1,1,0 P,4,1,3 P,4,1,4 P,4,2,3 I,1,1 C,1,2 C,2,1 I,2,2 C,5,6 L,4,0,3";

/// Types of one to four values, patterns, and the sum of 1 and the pairs of two.
const FOUR: &str = "T,0,0,0 T,1,0,0 T,1,1,1 T,2,1,1 T,1,3,0 P,0,0,0 P,1,0,0 P,2,0,0 P,3,0,0 P,2,2,0 P,2,3,0 P,3,2,0 P,3,3,0 P,2,1,0 P,3,1,0";

/// A file of these and isos of which one is refused: a last iso names all P
/// lines, and is not looked at.
fn four(isos: &str) -> String {
    format!("{FOUR} {isos} I,4,2 C,0,1 C,4,5 C,6,7 C,8,9")
}

/// The number, the line and the value of a file.
fn shown(words: &str) -> (u8, usize, String) {
    let file = lines(words);
    let refusal = check(&file).err().expect("the file is refused");
    let letters = witness_of(&file, refusal).unwrap_or_default();
    let letters = String::from_utf8(letters).expect("letters");
    (refusal.number, refusal.line, letters)
}

fn is(words: &str, number: u8, line: usize, letters: &str) {
    assert_eq!(shown(words), (number, line, letters.to_string()), "{words}");
}

#[test]
fn values_of_document_01() {
    is(S, 21, 11, "");
    is(&S.replacen(" P,4,2,3", "", 1), 13, 14, "PRULU");
    is(&format!("{S} C,7,7 C,7,7"), 11, 15, "PRULU");
    is("T,0,0,0 T,1,0,0 P,0,0,0 P,2,0,0 I,0,1 C,0,1", 14, 5, "RU");
    // Refused otherwise, and without a value.
    is("T,0,0,0 T,1,0,1", 6, 2, "");
}

#[test]
fn each_kind() {
    let of = four;
    // The patterns 4 to 7 are LLU, LRU, RLU, RRU; 8 and 9 left and right of anything.
    is(&of("I,2,2 C,4,4 C,5,5 C,8,9"), 11, 16, "LLU");
    is(&of("I,2,2 C,7,4 C,5,6 C,9,8"), 11, 16, "RRU");
    is(&of("I,2,2 C,4,7 C,5,7"), 12, 16, "RRU");
    is(&of("I,2,2 C,4,7 C,5,5 C,7,5 C,6,7"), 12, 16, "LRU");
    is(&of("I,2,2 C,7,4 C,4,5"), 13, 16, "LRU");
    is(&of("I,1,2 C,2,4 C,3,7"), 14, 16, "LRU");
    // A variable twice.
    is(&of("I,2,2 C,1,1 C,1,1"), 11, 16, "LLU");
    // The right side is of another type than the left one.
    is(&of("I,0,2 C,0,5"), 14, 16, "LLU");
    is(&of("I,1,0 C,2,0 C,3,0"), 12, 16, "U");
    // The lowest refusal, of the first iso that has one.
    is(&of("I,2,2 C,4,5 C,4,5"), 11, 16, "LLU");
    is(&of("I,2,2 C,4,5 C,6,5"), 12, 16, "LRU");
    is(&of("I,0,0 C,0,0 I,2,1 I,2,2 C,4,5 C,4,5"), 13, 18, "LLU");
}

/// Fewest letters first, though the longer ones come first in byte order.
#[test]
fn fewest_letters_first() {
    // T line 4: left of a pair of two, or right of a unit.
    is(&four("I,4,4"), 13, 16, "RU");
    is(&four("I,4,4 C,1,1 C,1,1"), 11, 16, "RU");
    is(&four("I,4,4 C,3,3"), 13, 16, "LPLULU");
    // Left before right, also where the left type has more nodes.
    let wide = "T,0,0,0 T,1,0,0 T,1,1,0 T,1,0,1";
    is(&format!("{wide} I,2,0 I,3,3"), 13, 5, "RU");
    is(&format!("{wide} I,3,0 I,2,2"), 13, 5, "LU");
}

/// The first part decides before the second, the length of both before that.
#[test]
fn parts_in_order() {
    // Two parts, each LLU, LRU or RU: all but PRURU have more letters.
    let pairs =
        "T,0,0,0 T,1,0,0 T,1,1,0 T,2,2,2 P,0,0,0 P,1,0,0 P,3,0,0 P,4,2,2 P,1,1,0 P,4,1,4 P,4,2,4";
    let of = |isos: &str| format!("{pairs} {isos} I,3,3 C,3,5 C,6,6");
    is(&of("I,3,3"), 13, 12, "PRURU");
    is(&of("I,3,3 C,3,3"), 13, 12, "PLLURU");
    is(&of("I,3,3 C,6,6"), 13, 12, "PLLURU");
    is(&of("I,3,3 C,3,3 C,5,5"), 11, 12, "PRURU");
}

/// A type whose value has 127 letters, and one of 2 to the 30th values.
#[test]
fn large_types() {
    let long = "T,0,0,0 T,2,0,0 T,2,1,1 T,2,2,2 T,2,3,3 T,2,4,4 T,2,5,5";
    let (number, line, letters) = shown(&format!("{long} I,6,0"));
    assert_eq!((number, line, letters.len()), (13, 8, 127));
    // Thirty parts of two values each; that of rights alone is left out.
    let mut words = "T,0,0,0 T,1,0,0 T,2,1,1".to_string();
    for ty in 2..30 {
        words += &format!(" T,2,1,{ty}");
    }
    words += " P,0,0,0 P,1,0,0 P,2,0,0 P,3,0,0 P,4,2,1";
    // So many rights and then a left, anything behind it.
    let mut clauses = " I,30,30 C,4,4".to_string();
    let mut patterns = 5;
    for rights in 1..30 {
        let mut last = if rights == 29 { 2 } else { 4 };
        for _ in 0..rights {
            words += &format!(" P,4,3,{last}");
            last = patterns;
            patterns += 1;
        }
        clauses += &format!(" C,{last},{last}");
    }
    let (number, _, letters) = shown(&(words.clone() + &clauses));
    let uncovered = "PRU".repeat(29) + "RU";
    assert_eq!((number, letters), (13, uncovered.clone()));
    // All are matched, and that of rights alone twice.
    let mut last = 3;
    for _ in 0..29 {
        words += &format!(" P,4,3,{last}");
        last = patterns;
        patterns += 1;
    }
    let twice = format!("{words}{clauses} C,{last},{last}");
    assert!(check(&lines(&twice)).is_ok());
    let (number, _, letters) = shown(&format!("{twice} C,{last},{last}"));
    assert_eq!((number, letters), (11, uncovered));
}

/// Both ways give the same on small sides, and what they give shows the fault.
#[test]
fn both_ways() {
    let mut random = Random::new(9);
    let mut small = [0; 4];
    for round in 0..600 {
        let number = 11 + (round % 4) as u8;
        let file = aimed(&mut random, number);
        let Some((iso, number)) = refused(&file) else {
            continue;
        };
        let side = Side::refused(&iso, number);
        // Those of lists have tests of their own.
        if side.ty.holds_list() {
            continue;
        }
        let shown = side.by_sets().expect("a refused side has a value");
        let value = Value::read(&shown.letters, side.ty).expect("of the type");
        assert!(side.shown_by(&value));
        assert!(1 <= shown.as_short && shown.as_short <= shown.all);
        assert!(shown.first <= shown.letters);
        if side.has_few_values() {
            assert_eq!(side.by_force(), Some(shown.letters));
            small[number as usize - 11] += 1;
        }
    }
    assert!(small.iter().all(|count| *count >= 30), "{small:?}");
}

fn refused(file: &[u8]) -> Option<(Iso, u8)> {
    let refusal = check(file).err()?;
    Some((refused_iso(file, refusal)?, refusal.number))
}

fn areas(file: &[u8], result: usize) -> (Witnessed, Vec<u8>) {
    let (mut table, mut work) = (vec![7; 20_480], vec![7; 65_536]);
    let mut result = vec![b'x'; result];
    let given = witness(&Known::of(file), &mut table, &mut work, &mut result);
    let cleared = given.number > 2;
    assert_eq!(table.iter().all(|number| *number == 0), cleared);
    assert_eq!(work.iter().all(|byte| *byte == 0), cleared);
    (given, result)
}

#[test]
fn lent_areas() {
    let gap = lines(&S.replacen(" P,4,2,3", "", 1));
    for length in [127, 128, 200] {
        let (given, result) = areas(&gap, length);
        let wanted = Witnessed {
            number: 13,
            line: 14,
            length: 5,
        };
        assert_eq!((given, &result[..5]), (wanted, &b"PRULU"[..]));
        assert!(result[5..].iter().all(|byte| *byte == b'x'));
    }
    for (number, file) in REFUSED.into_iter().zip(refused_files()) {
        for length in [0, 126] {
            let (given, result) = areas(&file, length);
            assert_eq!((given.number, given.line, given.length), (1, 0, 0));
            assert_eq!(result, vec![b'x'; length]);
        }
        let (given, result) = areas(&file, 127);
        assert_eq!(given.number, number);
        assert_eq!(given.length > 0, (11..15).contains(&number));
        assert!(result[given.length..].iter().all(|byte| *byte == b'x'));
    }
}
