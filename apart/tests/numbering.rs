//! Settings as numbers, from the words of request 02 and document 01.

use apart::areas::{check_areas, Known, RESULT, TABLE, WORK};
use apart::generate::counted::{self, COUNTS};
use apart::generate::random::Random;
use apart::generate::shape::{self, Sketch};
use apart::lines::NODES;
use apart::numbering::{
    number_of, number_of_rules, setting_of, setting_of_rules, values, Lettered, Numbered, VALUES,
};
use apart::tree::{Pattern, Type};
use apart::{check, Rules};

mod common;
use common::{lines, refused_files, typed, REFUSED};
use std::collections::BTreeSet;
use std::rc::Rc;

/// "File S (one line each, parted here by blanks)".
const S: &str = "T,0,0,0 T,1,0,0 T,2,1,1 P,0,0,0 P,2,0,0 P,3,0,0 P,1,0,0 P,1,1,0 \
P,4,1,3 P,4,1,4 P,4,2,3 I,1,1 C,1,2 C,2,1 I,2,2 C,5,6 L,4,0,3 C,7,7";

fn rules(words: &str) -> Rules {
    check(&lines(words)).expect("accepted")
}

/// A file of these T lines.
fn types(words: &str) -> Rules {
    check(&typed(words)).expect("accepted")
}

/// The number of a setting, or of the refusal.
fn number(rules: &Rules, ty: u32, letters: &str) -> Result<u32, u8> {
    number_of_rules(rules, ty, letters.as_bytes()).map_err(|refusal| {
        assert_eq!(refusal.line, 0);
        refusal.number
    })
}

/// The setting of a number, or the number of the refusal.
fn setting(rules: &Rules, ty: u32, number: u32) -> Result<String, u8> {
    match setting_of_rules(rules, ty, number) {
        Ok(letters) => Ok(String::from_utf8(letters).expect("letters")),
        Err(refusal) => {
            assert_eq!(refusal.line, 0);
            Err(refusal.number)
        }
    }
}

/// A number and its letters, both ways.
fn both(rules: &Rules, ty: u32, wanted: u32, letters: &str) {
    assert_eq!(number(rules, ty, letters), Ok(wanted), "{ty} {letters}");
    assert_eq!(setting(rules, ty, wanted).as_deref(), Ok(letters), "{ty}");
}

/// A T line for the type and each of its parts; the type's own is the last.
fn written(ty: &Type, lines: &mut Vec<String>) -> usize {
    let line = match ty {
        Type::Unit => "T,0,0,0".to_string(),
        Type::Sum(a, b) => format!("T,1,{},{}", written(a, lines), written(b, lines)),
        Type::Product(a, b) => format!("T,2,{},{}", written(a, lines), written(b, lines)),
        Type::List(_) => unreachable!("a type that can be numbered"),
    };
    lines.push(line);
    lines.len() - 1
}

/// A file of one type, and the number of its T line.
fn alone(ty: &Type) -> (Rules, u32) {
    let mut lines = Vec::new();
    let place = written(ty, &mut lines);
    (types(&lines.join(" ")), place as u32)
}

/// So many two-valued types as one chain of products, and the place of the last.
fn bits(count: usize) -> (String, u32) {
    let mut words = "T,0,0,0 T,1,0,0".to_string();
    for above in 1..count {
        words += &format!(" T,2,1,{above}");
    }
    (words, count as u32)
}

/// The letters of a pattern without variables.
fn letters_of(pattern: &Pattern, letters: &mut String) {
    match pattern {
        Pattern::Unit => letters.push('U'),
        Pattern::Variable(_) => unreachable!("closed"),
        Pattern::Empty | Pattern::Element(..) => unreachable!("without lists"),
        Pattern::Left(a) => {
            letters.push('L');
            letters_of(a, letters);
        }
        Pattern::Right(a) => {
            letters.push('R');
            letters_of(a, letters);
        }
        Pattern::Pair(a, b) => {
            letters.push('P');
            letters_of(a, letters);
            letters_of(b, letters);
        }
    }
}

/// The letters of every closed value of a type that has few, in byte order.
fn all_settings(ty: &Type) -> Vec<String> {
    let closed = |value: &Sketch| {
        let mut letters = String::new();
        letters_of(&value.pattern(&mut |_| 0), &mut letters);
        letters
    };
    let sorted: BTreeSet<String> = shape::closed(ty).iter().map(closed).collect();
    sorted.into_iter().collect()
}

/// A random type of so many values at most.
fn small_type(random: &mut Random, most: u64) -> Rc<Type> {
    let pool = [Rc::new(Type::Unit)];
    loop {
        let ty = shape::random_type(random, 5, &pool);
        if ty.nodes() <= NODES && values(&ty) <= most {
            return ty;
        }
    }
}

/// The types of S: unit, a bit, two bits.
#[test]
fn the_types_of_document_01() {
    let s = rules(S);
    both(&s, 0, 0, "U");
    both(&s, 1, 0, "LU");
    both(&s, 1, 1, "RU");
    for (wanted, letters) in ["PLULU", "PLURU", "PRULU", "PRURU"].iter().enumerate() {
        both(&s, 2, wanted as u32, letters);
    }
    for (ty, count) in [1, 2, 4].into_iter().enumerate() {
        for above in [count, count + 1, 65_536, u32::MAX] {
            assert_eq!(setting(&s, ty as u32, above), Err(19));
        }
    }
}

/// "One unit and products of each line with itself": one value, of up to 127
/// letters.
#[test]
fn the_longest_setting_has_number_0() {
    let seven = types("T,0,0,0 T,2,0,0 T,2,1,1 T,2,2,2 T,2,3,3 T,2,4,4 T,2,5,5");
    let mut letters = "U".to_string();
    for ty in 0..7 {
        both(&seven, ty, 0, &letters);
        assert_eq!(setting(&seven, ty, 1), Err(19));
        letters = format!("P{letters}{letters}");
    }
    assert_eq!(setting(&seven, 6, 0).unwrap().len(), RESULT);
}

/// "Unit is 0; left keeps its number; right adds the left type's count of
/// values; a pair is first times the second type's count, plus second."
fn by_the_sentences(ty: &Type, letters: &mut &[u8]) -> u64 {
    let (letter, rest) = letters.split_first().expect("a letter");
    *letters = rest;
    match (ty, letter) {
        (Type::Unit, b'U') => 0,
        (Type::Sum(a, _), b'L') => by_the_sentences(a, letters),
        (Type::Sum(a, b), b'R') => values(a) + by_the_sentences(b, letters),
        (Type::Product(a, b), b'P') => {
            let first = by_the_sentences(a, letters);
            first * values(b) + by_the_sentences(b, letters)
        }
        _ => panic!("not a setting of the type"),
    }
}

#[test]
fn the_sentences_of_the_request() {
    let mut random = Random::new(31);
    let mut large = 0;
    for round in 0..400 {
        let ty = match round % 4 {
            0 => shape::exact_type(&mut random, NODES),
            1 => {
                let (_, built) = *random.pick(&COUNTS[..5]);
                counted::of(&mut random, built)
            }
            _ => small_type(&mut random, VALUES),
        };
        if values(&ty) > VALUES {
            continue;
        }
        large += usize::from(values(&ty) > 65_536);
        let (file, place) = alone(&ty);
        let count = values(&ty) as usize;
        for wanted in [0, count - 1, count / 2, random.below(count)] {
            let letters = setting(&file, place, wanted as u32).unwrap();
            let mut left = letters.as_bytes();
            assert_eq!(by_the_sentences(&ty, &mut left), wanted as u64);
            assert!(left.is_empty());
            assert_eq!(number(&file, place, &letters), Ok(wanted as u32));
        }
    }
    assert!(large > 100, "{large}");
}

/// "numbers of one type rise exactly as the letters do in byte order", "each
/// undoing the other": all settings of small types, in byte order.
#[test]
fn every_setting_in_order() {
    let mut random = Random::new(32);
    let mut counts = BTreeSet::new();
    for _ in 0..300 {
        let ty = small_type(&mut random, 300);
        let (file, place) = alone(&ty);
        let settings = all_settings(&ty);
        counts.insert(settings.len());
        assert_eq!(settings.len() as u64, values(&ty));
        for (wanted, letters) in settings.iter().enumerate() {
            both(&file, place, wanted as u32, letters);
        }
        assert_eq!(setting(&file, place, settings.len() as u32), Err(19));
    }
    assert!(counts.len() > 20, "{counts:?}");
}

/// The same of types with many values: neighbours in number are neighbours in
/// byte order.
#[test]
fn neighbours_of_large_types_in_order() {
    let mut random = Random::new(33);
    for (count, built) in &COUNTS[..5] {
        let (file, place) = alone(&counted::of(&mut random, built));
        let last = *count as u32 - 1;
        for _ in 0..50 {
            let one = random.below(last as usize) as u32;
            let (low, high) = (
                setting(&file, place, one).unwrap(),
                setting(&file, place, one + 1).unwrap(),
            );
            assert!(low < high, "{low} {high}");
            let other = random.below(*count as usize) as u32;
            let letters = setting(&file, place, other).unwrap();
            assert_eq!(other.cmp(&one), letters.cmp(&low));
        }
    }
}

/// "a product of 32 two-valued types passes it by one".
#[test]
fn products_of_31_and_32_two_valued_types() {
    let (words, place) = bits(31);
    let file = types(&words);
    let (lowest, highest) = ("PLU".repeat(30) + "LU", "PRU".repeat(30) + "RU");
    both(&file, place, 0, &lowest);
    both(&file, place, (1 << 31) - 1, &highest);
    both(&file, place, 1 << 30, &format!("PRU{}", &lowest[3..]));
    both(&file, place, 1, &format!("{}RU", &lowest[..90]));
    assert_eq!(setting(&file, place, 1 << 31), Err(19));
    assert_eq!(setting(&file, place, u32::MAX), Err(19));
    assert_eq!(number(&file, place, &highest[3..]), Err(16));

    let (words, place) = bits(32);
    let file = types(&words);
    assert_eq!(file.types[32].nodes(), NODES);
    assert_eq!(values(&file.types[32]), VALUES + 1);
    let letters = "PLU".repeat(31) + "LU";
    // 18 "after 15 and before 16", 19 "after 18".
    for wrong in [&letters[..], &letters[1..], "", "U"] {
        assert_eq!(number(&file, place, wrong), Err(18));
        assert_eq!(number(&file, place + 1, wrong), Err(15));
    }
    for above in [0, 1, u32::MAX] {
        assert_eq!(setting(&file, place, above), Err(18));
        assert_eq!(setting(&file, place + 1, above), Err(15));
    }
    // The parts of that type are numbered all the same.
    both(&file, 31, (1 << 31) - 1, &highest);
    both(&file, 1, 1, "RU");
}

/// The generator's types have the counts that it states, at most 127 nodes, and
/// are numbered or refused by them.
#[test]
fn counts_around_the_limit() {
    let mut random = Random::new(34);
    for (count, built) in COUNTS.iter().cycle().take(5 * COUNTS.len()) {
        let ty = counted::of(&mut random, built);
        assert_eq!(values(&ty), *count, "{built}");
        assert!(ty.nodes() <= NODES, "{built}");
        let (file, place) = alone(&ty);
        if *count > VALUES {
            assert_eq!(setting(&file, place, 0), Err(18));
            assert_eq!(number(&file, place, "U"), Err(18));
            continue;
        }
        let last = *count as u32 - 1;
        let letters = setting(&file, place, last).unwrap();
        assert_eq!(number(&file, place, &letters), Ok(last));
        assert!(letters.bytes().all(|letter| b"PRU".contains(&letter)));
        assert_eq!(setting(&file, place, last + 1), Err(19));
        assert_eq!(setting(&file, place, u32::MAX), Err(19));
    }
    for (place, (count, _)) in COUNTS.iter().enumerate() {
        let file = check(&counted::file(&mut random, place)).expect("accepted");
        assert!(file.types.iter().any(|ty| values(ty) == *count));
    }
}

/// The most values that so many leaves can have: factors of three.
fn most_of(leaves: usize) -> u64 {
    match (leaves, leaves % 3) {
        (1, _) => 1,
        (_, 0) => 3u64.pow(leaves as u32 / 3),
        (_, 1) => 4 * 3u64.pow(leaves as u32 / 3 - 1),
        _ => 2 * 3u64.pow(leaves as u32 / 3),
    }
}

/// No type of 127 nodes, which has 64 leaves, has 4,294,967,295 values, nor any
/// other count between the second of the list and the first that passes the
/// limit. Of each number of leaves those counts are kept that are high enough
/// against the most to come to the limit still.
#[test]
fn no_type_stands_at_the_limit() {
    let share = 4_294_000_000.0 / most_of(64) as f64;
    let mut kept: Vec<Vec<u64>> = vec![Vec::new(), vec![1]];
    for leaves in 2..=64 {
        let least = match leaves {
            0..=12 => 0,
            _ => (share * most_of(leaves) as f64) as u64,
        };
        let mut counts = Vec::new();
        for one in 1..=leaves / 2 {
            let sums = most_of(one) + most_of(leaves - one) >= least;
            for a in &kept[one] {
                let high = kept[leaves - one].iter().rev();
                counts.extend(high.clone().map(|b| a * b).take_while(|c| *c >= least));
                if sums {
                    counts.extend(high.map(|b| a + b).take_while(|c| *c >= least));
                }
            }
            counts.sort_unstable();
            counts.dedup();
        }
        kept.push(counts);
    }
    let near = |count: &&u64| (4_294_900_000..4_294_999_999).contains(*count);
    let near: BTreeSet<u64> = kept.iter().flatten().filter(near).copied().collect();
    let highest = near.range(..=VALUES).last();
    let lowest: Vec<&u64> = near.range(VALUES + 1..).take(2).collect();
    assert_eq!(highest, Some(&COUNTS[1].0));
    assert_eq!(lowest, [&COUNTS[5].0, &COUNTS[6].0]);
    assert_eq!(kept[64].last(), Some(&COUNTS[11].0));
}

/// 16: "not exactly one closed value".
#[test]
fn letters_that_are_no_setting() {
    let s = rules(S);
    let wrong = [
        "",
        "U",
        "L",
        "LU",
        "P",
        "PLU",
        "PLUL",
        "PLURUU",
        "PLURUPLURU",
        "PLUPRU",
        "pluru",
        "PLUR\0",
        "PLURU\n",
        " PLURU",
        "PUU",
        "PLULUU",
        "LPLURU",
        "PRUPU",
    ];
    for letters in wrong {
        assert_eq!(number(&s, 2, letters), Err(16), "{letters}");
    }
    assert_eq!(number_of_rules(&s, 2, b"PLUR\xff").unwrap_err().number, 16);
    for letters in ["", "LU", "UU", "RU", "P"] {
        assert_eq!(number(&s, 0, letters), Err(16), "{letters}");
    }
    let long = "PLU".repeat(50_000);
    assert_eq!(number(&s, 2, &long), Err(16));
}

/// "An absent T line is 15": T lines are numbered from 0, other lines are not
/// counted.
#[test]
fn absent_t_lines() {
    let s = rules(S);
    for ty in [3, 4, 17, 18, 255, 256, 65_536, 65_538, 1 << 31, u32::MAX] {
        assert_eq!(number(&s, ty, "LU"), Err(15));
        assert_eq!(number(&s, ty, ""), Err(15));
        assert_eq!(setting(&s, ty, 0), Err(15));
        assert_eq!(setting(&s, ty, u32::MAX), Err(15));
    }
    let empty = rules("");
    assert_eq!(number(&empty, 0, "U"), Err(15));
    assert_eq!(setting(&empty, 0, 0), Err(15));
    // 256 T lines: four units, each followed by 63 products of it.
    let mut words = String::new();
    for unit in (0..256).step_by(64) {
        words += "T,0,0,0 ";
        for below in unit..unit + 63 {
            words += &format!("T,2,{unit},{below} ");
        }
    }
    let full = types(&words);
    both(&full, 192, 0, "U");
    both(&full, 255, 0, &("PU".repeat(63) + "U"));
    assert_eq!(setting(&full, 256, 0), Err(15));
    // Types that no I line names have their numbers too.
    both(&types("T,0,0,0 T,1,0,0 T,1,0,1"), 1, 1, "RU");
}

/// Lent areas, filled with what no call leaves behind.
#[derive(Debug, Clone, PartialEq, Eq)]
struct Areas {
    table: Vec<u16>,
    work: Vec<u8>,
    result: Vec<u8>,
}

impl Areas {
    fn of([table, work, result]: [usize; 3]) -> Areas {
        Areas {
            table: vec![7; table],
            work: vec![8; work],
            result: (0..result).map(|place| (place % 61) as u8).collect(),
        }
    }

    fn number_of(&mut self, file: &[u8], ty: u32, letters: &[u8]) -> Numbered {
        number_of(
            &Known::of(file),
            &mut self.table,
            &mut self.work,
            ty,
            letters,
        )
    }

    fn setting_of(&mut self, file: &[u8], ty: u32, number: u32) -> Lettered {
        let (table, work) = (&mut self.table, &mut self.work);
        setting_of(&Known::of(file), table, work, ty, number, &mut self.result)
    }

    /// Whether table and work are as Check of the file leaves them, and the
    /// result begins with the letters and is otherwise as it was.
    fn left(&self, before: &Areas, file: &[u8], letters: &[u8]) -> bool {
        let mut wanted = before.clone();
        check_areas(file, &mut wanted.table, &mut wanted.work);
        wanted.result[..letters.len()].copy_from_slice(letters);
        *self == wanted
    }
}

const EXACT: [usize; 3] = [TABLE, WORK, RESULT];

fn numbered(number: u8, setting: u32) -> Numbered {
    Numbered { number, setting }
}

fn lettered(number: u8, length: usize) -> Lettered {
    Lettered { number, length }
}

/// "letters written into 127 lent bytes"; what lies behind them stays.
#[test]
fn areas_after_both_ways() {
    let (words, place) = bits(32);
    let (s, large) = (lines(S), typed(&words));
    for extra in [0, 1, 500] {
        let before = Areas::of(EXACT.map(|length| length + extra));
        for (file, ty, letters, answer) in [
            (&s, 2, "PRULU", numbered(0, 2)),
            (&s, 0, "U", numbered(0, 0)),
            (&s, 3, "PRULU", numbered(15, 0)),
            (&s, 2, "PRUL", numbered(16, 0)),
            (&large, place, "PLU", numbered(18, 0)),
        ] {
            let mut after = before.clone();
            assert_eq!(after.number_of(file, ty, letters.as_bytes()), answer);
            assert!(after.left(&before, file, b""), "{letters}");
        }
        for (file, ty, number, answer, letters) in [
            (&s, 2, 2, lettered(0, 5), "PRULU"),
            (&s, 0, 0, lettered(0, 1), "U"),
            (&s, 3, 2, lettered(15, 0), ""),
            (&s, 2, 4, lettered(19, 0), ""),
            (&large, place, 4, lettered(18, 0), ""),
        ] {
            let mut after = before.clone();
            assert_eq!(after.setting_of(file, ty, number), answer);
            assert!(after.left(&before, file, letters.as_bytes()), "{number}");
            // The table holds the file's lines, refused or not.
            assert_eq!(after.table[0], u16::from(b'T'));
            assert!(after.work[..WORK].iter().all(|byte| *byte == 0));
        }
    }
}

/// 1 comes first, whatever else is wrong, and changes nothing.
#[test]
fn areas_too_short_change_nothing() {
    let (words, place) = bits(32);
    let long = vec![b'T'; 65_537];
    for file in [lines(S), typed(&words), lines("x"), long] {
        for area in 0..3 {
            for length in [EXACT[area] - 1, EXACT[area] / 2, 0] {
                let mut lengths = EXACT.map(|length| length + 5);
                lengths[area] = length;
                let before = Areas::of(lengths);
                for ty in [0, place, u32::MAX] {
                    let mut after = before.clone();
                    assert_eq!(after.setting_of(&file, ty, u32::MAX), lettered(1, 0));
                    // The way to a number has no result.
                    if area < 2 {
                        assert_eq!(after.number_of(&file, ty, b"x"), numbered(1, 0));
                    }
                    assert_eq!(after, before, "{lengths:?}");
                }
            }
        }
    }
    let mut areas = Areas::of([TABLE, WORK, 0]);
    assert_eq!(areas.number_of(&lines(S), 2, b"PRULU"), numbered(0, 2));
}

/// A refused file goes before 15, 16, 18 and 19.
#[test]
fn refused_files_come_first() {
    let mut numbers = Vec::new();
    for file in refused_files() {
        let refusal = check(&file).err().unwrap();
        numbers.push(refusal.number);
        let before = Areas::of(EXACT.map(|length| length + 9));
        for ty in [0, 1, 300, u32::MAX] {
            for letters in [&b""[..], b"U", b"LU"] {
                let mut after = before.clone();
                let given = after.number_of(&file, ty, letters);
                assert_eq!(given, numbered(refusal.number, 0));
                assert!(after.left(&before, &file, b""));
            }
            for number in [0, 1, u32::MAX] {
                let mut after = before.clone();
                let given = after.setting_of(&file, ty, number);
                assert_eq!(given, lettered(refusal.number, 0));
                assert!(after.left(&before, &file, b""));
            }
        }
    }
    assert_eq!(numbers, REFUSED);
}
