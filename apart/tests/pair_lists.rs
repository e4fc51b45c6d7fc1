//! Pair lists in and out, from the words of request 07 and document 01.

use apart::areas::{check_areas, Known, TABLE, WORK};
use apart::generate::accepted;
use apart::generate::listed::{self, limits, Flaw, Limit, FLAWS};
use apart::generate::random::Random;
use apart::generate::shape::most_sides;
use apart::lines::{split, Iso};
use apart::numbering::{number_of_rules, setting_of_rules, values};
use apart::pair_lists::{
    export, export_rules, import, import_rules, settings, unjudged, Written, FILE, LIST,
};
use apart::tree::Type;
use apart::{check, run_rules, Rules};
use std::collections::BTreeSet;

mod common;
use common::{lines, refused_files, typed, REFUSED};

/// "File S (one line each, parted here by blanks)".
const S: &str = "T,0,0,0 T,1,0,0 T,2,1,1 P,0,0,0 P,2,0,0 P,3,0,0 P,1,0,0 P,1,1,0 \
P,4,1,3 P,4,1,4 P,4,2,3 I,1,1 C,1,2 C,2,1 I,2,2 C,5,6 L,4,0,3 C,7,7";

/// Unit, two, three and four steps, two bits; a unit and a bit again.
const TYPES: &str = "T,0,0,0 T,1,0,0 T,1,0,1 T,1,0,2 T,2,1,1 T,0,0,0 T,1,5,5";

fn rules(words: &str) -> Rules {
    check(&lines(words)).expect("accepted")
}

/// A file of these T lines.
fn types(words: &str) -> Rules {
    check(&typed(words)).expect("accepted")
}

fn list_of(rules: &Rules, iso: u32, budget: u32) -> Result<Vec<u8>, u8> {
    export_rules(rules, iso, budget).map_err(|refusal| {
        assert_eq!(refusal.line, 0);
        refusal.number
    })
}

fn file_of(rules: &Rules, from: u32, to: u32, list: &[u8]) -> Result<Vec<u8>, u8> {
    import_rules(rules, from, to, list).map_err(|refusal| {
        assert_eq!(refusal.line, 0);
        refusal.number
    })
}

/// `0,0`, `1,1` and so on.
fn identity(count: usize) -> Vec<u8> {
    let line = |number: usize| format!("{number},{number}\n");
    (0..count).map(line).collect::<String>().into_bytes()
}

/// A type of 2 to the power of `bits`, and that many and one.
fn bits(count: usize) -> String {
    let more: String = (1..count).map(|bits| format!("T,2,1,{bits} ")).collect();
    let sum = count + 1;
    format!(
        "T,0,0,0 T,1,0,0 {more}T,1,{count},0 P,1,0,0 I,{count},{count} C,0,0 I,{sum},{sum} C,0,0"
    )
}

/// "Export one iso, from 0 upwards".
#[test]
fn the_lists_of_s() {
    let rules = rules(S);
    assert_eq!(list_of(&rules, 0, 1), Ok(lines("0,1 1,0")));
    assert_eq!(list_of(&rules, 1, 2), Ok(lines("0,1 1,0 2,2 3,3")));
    // "with one budget for each pair": four pairs of at most two steps each.
    assert_eq!(list_of(&rules, 1, 1), Err(17));
    assert_eq!(list_of(&rules, 0, 0), Err(17));
    for iso in [2, 256, 65_536, 65_537, u32::MAX] {
        assert_eq!(list_of(&rules, iso, 2), Err(15), "{iso}");
    }
}

/// "one clause of closed values a pair, T lines for from-type then to-type, P
/// lines clause by clause, left before right, first part before second, parts
/// before wholes, no equal line twice".
#[test]
fn written_files_line_by_line() {
    let types = types(TYPES);
    let two = "T,0,0,0 T,1,0,0 P,0,0,0 P,2,0,0 P,3,0,0 I,1,1 C,1,2 C,2,1";
    for (from, to, list, written) in [
        (0, 0, "0,0", "T,0,0,0 P,0,0,0 I,0,0 C,0,0"),
        (0, 5, "0,0", "T,0,0,0 P,0,0,0 I,0,0 C,0,0"),
        (1, 1, "0,1 1,0", two),
        (1, 6, "0,1 1,0", two),
        (6, 1, "0,1 1,0", two),
        (
            3,
            4,
            "0,2 1,3 2,1 3,0",
            "T,0,0,0 T,1,0,0 T,1,0,1 T,1,0,2 T,2,1,1 \
             P,0,0,0 P,2,0,0 P,3,0,0 P,4,2,1 P,3,1,0 P,4,2,2 P,3,4,0 P,4,1,2 P,3,2,0 P,3,8,0 P,4,1,1 \
             I,3,4 C,1,3 C,4,5 C,6,7 C,9,10",
        ),
        (
            4,
            3,
            "0,0 1,1 2,3 3,2",
            "T,0,0,0 T,1,0,0 T,2,1,1 T,1,0,1 T,1,0,3 \
             P,0,0,0 P,2,0,0 P,4,1,1 P,3,0,0 P,4,1,3 P,3,1,0 P,4,3,1 P,3,3,0 P,3,7,0 P,4,3,3 P,3,5,0 \
             I,2,4 C,2,1 C,4,5 C,6,8 C,9,10",
        ),
    ] {
        let given = file_of(&types, from, to, &lines(list));
        assert_eq!(given, Ok(lines(written)), "{from} {to} {list}");
        let other = check(&lines(written)).expect("accepted");
        assert_eq!(list_of(&other, 0, 1), Ok(lines(list)));
    }
}

/// "20 'bad list' when a line is of another form, the froms are not 0, 1, 2 and
/// so on up to the counts of both types, or a to is repeated or too high".
#[test]
fn bad_lists() {
    let types = types(TYPES);
    let good = &b"0,1\n1,2\n2,0\n"[..];
    assert!(file_of(&types, 2, 2, good).is_ok());
    let returns = b"0,1\r\n1,2\n2,0\r\n";
    assert_eq!(file_of(&types, 2, 2, returns), file_of(&types, 2, 2, good));
    for list in [
        &b""[..],
        b"\n",
        b"0,1\n1,2\n",
        b"0,1\n1,2\n2,0",
        b"0,1\n1,2\n2,0\r",
        b"0,1\n1,2\n2,0\r\r\n",
        b"0,1\n1,2\n2,0\n\n",
        b"0,1\n1,2\n2,0\n3,3\n",
        b"0,1\n1,2\n2,1\n",
        b"0,1\n1,2\n2,3\n",
        b"0,1\n2,2\n1,0\n",
        b"1,1\n2,2\n3,0\n",
        b"0,1\n1,2\n1,0\n",
        b"0,1\n1,02\n2,0\n",
        b"0,1\n01,2\n2,0\n",
        b"0,1\n1,65538\n2,0\n",
        b"0,1\n1,4294967298\n2,0\n",
        b"0,1\n1,4294967296\n2,0\n",
        b"0,1\n1 ,2\n2,0\n",
        b"0,1,\n1,2\n2,0\n",
        b"0,1\n1,2\n2,\n",
        b"0,1\n1,2\n,0\n",
        b"0,1\n1;2\n2,0\n",
    ] {
        assert_eq!(file_of(&types, 2, 2, list), Err(20), "{list:?}");
    }
    // The right list for three is none where one type has two or four.
    for (from, to) in [(2, 1), (1, 2), (2, 3), (3, 2), (0, 0)] {
        assert_eq!(file_of(&types, from, to, good), Err(20), "{from} {to}");
    }
}

#[test]
fn one_refusal_before_the_other() {
    let large = rules(&bits(12));
    let (good, bad, long) = (identity(2), b"x".to_vec(), identity(129));
    // 4,096 values and one more.
    assert_eq!(list_of(&large, 0, 1), Ok(identity(4_096)));
    assert_eq!(list_of(&large, 1, 1), Err(18));
    assert_eq!(list_of(&large, 1, 0), Err(18));
    assert_eq!(list_of(&large, 0, 0), Err(17));
    for list in [&good, &bad, &long] {
        for (from, to) in [(14, 1), (1, 14), (14, 13), (13, 14), (u32::MAX, 1)] {
            assert_eq!(file_of(&large, from, to, list), Err(15), "{from} {to}");
        }
        for (from, to) in [(13, 1), (1, 13), (13, 13)] {
            assert_eq!(file_of(&large, from, to, list), Err(18), "{from} {to}");
        }
    }
    // Over 128 lines in the list is 7, before 20; a last line without a line
    // feed counts.
    for list in [
        long,
        vec![b'\n'; 129],
        [identity(128), bad.clone()].concat(),
    ] {
        assert_eq!(file_of(&large, 1, 1, &list), Err(7));
        assert_eq!(file_of(&large, 12, 12, &list), Err(7));
        assert_eq!(file_of(&large, 5, 5, &list), Err(7));
    }
    assert_eq!(file_of(&large, 12, 12, &identity(128)), Err(20));
    for (ty, count) in [(5, 32), (6, 64), (7, 128)] {
        let most = file_of(&large, ty, ty, &identity(count)).expect("a short list");
        assert_eq!(list_of(&check(&most).unwrap(), 0, 1), Ok(identity(count)));
        assert_eq!(file_of(&large, ty, ty, &identity(33)), Err(20));
    }
}

/// A sum of 32 units nested to the right, under so many products with a unit.
fn under_products(count: usize) -> (Rules, u32) {
    let mut file = String::from("T,0,0,0 ");
    for below in 0..31 {
        file += &format!("T,1,0,{below} ");
    }
    for below in 31..31 + count {
        file += &format!("T,2,0,{below} ");
    }
    (types(&file), 31 + count as u32)
}

/// "another ceiling passed in the writing is 7 at line 0 too, tested last".
#[test]
fn the_ceiling_of_p_lines() {
    for (products, wanted) in [(0, Some(63)), (30, Some(1_023)), (31, None)] {
        let (rules, ty) = under_products(products);
        let written = file_of(&rules, ty, ty, &identity(32));
        let lines = |file: Vec<u8>| split(&file).iter().filter(|l| l[0] == b'P').count();
        assert_eq!(written.map(lines), wanted.ok_or(7), "{products}");
        assert_eq!(file_of(&rules, ty, ty, &identity(31)), Err(20));
    }
}

/// A sum of so many units nested to the right: its last value has one left or
/// right node fewer.
fn right_sum(count: usize) -> (Rules, u32) {
    let sums: String = (0..count - 1)
        .map(|below| format!(" T,1,0,{below}"))
        .collect();
    (types(&format!("T,0,0,0{sums}")), count as u32 - 1)
}

/// Request 13: a list of up to 128 pairs may be of values with more than 40 left
/// and right nodes, which is 7 too, tested last.
#[test]
fn the_ceiling_of_left_and_right_nodes() {
    for (count, written) in [(40, true), (41, true), (42, false), (64, false)] {
        let (rules, ty) = right_sum(count);
        let given = file_of(&rules, ty, ty, &identity(count));
        assert_eq!(given.is_ok(), written, "{count}");
        if let Ok(file) = given {
            assert_eq!(list_of(&check(&file).unwrap(), 0, 1), Ok(identity(count)));
        } else {
            assert_eq!(given, Err(7));
        }
        // 20 goes before.
        assert_eq!(file_of(&rules, ty, ty, &identity(count - 1)), Err(20));
        assert_eq!(file_of(&rules, ty, ty, b"x"), Err(20));
        assert_eq!(file_of(&rules, ty, ty, &identity(129)), Err(7));
        // Only the to-type has such values.
        assert_eq!(file_of(&rules, 0, ty, b"0,0\n"), Err(20));
    }
    // Fewer P lines than 1,024 in both types of 42 values, one of them with few
    // left and right nodes.
    let mut words = String::from("T,0,0,0");
    words.extend((0..41).map(|below| format!(" T,1,0,{below}")));
    // 42: the pairs of six values and of seven.
    words += " T,2,5,6";
    let rules = types(&words);
    let (flat, deep) = (42, 41);
    assert!(file_of(&rules, flat, flat, &identity(42)).is_ok());
    for (from, to) in [(flat, deep), (deep, flat), (deep, deep)] {
        assert_eq!(file_of(&rules, from, to, &identity(42)), Err(7));
        let file = unjudged(&rules, from, to, &identity(42)).expect("a good list");
        let patterns = split(&file).iter().filter(|line| line[0] == b'P').count();
        assert!(patterns < 1_000, "{patterns}");
    }
}

/// The settings in byte order have the numbers 0, 1, 2 and so on of request 02.
#[test]
fn settings_are_those_of_request_02() {
    let mut random = Random::new(5);
    for _ in 0..40 {
        let rules = check(&accepted(&mut random)).expect("accepted");
        for (place, ty) in rules.types.iter().enumerate() {
            if values(ty) > 300 {
                continue;
            }
            let all = settings(ty);
            assert_eq!(all.len() as u64, values(ty));
            for (number, letters) in all.iter().enumerate() {
                let place = place as u32;
                assert_eq!(number_of_rules(&rules, place, letters), Ok(number as u32));
                let given = setting_of_rules(&rules, place, number as u32);
                assert_eq!(given.as_ref(), Ok(letters));
            }
        }
    }
}

/// Every iso of at most 128 values, exported and imported: the file is accepted,
/// no two lines of its letters are equal, every run counts 1 and gives what the
/// iso gives, and it exports the list again.
#[test]
fn there_and_back() {
    let mut random = Random::new(6);
    let mut trips = 0;
    for _ in 0..300 {
        let rules = check(&accepted(&mut random)).expect("accepted");
        for (place, iso) in rules.isos.iter().enumerate() {
            let line = |ty| rules.types.iter().position(|other| other == ty);
            let (Some(from), Some(to)) = (line(&iso.from), line(&iso.to)) else {
                unreachable!("an I line names both")
            };
            if values(&iso.from) > 128 {
                continue;
            }
            let Ok(list) = list_of(&rules, place as u32, 2_000) else {
                continue;
            };
            let Ok(file) = file_of(&rules, from as u32, to as u32, &list) else {
                continue;
            };
            let other = check(&file).expect("accepted");
            assert_eq!(other.isos.len(), 1);
            assert_eq!(
                (&other.isos[0].from, &other.isos[0].to),
                (&iso.from, &iso.to)
            );
            let rows: Vec<&[u8]> = split(&file);
            assert_eq!(rows.iter().collect::<BTreeSet<_>>().len(), rows.len());
            for letters in settings(&iso.from) {
                let there = run_rules(&rules, place as u16, false, 2_000, &letters);
                let again = run_rules(&other, 0, false, 1, &letters);
                assert_eq!(again, there.map(|(_, given)| (1, given)));
            }
            assert_eq!(list_of(&other, 0, 1), Ok(list));
            trips += 1;
        }
    }
    assert!(trips > 200, "{trips}");
}

fn areas(output: usize) -> (Vec<u16>, Vec<u8>, Vec<u8>) {
    (vec![7; TABLE + 5], vec![7; WORK + 5], vec![7; output])
}

/// "After a call the table holds, if the file is accepted," its lines,
/// and "with either 7 the table holds the accepted file's lines".
#[test]
fn lent_areas_are_left_as_by_check() {
    let s = lines(S);
    let known = Known::of(&s);
    let (mut table, mut work, _) = areas(0);
    check_areas(&s, &mut table, &mut work);
    let (four, long) = (lines("0,1 1,0 2,2 3,3"), identity(129));
    for (list, number) in [(&four[..], 0), (b"", 20), (&long, 7)] {
        let (mut own, mut worked, mut output) = areas(FILE + 9);
        let given = import(&known, &mut own, &mut worked, (2, 2, list), &mut output);
        let written = file_of(&check(&s).unwrap(), 2, 2, list).unwrap_or_default();
        let wanted = Written {
            number,
            line: 0,
            length: written.len(),
        };
        assert_eq!(given, wanted);
        assert_eq!((&own, &worked), (&table, &work));
        assert_eq!(output[..written.len()], written);
        assert!(output[written.len()..].iter().all(|byte| *byte == 7));
    }
    for (iso, budget, number) in [(1, 2, 0), (1, 1, 17), (2, 2, 15)] {
        let (mut own, mut worked, mut output) = areas(LIST + 9);
        let given = export(&known, &mut own, &mut worked, (iso, budget), &mut output);
        let length = if number == 0 { four.len() } else { 0 };
        assert_eq!(
            (given.number, given.line, given.length),
            (number, 0, length)
        );
        assert_eq!((&own, &worked), (&table, &work));
        assert_eq!(output[..length], four[..length]);
        assert!(output[length..].iter().all(|byte| *byte == 7));
    }
}

/// 1 before all others, 2 to 14 before 15, as in Check; 1 and 2 change nothing.
#[test]
fn refusals_of_areas_and_files() {
    for (file, refused) in refused_files().iter().zip(REFUSED) {
        let known = Known::of(file);
        for (table, work, short) in [(0, 0, 0), (1, 0, 0), (0, 1, 0), (0, 0, 1)] {
            let shorter = |full: usize, less: usize| full - less;
            let number = if (table, work, short) == (0, 0, 0) {
                refused
            } else {
                1
            };
            let mut own = vec![7; shorter(TABLE, table)];
            let mut worked = vec![7; shorter(WORK, work)];
            let mut output = vec![7; shorter(LIST, short)];
            let lists = export(&known, &mut own, &mut worked, (9, 0), &mut output);
            let mut into = vec![7; shorter(FILE, short)];
            let files = import(&known, &mut own, &mut worked, (9, 9, b"x"), &mut into);
            assert_eq!((lists.number, lists.length), (number, 0));
            assert_eq!((files.number, files.length), (number, 0));
            assert_eq!(lists.line == 0, number < 3);
            assert_eq!(files.line, lists.line);
            assert!(output.iter().chain(&into).all(|byte| *byte == 7));
            let kept = if number < 3 { 7 } else { 0 };
            assert!(own.iter().all(|number| *number == kept));
            assert!(worked.iter().all(|byte| u16::from(*byte) == kept));
        }
    }
}

/// The T line of most weight.
fn heaviest(rules: &Rules, weight: impl Fn(&Type) -> usize) -> u32 {
    let lines = 0..rules.types.len();
    let most = lines.max_by_key(|place| weight(&rules.types[*place]));
    most.expect("a type") as u32
}

/// The P lines and the most left and right nodes of what an import would write,
/// and whether it is written.
fn weighed(rules: &Rules, ty: u32, list: &[u8]) -> (usize, usize, bool) {
    let file = unjudged(rules, ty, ty, list).expect("a good list");
    let patterns = split(&file).iter().filter(|line| line[0] == b'P').count();
    let sides = |letters: Vec<u8>| {
        letters
            .iter()
            .filter(|letter| b"LR".contains(letter))
            .count()
    };
    let most = settings(&rules.types[ty as usize])
        .into_iter()
        .map(sides)
        .max();
    let given = file_of(rules, ty, ty, list);
    assert!(matches!(given, Ok(_) | Err(7)));
    (patterns, most.expect("a value"), given.is_ok())
}

/// The files and lists that are made for requests 07 and 13 are what they are to
/// be.
#[test]
fn made_files_and_lists() {
    let mut random = Random::new(8);
    for limit in limits().repeat(3) {
        let rules = check(&listed::file(&mut random, limit)).expect("accepted");
        let is = |iso: &Iso| values(&iso.from) == limit.values();
        assert!(rules.isos.iter().any(is), "{limit:?}");
        let ty = match limit {
            Limit::Values(_) => continue,
            Limit::Lines(_) | Limit::Long(_) => heaviest(&rules, Type::nodes),
            Limit::Sides(_) | Limit::Deep(_) => heaviest(&rules, most_sides),
        };
        let list = listed::list(&mut random, limit.values() as usize);
        let (patterns, sides, written) = weighed(&rules, ty, &list);
        let right = match limit {
            Limit::Lines(lines) => patterns == lines && sides <= 40,
            Limit::Long(_) => patterns > 1_024,
            Limit::Sides(wanted) => patterns <= 1_024 && sides == wanted,
            _ => patterns <= 1_024 && sides > 40,
        };
        assert!(right, "{limit:?}: {patterns} P lines, {sides} sides");
        assert_eq!(written, patterns <= 1_024 && sides <= 40, "{limit:?}");
    }
}

#[test]
fn made_flaws() {
    let mut random = Random::new(9);
    let types = types(TYPES);
    for round in 0..3_000 {
        let (ty, count) = *random.pick(&[(0, 1), (1, 2), (2, 3), (3, 4)]);
        let flaw = FLAWS[round % FLAWS.len()];
        let place = random.below(count);
        let list = listed::flawed(&mut random, count, flaw, place);
        let given = file_of(&types, ty, ty, &list);
        if !matches!(flaw, Flaw::Damaged | Flaw::Noise) {
            assert_eq!(given, Err(20), "{flaw:?} {list:?}");
        }
        let good = listed::list(&mut random, count);
        let written = file_of(&types, ty, ty, &good).expect("a good list");
        let plain: Vec<u8> = good.into_iter().filter(|byte| *byte != b'\r').collect();
        assert_eq!(list_of(&check(&written).unwrap(), 0, 1), Ok(plain));
    }
}
