//! Pair lists through the wrapper: an iso as a list, a file out of a list, both ways after each other; each
//! refusal, their order, and lent areas.

use rulefile::{
    export, import, Desk, Direction, Query, Refusal, Refused, LIST_LENGTH, MAX_FILE_LENGTH,
    TABLE_LENGTH, WORK_LENGTH,
};
use Refusal::*;

/// Document 01's file S, its lines parted by blanks.
const S: &str = "T,0,0,0 T,1,0,0 T,2,1,1 P,0,0,0 P,2,0,0 P,3,0,0 P,1,0,0 P,1,1,0 P,4,1,3 P,4,1,4 \
    P,4,2,3 I,1,1 C,1,2 C,2,1 I,2,2 C,5,6 L,4,0,3 C,7,7";

/// Its iso 1 as a list, and the file that this gives.
const LIST: &str = "0,1 1,0 2,2 3,3";
const FILE: &str =
    "T,0,0,0 T,1,0,0 T,2,1,1 P,0,0,0 P,2,0,0 P,4,1,1 P,3,0,0 P,4,1,3 P,4,3,1 P,4,3,3 \
    I,2,2 C,2,4 C,4,2 C,5,5 C,6,6";

/// Lines from words.
fn lines(words: &str) -> Vec<u8> {
    words
        .split_whitespace()
        .flat_map(|line| [line.as_bytes(), b"\n"].concat())
        .collect()
}

fn refused(refusal: Refusal) -> Refused {
    Refused { refusal, line: 0 }
}

/// Products of so many two-valued types: T line k has 2^k values; T line 0 has one, and behind the last T line
/// stands a sum of both. Iso 0 gives each value of that T line back, iso 1 each of the sum.
fn bits(count: usize) -> Vec<u8> {
    let more: String = (1..count).map(|bits| format!("T,2,1,{bits} ")).collect();
    let sum = count + 1;
    lines(&format!(
        "T,0,0,0 T,1,0,0 {more}T,1,{count},0 P,1,0,0 I,{count},{count} C,0,0 I,{sum},{sum} C,0,0"
    ))
}

/// `0,0`, `1,1` and so on.
fn identity(count: usize) -> Vec<u8> {
    let line = |number: usize| format!("{number},{number}\n");
    (0..count).map(line).collect::<String>().into_bytes()
}

/// A sum of 32 units nested to the right, under so many products with a unit.
fn under_products(count: usize) -> (Vec<u8>, u32) {
    let mut file = String::from("T,0,0,0 ");
    for below in 0..31 {
        file += &format!("T,1,0,{below} ");
    }
    for below in 31..31 + count {
        file += &format!("T,2,0,{below} ");
    }
    let last = 31 + count;
    file += &format!("P,1,0,0 I,{last},{last} C,0,0");
    (lines(&file), last as u32)
}

#[test]
fn document_01_as_a_list_and_back() {
    let mut desk = Desk::new();
    let s = lines(S);
    assert_eq!(desk.export(&s, 0, 1), Ok(lines("0,1 1,0")));
    assert_eq!(desk.export(&s, 1, 2), Ok(lines(LIST)));
    assert_eq!(desk.import(&s, 2, 2, &lines(LIST)), Ok(lines(FILE)));
    assert_eq!(desk.table()[..4], [84, 0, 0, 0]);
    let file = lines(FILE);
    assert_eq!(desk.check(&file), Ok(()));
    for budget in [1, 2, u32::MAX] {
        assert_eq!(desk.export(&file, 0, budget), Ok(lines(LIST)));
    }
    for (value, given) in [("PLULU", "PLURU"), ("PRULU", "PRULU")] {
        let ran = desk.run(
            &file,
            Query::new(0, Direction::Forward, 1, value.as_bytes()),
        );
        assert_eq!(ran.unwrap().letters, given.as_bytes());
    }
    // Carriage returns in the list are taken out.
    let list = b"0,1\r\n1,0\n2,2\r\n3,3\r\n";
    assert_eq!(desk.import(&s, 2, 2, list), Ok(file));
}

/// From-type and to-type differ, share parts, are one line, or are equal under different lines.
#[test]
fn two_types() {
    let mut desk = Desk::new();
    let file = lines("T,0,0,0 T,1,0,0 T,2,1,0 T,0,0,0 T,1,3,3 P,1,0,0 I,2,2 C,0,0 I,4,4 C,0,0");
    for (from, to, written) in [
        (
            1,
            2,
            "T,0,0,0 T,1,0,0 T,2,1,0 P,0,0,0 P,2,0,0 P,3,0,0 P,4,2,0 P,4,1,0 I,1,2 C,1,3 C,2,4",
        ),
        (
            2,
            1,
            "T,0,0,0 T,1,0,0 T,2,1,0 P,0,0,0 P,2,0,0 P,4,1,0 P,3,0,0 P,4,3,0 I,2,1 C,2,3 C,4,1",
        ),
        (
            4,
            1,
            "T,0,0,0 T,1,0,0 P,0,0,0 P,2,0,0 P,3,0,0 I,1,1 C,1,2 C,2,1",
        ),
        (
            4,
            4,
            "T,0,0,0 T,1,0,0 P,0,0,0 P,2,0,0 P,3,0,0 I,1,1 C,1,2 C,2,1",
        ),
    ] {
        let given = desk.import(&file, from, to, b"0,1\n1,0\n");
        assert_eq!(given, Ok(lines(written)), "{from} {to}");
    }
    // One value each.
    let written = lines("T,0,0,0 P,0,0,0 I,0,0 C,0,0");
    assert_eq!(desk.import(&file, 3, 0, b"0,0\n"), Ok(written));
}

#[test]
fn counts_at_the_limits() {
    let mut desk = Desk::new();
    let large = bits(12);
    assert_eq!(desk.export(&large, 0, 1), Ok(identity(4_096)));
    assert_eq!(desk.export(&large, 1, 1), Err(refused(TooMany)));
    let small = bits(5);
    assert_eq!(desk.export(&small, 1, 1), Ok(identity(33)));
    let written = desk.import(&small, 5, 5, &identity(32)).unwrap();
    assert_eq!(desk.export(&written, 0, 1), Ok(identity(32)));
    let written = desk.import(&small, 6, 6, &identity(33)).unwrap();
    assert_eq!(desk.export(&written, 0, 1), Ok(identity(33)));
    for list in [identity(129), [identity(128), b"1".to_vec()].concat()] {
        assert_eq!(desk.import(&small, 6, 6, &list), Err(refused(Ceiling)));
        assert_eq!(desk.import(&small, 5, 5, &list), Err(refused(Ceiling)));
    }
    // Each product more takes 32 P lines more, of which a file may have 1,024.
    let count = |file: &[u8]| {
        file.split(|byte| *byte == b'\n')
            .filter(|l| l.starts_with(b"P"))
            .count()
    };
    for (products, wanted) in [(29, Some(991)), (30, Some(1_023)), (31, None)] {
        let (file, ty) = under_products(products);
        let written = desk.import(&file, ty, ty, &identity(32));
        let found = written.map(|written| count(&written));
        assert_eq!(found, wanted.ok_or(refused(Ceiling)), "{products}");
    }
}

#[test]
fn bad_lists() {
    let mut desk = Desk::new();
    let s = lines(S);
    let long = vec![b'0'; 100_000];
    for list in [
        &b""[..],
        b"\n",
        b"0,0\n",
        b"0,0\n1,1",
        b"0,0\n1,1\r",
        b"0,0\n1,1\n\n",
        b"0,0\n1,1\n2,0\n",
        b"0,0\n1,0\n",
        b"0,0\n1,2\n",
        b"1,0\n0,1\n",
        b"1,0\n2,1\n",
        b"0,0\n0,1\n",
        b"0,0\n2,1\n",
        b"0,0\n1,65535\n",
        b"0,0\n1,65536\n",
        b"0,0\n1,65537\n",
        b"0,0\n1,4294967297\n",
        b"0,0\n65537,1\n",
        b"0,0\n4294967297,1\n",
        b"00,0\n1,1\n",
        b"0,00\n1,1\n",
        b"0,0,\n1,1\n",
        b"0, 0\n1,1\n",
        b"0;0\n1,1\n",
        b"+0,0\n1,1\n",
        b"0,-0\n1,1\n",
        b"0\r,0\n1,1\n",
        b"\r0,0\n1,1\n",
        b"0,0\r\r\n1,1\n",
        b"0,\n1,1\n",
        b",0\n1,1\n",
        b"0,0\n1,1\0\n",
        b"0,0\n1,\xff\n",
        b"C,0\n1,1\n",
        &long,
    ] {
        let given = desk.import(&s, 1, 1, list);
        assert_eq!(given, Err(refused(BadList)), "{list:?}");
        // With a type of four values the right one for two is bad too.
        assert_eq!(desk.import(&s, 1, 2, list), Err(refused(BadList)));
        assert_eq!(desk.import(&s, 2, 1, list), Err(refused(BadList)));
    }
    assert!(desk.import(&s, 1, 1, b"0,0\n1,1\n").is_ok());
    assert!(desk.import(&s, 1, 1, b"0,1\r\n1,0\r\n").is_ok());
}

#[test]
fn refusals_of_export() {
    let mut desk = Desk::new();
    let s = lines(S);
    for iso in [2, 3, 256, 257, 65_536, 65_537, 1 << 31, u32::MAX] {
        assert_eq!(desk.export(&s, iso, 9), Err(refused(NoIso)));
        assert_eq!(desk.export(b"", iso, 0), Err(refused(NoIso)));
    }
    // One pair of iso 1 takes two steps; the budget is for each pair.
    assert_eq!(desk.export(&s, 1, 1), Err(refused(Spent)));
    assert_eq!(desk.export(&s, 0, 0), Err(refused(Spent)));
    assert!(desk.export(&s, 0, 1).is_ok());
    // 18 before 17.
    assert_eq!(desk.export(&bits(13), 0, 0), Err(refused(TooMany)));
    let overlap = lines(&format!("{S} C,7,7"));
    for iso in [0, 2] {
        let given = desk.export(&overlap, iso, 0);
        let refusal = OverlapLeft;
        assert_eq!(given, Err(Refused { refusal, line: 15 }));
    }
}

#[test]
fn refusals_of_import() {
    let mut desk = Desk::new();
    let (s, large) = (lines(S), bits(13));
    let (good, bad, long) = (identity(4), &b"x"[..], identity(129));
    for ty in [3, 12, 256, 258, 65_536, 65_538, 1 << 31, u32::MAX] {
        for list in [&good[..], bad, &long] {
            assert_eq!(desk.import(&s, ty, 2, list), Err(refused(NoIso)));
            assert_eq!(desk.import(&s, 2, ty, list), Err(refused(NoIso)));
        }
    }
    for list in [&good[..], bad, &long] {
        // 15 before 18, on either side; 18 for either type, before 7 and 20.
        assert_eq!(desk.import(&large, 13, 15, list), Err(refused(NoIso)));
        assert_eq!(desk.import(&large, 15, 13, list), Err(refused(NoIso)));
        assert_eq!(desk.import(&large, 13, 2, list), Err(refused(TooMany)));
        assert_eq!(desk.import(&large, 2, 13, list), Err(refused(TooMany)));
    }
    // 7 before 20; types of 4,096 values are no 18.
    let bad = vec![b'\n'; 129];
    assert_eq!(desk.import(&s, 2, 2, &bad), Err(refused(Ceiling)));
    assert_eq!(desk.import(&large, 12, 12, &long), Err(refused(Ceiling)));
    assert_eq!(desk.import(&large, 12, 12, &good), Err(refused(BadList)));
    // 20 before the other 7.
    let (file, ty) = under_products(31);
    assert_eq!(
        desk.import(&file, ty, ty, &identity(31)),
        Err(refused(BadList))
    );
    assert_eq!(
        desk.import(&file, ty, ty, &identity(32)),
        Err(refused(Ceiling))
    );
    // The file's own refusal comes first, with its line.
    let overlap = lines(&format!("{S} C,7,7"));
    let refusal = OverlapLeft;
    assert_eq!(
        desk.import(&overlap, 3, 3, &bad),
        Err(Refused { refusal, line: 15 })
    );
}

/// Areas of these lengths with a pattern in them, and what a call leaves there.
struct Lent {
    table: Vec<u16>,
    work: Vec<u8>,
    output: Vec<u8>,
}

impl Lent {
    fn new(table: usize, work: usize, output: usize) -> Lent {
        Lent {
            table: vec![0xA5A5; table],
            work: vec![0xA5; work],
            output: vec![0xA5; output],
        }
    }

    fn export(&mut self, file: &[u8], budget: u32) -> Result<usize, Refused> {
        export(
            file,
            &mut self.table,
            &mut self.work,
            1,
            budget,
            &mut self.output,
        )
    }

    fn import(&mut self, file: &[u8], list: &[u8]) -> Result<usize, Refused> {
        import(
            file,
            &mut self.table,
            &mut self.work,
            [2, 2],
            list,
            &mut self.output,
        )
    }

    /// The lines of S in the table, zeros in the work area, what was written in the output; all else is kept.
    fn expect(&self, written: &[u8]) {
        assert_eq!(self.table[..10], [84, 0, 0, 0, 1, 84, 1, 0, 0, 3]);
        assert_eq!(self.table[17 * 5..18 * 5], [67, 7, 7, 0, 0]);
        let rest = &self.table[18 * 5..TABLE_LENGTH];
        assert!(rest.iter().all(|number| *number == 0));
        assert!(self.table[TABLE_LENGTH..]
            .iter()
            .all(|number| *number == 0xA5A5));
        assert!(self.work[..WORK_LENGTH].iter().all(|byte| *byte == 0));
        assert!(self.work[WORK_LENGTH..].iter().all(|byte| *byte == 0xA5));
        let (front, behind) = self.output.split_at(written.len());
        assert_eq!(front, written);
        assert!(behind.iter().all(|byte| *byte == 0xA5));
    }

    fn expect_unchanged(&self) {
        assert!(self.table.iter().all(|number| *number == 0xA5A5));
        assert!(self.work.iter().all(|byte| *byte == 0xA5));
        assert!(self.output.iter().all(|byte| *byte == 0xA5));
    }
}

#[test]
fn lent_areas() {
    let (s, list, file) = (lines(S), lines(LIST), lines(FILE));
    for extra in [0, 1, 1000] {
        let lent = |output| Lent::new(TABLE_LENGTH + extra, WORK_LENGTH + extra, output + extra);
        for (budget, wanted) in [(2, Ok(list.len())), (1, Err(refused(Spent)))] {
            let mut areas = lent(LIST_LENGTH);
            assert_eq!(areas.export(&s, budget), wanted);
            areas.expect(if wanted.is_ok() { &list } else { b"" });
        }
        for (list, wanted) in [
            (&list, Ok(file.len())),
            (&identity(3), Err(refused(BadList))),
            (&identity(129), Err(refused(Ceiling))),
        ] {
            let mut areas = lent(MAX_FILE_LENGTH);
            assert_eq!(areas.import(&s, list), wanted);
            areas.expect(if wanted.is_ok() { &file } else { b"" });
        }
    }
}

#[test]
fn short_and_empty_areas() {
    let (s, list) = (lines(S), lines(LIST));
    for (table, work, output) in [
        (1, 0, 0),
        (0, 1, 0),
        (0, 0, 1),
        (TABLE_LENGTH, WORK_LENGTH, 40_960),
    ] {
        let (table, work) = (TABLE_LENGTH - table, WORK_LENGTH - work);
        let mut areas = Lent::new(table, work, LIST_LENGTH - output);
        assert_eq!(areas.export(&s, 2), Err(refused(ShortArea)));
        assert_eq!(areas.export(b"x", 0), Err(refused(ShortArea)));
        areas.expect_unchanged();
        let mut areas = Lent::new(table, work, MAX_FILE_LENGTH - output);
        assert_eq!(areas.import(&s, &list), Err(refused(ShortArea)));
        assert_eq!(areas.import(b"x", b"x"), Err(refused(ShortArea)));
        areas.expect_unchanged();
    }
    // Refusal 2 changes nothing either, and comes after 1.
    let long = vec![b'\n'; 4_097];
    let mut areas = Lent::new(TABLE_LENGTH, WORK_LENGTH, MAX_FILE_LENGTH);
    assert_eq!(areas.export(&long, 2), Err(refused(TooLong)));
    assert_eq!(areas.import(&long, &list), Err(refused(TooLong)));
    areas.expect_unchanged();
    let mut areas = Lent::new(TABLE_LENGTH, WORK_LENGTH, LIST_LENGTH - 1);
    assert_eq!(areas.export(&long, 2), Err(refused(ShortArea)));
    assert_eq!(areas.import(&long, &list), Err(refused(ShortArea)));
}
