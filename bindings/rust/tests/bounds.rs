//! Steps known beforehand, through the wrapper: bounds of document 01's file, at the limit, held to runs;
//! refusals and lent areas.

use rulefile::{
    bounds, Bounds, Desk, Direction, Query, Refusal, Refused, TABLE_LENGTH, WORK_LENGTH,
};
use Direction::{Back, Forward};

/// Document 01's file S, its lines parted by blanks.
const S: &str = "T,0,0,0 T,1,0,0 T,2,1,1 P,0,0,0 P,2,0,0 P,3,0,0 P,1,0,0 P,1,1,0 P,4,1,3 P,4,1,4 \
    P,4,2,3 I,1,1 C,1,2 C,2,1 I,2,2 C,5,6 L,4,0,3 C,7,7";

/// A file from its lines.
fn file(lines: &str) -> Vec<u8> {
    lines
        .split_whitespace()
        .flat_map(|line| [line.as_bytes(), b"\n"].concat())
        .collect()
}

/// Bounds that are not flagged.
fn told(least: u32, greatest: u32) -> Result<Bounds, Refused> {
    Ok(Bounds {
        least,
        greatest,
        least_over: false,
        greatest_over: false,
    })
}

fn refused(refusal: Refusal) -> Result<Bounds, Refused> {
    Err(Refused { refusal, line: 0 })
}

/// Isos on a unit, each of which calls the one below it so often; behind them one that calls these.
fn tower(height: usize, times: usize, last: &[usize]) -> Vec<u8> {
    let calls = |calls: &[usize]| -> String {
        let steps = calls.iter().map(|iso| format!(" L,0,{iso},0"));
        format!(" I,0,0 C,0,0{}", steps.collect::<String>())
    };
    let below = (1..height).map(|iso| calls(&vec![iso - 1; times]));
    let isos: String = below.collect();
    file(&format!(
        "T,0,0,0 P,0,0,0{}{isos}{}",
        calls(&[]),
        calls(last)
    ))
}

#[test]
fn bounds_of_document_01() {
    let mut desk = Desk::new();
    let s = file(S);
    assert_eq!(desk.bounds(&s, 0), told(1, 1));
    assert_eq!(desk.bounds(&s, 1), told(1, 2));
    assert_eq!(desk.table()[..4], [84, 0, 0, 0]);
    let turned = desk.turn(&s).unwrap();
    assert_eq!(desk.bounds(&turned, 1), told(1, 2));
}

#[test]
fn bounds_at_the_limit() {
    let mut desk = Desk::new();
    for (calls, number, over) in [
        (&[30, 29, 29][..], u32::MAX - 1, false),
        (&[30, 30], u32::MAX, false),
        (&[30, 30, 0], u32::MAX, true),
        (&[30; 8], u32::MAX, true),
    ] {
        let wanted = Bounds {
            least: number,
            greatest: number,
            least_over: over,
            greatest_over: over,
        };
        assert_eq!(desk.bounds(&tower(31, 2, calls), 31), Ok(wanted));
    }
    // Eight calls in each of 32 isos.
    let deep = tower(31, 8, &[30; 8]);
    assert_eq!(
        desk.bounds(&deep, 10).map(|told| told.greatest_over),
        Ok(false)
    );
    assert_eq!(desk.bounds(&deep, 11).map(|told| told.least_over), Ok(true));
    assert_eq!(
        desk.bounds(&deep, 31).map(|told| told.greatest),
        Ok(u32::MAX)
    );
}

/// A run counts between the bounds, is never refused 17 under the greatest, and always is under less than the
/// least.
#[test]
fn bounds_hold_of_runs() {
    let mut desk = Desk::new();
    let spent = Err(Refusal::Spent);
    for iso in 0..12 {
        let file = tower(20, 2, &[3, 0, 7]);
        let Bounds {
            least, greatest, ..
        } = desk.bounds(&file, iso).unwrap();
        for way in [Forward, Back] {
            let mut count = |budget| {
                let ran = desk.run(&file, Query::new(iso, way, budget, b"U"));
                ran.map(|value| value.count)
                    .map_err(|refused| refused.refusal)
            };
            assert_eq!((count(greatest), count(least - 1)), (Ok(least), spent));
        }
    }
    let s = file(S);
    for (letters, count) in [("PLULU", 2), ("PLURU", 2), ("PRULU", 1), ("PRURU", 1)] {
        for way in [Forward, Back] {
            let ran = desk
                .run(&s, Query::new(1, way, 2, letters.as_bytes()))
                .unwrap();
            assert_eq!(ran.count, count);
        }
    }
}

#[test]
fn refusals_of_bounds() {
    let mut desk = Desk::new();
    let s = file(S);
    for iso in [2, 3, 256, 65_536, 65_537, 1 << 31, u32::MAX] {
        assert_eq!(desk.bounds(&s, iso), refused(Refusal::NoIso));
        assert_eq!(desk.bounds(b"", iso), refused(Refusal::NoIso));
    }
    let overlap = file(&format!("{S} C,7,7"));
    for iso in [0, 2, u32::MAX] {
        let line = |refusal, line| Err(Refused { refusal, line });
        assert_eq!(desk.bounds(&overlap, iso), line(Refusal::OverlapLeft, 15));
        assert_eq!(desk.bounds(b"T", iso), line(Refusal::BadLine, 1));
        let long = vec![b'\n'; 4_097];
        assert_eq!(desk.bounds(&long, iso), refused(Refusal::TooLong));
    }
}

/// Areas of these lengths with a pattern in them, before and after the bounds of an iso of S.
fn areas(table: usize, work: usize, iso: u32) -> (Result<Bounds, Refused>, Vec<u16>, Vec<u8>) {
    let (mut table, mut work) = (vec![0xA5A5; table], vec![0xA5; work]);
    let given = bounds(&file(S), &mut table, &mut work, iso);
    (given, table, work)
}

#[test]
fn lent_areas() {
    for (iso, wanted) in [(1, told(1, 2)), (2, refused(Refusal::NoIso))] {
        let (given, table, work) = areas(TABLE_LENGTH + 3, WORK_LENGTH + 3, iso);
        assert_eq!(given, wanted);
        // As after Check: the lines of the file and zeros, and what lies behind is kept.
        assert_eq!(table[..10], [84, 0, 0, 0, 1, 84, 1, 0, 0, 3]);
        assert_eq!(table[17 * 5..18 * 5], [67, 7, 7, 0, 0]);
        assert!(table[18 * 5..TABLE_LENGTH]
            .iter()
            .all(|number| *number == 0));
        assert_eq!(table[TABLE_LENGTH..], [0xA5A5; 3]);
        assert!(work[..WORK_LENGTH].iter().all(|byte| *byte == 0));
        assert_eq!(work[WORK_LENGTH..], [0xA5; 3]);
    }
    for (table, work) in [
        (TABLE_LENGTH - 1, WORK_LENGTH),
        (TABLE_LENGTH, WORK_LENGTH - 1),
        (0, 0),
    ] {
        for iso in [1, 2] {
            let (given, table, work) = areas(table, work, iso);
            assert_eq!(given, refused(Refusal::ShortArea));
            assert!(table.iter().all(|number| *number == 0xA5A5));
            assert!(work.iter().all(|byte| *byte == 0xA5));
        }
    }
}
