//! Units tried out, through the wrapper: a play held to the services visit by visit; what is done, skipped and spent;
//! the way back; each refusal, their order, and lent areas.

use rulefile::{
    play, Desk, Direction, Query, Refusal, Refused, Tally, MAX_UNITS, TABLE_LENGTH, WORK_LENGTH,
};
use Direction::{Back, Forward};
use Refusal::*;

/// Document 01's file S, its lines parted by blanks. T line 1 has 2 settings, T line 2 has 4; iso 0 begins and ends at
/// T line 1, iso 1 at T line 2; iso 1 takes two steps for the settings 0 and 1, and one for 2 and 3.
const S: &str = "T,0,0,0 T,1,0,0 T,2,1,1 P,0,0,0 P,2,0,0 P,3,0,0 P,1,0,0 P,1,1,0 P,4,1,3 P,4,1,4 \
    P,4,2,3 I,1,1 C,1,2 C,2,1 I,2,2 C,5,6 L,4,0,3 C,7,7";

/// T lines 1 and 3 have one tree; iso 0 leads from T line 1 to T line 3, iso 1 exchanges the settings of T line 3 and
/// leads to T line 1.
const ENDS: &str = "T,0,0,0 T,1,0,0 T,0,0,0 T,1,2,2 P,1,0,0 P,0,0,0 P,2,1,0 P,3,1,0 I,1,3 C,0,0 \
    I,3,1 C,2,3 C,3,2";

/// Lines from words.
fn lines(words: &str) -> Vec<u8> {
    words
        .split_whitespace()
        .flat_map(|line| [line.as_bytes(), b"\n"].concat())
        .collect()
}

fn refused(refusal: Refusal) -> Result<Tally, Refused> {
    Err(Refused { refusal, line: 0 })
}

fn tally(done: u32, skipped: u32, spent: u32) -> Tally {
    Tally {
        done,
        skipped,
        spent,
    }
}

/// Units, each a T line and a setting number.
type Units = Vec<(u32, u32)>;

/// A play on units, and the units after it.
fn played(
    file: &[u8],
    units: &[(u32, u32)],
    script: &[u8],
    budget: u32,
) -> (Result<Tally, Refused>, Units) {
    let (mut types, mut settings): (Vec<u32>, Vec<u32>) = units.iter().copied().unzip();
    let given = Desk::new().play(file, &mut types, &mut settings, script, budget);
    (given, types.into_iter().zip(settings).collect())
}

/// A play that is refused: the units are as they were.
fn expect_refused(file: &[u8], units: &[(u32, u32)], script: &[u8], refusal: Refusal) {
    let (given, after) = played(file, units, script, 9);
    assert_eq!(given, refused(refusal), "{}", script.escape_ascii());
    assert_eq!(after, units);
}

/// A script last line first, with directions exchanged.
fn backward(script: &str) -> String {
    let visits = script.split_whitespace().rev();
    let turned = visits.map(|line| match line.strip_suffix(",0") {
        Some(front) => format!("{front},1 "),
        None => format!("{},0 ", line.strip_suffix(",1").unwrap()),
    });
    turned.collect()
}

#[test]
fn visits_of_document_01() {
    let units = [(1, 0), (2, 1), (2, 3), (0, 0)];
    let script = "S,0,0,0 S,1,1,0 S,2,1,0 S,1,1,0 S,1,1,0 S,0,0,1";
    let (given, after) = played(&lines(S), &units, &lines(script), 2);
    assert_eq!(given, Ok(tally(6, 0, 0)));
    assert_eq!(after, [(1, 0), (2, 0), (2, 3), (0, 0)]);
}

/// What comes of a visit by the services: number to letters, run, letters to number. The types of S have different
/// trees, and each of its isos begins and ends at the same one.
fn visited(desk: &mut Desk, s: &[u8], unit: (u32, u32), query: Query) -> Result<u32, Refusal> {
    let refusal = |refused: Refused| refused.refusal;
    let letters = desk.setting_of(s, unit.0, unit.1).map_err(refusal)?;
    let query = Query {
        letters: &letters,
        ..query
    };
    let value = desk.run(s, query).map_err(refusal)?;
    desk.number_of(s, unit.0, &value.letters).map_err(refusal)
}

#[test]
fn every_visit_is_what_the_services_give() {
    let (mut desk, s) = (Desk::new(), lines(S));
    let counts = [1, 2, 4];
    let units = (0..3).flat_map(|ty| (0..counts[ty as usize]).map(move |number| (ty, number)));
    for unit in units {
        for (iso, way, budget) in (0..2).flat_map(|iso| {
            [Forward, Back]
                .into_iter()
                .flat_map(move |way| (0..3).map(move |budget| (iso, way, budget)))
        }) {
            let query = Query::new(iso, way, budget, b"");
            let expected = match visited(&mut desk, &s, unit, query) {
                Ok(number) => (tally(1, 0, 0), (unit.0, number)),
                Err(Spent) => (tally(0, 0, 1), unit),
                Err(NoValue) => (tally(0, 1, 0), unit),
                Err(other) => panic!("{other}"),
            };
            let line = format!("S,0,{iso},{}", u32::from(way == Back));
            let (given, after) = played(&s, &[unit], &lines(&line), budget);
            assert_eq!((given, after[0]), (Ok(expected.0), expected.1), "{line}");
        }
    }
}

#[test]
fn skipped_and_spent_leave_the_unit() {
    let s = lines(S);
    // Iso 1 does not begin at T line 1, nor iso 0 at T line 2.
    let (given, after) = played(&s, &[(1, 1), (2, 3)], &lines("S,0,1,0 S,1,0,1"), 9);
    assert_eq!((given, after), (Ok(tally(0, 2, 0)), vec![(1, 1), (2, 3)]));
    // Two steps for setting 0, one for setting 2; a budget of 0 is enough for none.
    let units = [(2, 0), (2, 2)];
    let script = lines("S,0,1,0 S,1,1,0");
    for (budget, counts, after) in [
        (0, tally(0, 0, 2), units),
        (1, tally(1, 0, 1), units),
        (2, tally(2, 0, 0), [(2, 1), (2, 2)]),
        (u32::MAX, tally(2, 0, 0), [(2, 1), (2, 2)]),
    ] {
        let (given, found) = played(&s, &units, &script, budget);
        assert_eq!((given, found.as_slice()), (Ok(counts), &after[..]));
    }
    // Each visit has the budget for itself, and one that is skipped or spent does not end the play.
    let script = lines("S,0,1,0 S,0,0,0 S,1,1,0 S,0,1,0");
    let (given, after) = played(&s, &[(2, 0), (2, 3)], &script, 1);
    assert_eq!((given, after), (Ok(tally(1, 1, 2)), vec![(2, 0), (2, 3)]));
}

#[test]
fn done_stores_the_other_end() {
    let file = lines(ENDS);
    for (unit, script, after) in [
        ((1, 0), "S,0,0,0", (3, 0)),
        // The tree counts, not the line.
        ((3, 0), "S,0,0,0", (3, 0)),
        ((3, 0), "S,0,0,1", (1, 0)),
        ((1, 1), "S,0,1,0", (1, 0)),
        ((1, 1), "S,0,1,1", (3, 0)),
        ((1, 0), "S,0,0,0 S,0,1,0 S,0,1,0", (1, 0)),
    ] {
        let (given, found) = played(&file, &[unit], &lines(script), 1);
        let visits = script.split_whitespace().count() as u32;
        assert_eq!((given, found), (Ok(tally(visits, 0, 0)), vec![after]));
    }
}

#[test]
fn the_script_backward_restores() {
    let s = lines(S);
    let units = [(2, 0), (1, 1), (2, 3), (2, 1), (0, 0)];
    let script = "S,0,1,0 S,1,0,1 S,3,1,0 S,0,1,1 S,0,1,0 S,2,1,1 S,1,0,0 S,3,1,0";
    let (given, after) = played(&s, &units, &lines(script), 2);
    assert_eq!(given, Ok(tally(8, 0, 0)));
    let (given, restored) = played(&s, &after, &lines(&backward(script)), 2);
    assert_eq!((given, restored), (Ok(tally(8, 0, 0)), units.to_vec()));
    // Where a unit's own line is not the I line's, the tree and the number come back.
    let file = lines(ENDS);
    let script = "S,0,0,0 S,0,1,0";
    let (given, after) = played(&file, &[(3, 1)], &lines(script), 1);
    assert_eq!(
        (given, after.as_slice()),
        (Ok(tally(2, 0, 0)), &[(1, 0)][..])
    );
    let (given, restored) = played(&file, &after, &lines(&backward(script)), 1);
    assert_eq!((given, restored), (Ok(tally(2, 0, 0)), vec![(1, 1)]));
}

#[test]
fn nothing_to_play() {
    for file in [lines(S), Vec::new()] {
        assert_eq!(played(&file, &[], b"", 9), (Ok(tally(0, 0, 0)), vec![]));
        expect_refused(&file, &[], b"S,0,0,0\n", BadScript);
        expect_refused(&file, &[], b"\n", BadScript);
    }
    let units = vec![(1, 1), (2, 3)];
    assert_eq!(
        played(&lines(S), &units, b"", 9),
        (Ok(tally(0, 0, 0)), units)
    );
    expect_refused(b"", &[(0, 0)], b"", NoIso);
}

/// Lines that are no visits to either of two units by either iso of S, parted by blanks.
const NO_VISITS: &str = "S,0,0,2 S,0,0,10 S,0,0, S,0,0 S,0,0,0,0 S,00,0,0 S,0,00,0 S,0,0,00 S,+0,0,0 S,,0,0 s,0,0,0 \
    Q,0,0,0 S0,0,0 ,0,0,0 S;0;0;0 S,2,0,0 S,65535,0,0 S,65536,0,0 S,0,2,0 S,0,65536,0 S,4294967296,0,0";

#[test]
fn lines_of_a_script() {
    let (s, units) = (lines(S), [(1, 0), (2, 0)]);
    let both = b"S,0,0,0\r\nS,1,1,0\nS,0,0,1\r\n";
    let (given, after) = played(&s, &units, both, 9);
    assert_eq!((given, after), (Ok(tally(3, 0, 0)), vec![(1, 0), (2, 1)]));
    let blank = [
        "",
        "S, 0,0,0",
        " S,0,0,0",
        "S,0,0,0 ",
        "S,0,0,0\r\r",
        "S,0,\r0,0",
        "\0",
    ];
    for bad in NO_VISITS.split_whitespace().chain(blank) {
        for script in [
            format!("{bad}\n"),
            format!("S,0,0,0\n{bad}\n"),
            format!("{bad}\r\nS,0,0,0\n"),
        ] {
            expect_refused(&s, &units, script.as_bytes(), BadScript);
        }
    }
    // A last line without a line feed is none.
    for bad in ["S,0,0,0", "S,0,0,0\r", "S,0,0,0\nS,1,1,0", "x"] {
        expect_refused(&s, &units, bad.as_bytes(), BadScript);
    }
}

/// Products of so many two-valued types: T line k has 2^k values, and an iso gives each value of the last one back.
fn bits(count: usize) -> Vec<u8> {
    let more: String = (1..count).map(|bits| format!("T,2,1,{bits} ")).collect();
    lines(&format!(
        "T,0,0,0 T,1,0,0 {more}P,1,0,0 I,{count},{count} C,0,0"
    ))
}

#[test]
fn units_at_the_start() {
    let s = lines(S);
    for ty in [3, 256, 65_536, 65_537, u32::MAX] {
        expect_refused(&s, &[(1, 0), (ty, 0)], b"S,0,0,0\n", NoIso);
    }
    for (ty, setting) in [(0, 1), (1, 2), (2, 4), (2, u32::MAX)] {
        expect_refused(&s, &[(1, 0), (ty, setting)], b"S,0,0,0\n", TooHigh);
    }
    // 31 bits have numbers of 32 bits, 32 bits have one value too many.
    let (given, after) = played(&bits(31), &[(31, (1 << 31) - 1)], b"S,0,0,0\n", 1);
    assert_eq!(
        (given, after),
        (Ok(tally(1, 0, 0)), vec![(31, (1 << 31) - 1)])
    );
    expect_refused(&bits(32), &[(1, 0), (32, 0)], b"S,0,0,0\n", TooMany);
    // The script is not what is looked at first, and a unit is tested that no visit goes to.
    for unit in [(3, 0), (2, 4)] {
        let refusal = if unit.0 == 3 { NoIso } else { TooHigh };
        expect_refused(&s, &[(1, 0), unit], b"x", refusal);
        expect_refused(&s, &[unit], b"", refusal);
    }
}

#[test]
fn refusals_in_their_order() {
    let (s, many) = (lines(S), vec![(0, 0); MAX_UNITS + 1]);
    // The first unit with a fault decides, whatever the number of the next one.
    for (units, refusal) in [
        ([(2, 4), (3, 0)], TooHigh),
        ([(3, 0), (2, 4)], NoIso),
        ([(3, 4), (0, 0)], NoIso),
    ] {
        expect_refused(&s, &units, b"x", refusal);
    }
    expect_refused(&bits(32), &[(32, u32::MAX), (99, 0)], b"x", TooMany);
    // Then the file, whose numbers alone name a line; before it too many units or lines.
    let gap = lines("T,0,0,0 T,1,0,0 P,0,0,0 P,2,0,0 I,0,1 C,0,1");
    let idle = lines(&S.replace(" C,7,7", ""));
    for (file, refusal, line) in [(&gap, GapRight, 5), (&idle, IdleLine, 11)] {
        let (given, after) = played(file, &[(9, 9)], b"x", 9);
        assert_eq!(given, Err(Refused { refusal, line }));
        assert_eq!(after, [(9, 9)]);
        expect_refused(file, &many, b"x", TooLong);
        expect_refused(file, &[(9, 9)], &b"x\n".repeat(4_097), TooLong);
    }
}

#[test]
fn the_limits_of_a_play() {
    let s = lines(S);
    let mut units = vec![(1, 0); MAX_UNITS];
    let (given, after) = played(&s, &units, b"S,999,0,0\n", 1);
    assert_eq!(given, Ok(tally(1, 0, 0)));
    assert_eq!((after[998], after[999]), ((1, 0), (1, 1)));
    units.push((1, 0));
    expect_refused(&s, &units, b"", TooLong);
    let script = b"S,0,0,0\n".repeat(4_096);
    let (given, after) = played(&s, &[(1, 1)], &script, 1);
    assert_eq!((given, after), (Ok(tally(4_096, 0, 0)), vec![(1, 1)]));
    expect_refused(&s, &[(1, 1)], &[&script[..], b"x"].concat(), TooLong);
}

/// The areas of a play, with a pattern in table and work area, and counts from before in the record.
struct Areas {
    table: Vec<u16>,
    work: Vec<u8>,
    types: Vec<u32>,
    settings: Vec<u32>,
    tally: Tally,
}

impl Areas {
    fn new(table: usize, work: usize, types: &[u32], settings: &[u32]) -> Areas {
        Areas {
            table: vec![0xA5A5; table],
            work: vec![0xA5; work],
            types: types.to_vec(),
            settings: settings.to_vec(),
            tally: tally(7, 8, 9),
        }
    }

    /// Plays a script on S.
    fn play(&mut self, script: &str) -> Result<Tally, Refused> {
        let (table, work) = (&mut self.table, &mut self.work);
        let (types, settings) = (&mut self.types, &mut self.settings);
        let (file, script) = (lines(S), lines(script));
        play(
            &file,
            table,
            work,
            types,
            settings,
            &script,
            9,
            &mut self.tally,
        )?;
        Ok(self.tally)
    }
}

#[test]
fn lent_areas() {
    for (units, script, wanted) in [
        ([0, 1], "S,0,0,0 S,1,0,0", Ok(tally(2, 0, 0))),
        ([0, 1], "", Ok(tally(0, 0, 0))),
        ([0, 2], "S,0,0,0", refused(TooHigh)),
        ([0, 1], "S,0,0,0 S,2,0,0", refused(BadScript)),
    ] {
        let mut areas = Areas::new(TABLE_LENGTH + 3, WORK_LENGTH + 3, &[1, 1], &units);
        assert_eq!(areas.play(script), wanted);
        // As after Check: the lines of the file and zeros, and what lies behind is kept.
        let Areas { table, work, .. } = &areas;
        assert_eq!(table[..10], [84, 0, 0, 0, 1, 84, 1, 0, 0, 3]);
        assert_eq!(table[17 * 5..18 * 5], [67, 7, 7, 0, 0]);
        assert!(table[18 * 5..TABLE_LENGTH]
            .iter()
            .all(|number| *number == 0));
        assert_eq!(table[TABLE_LENGTH..], [0xA5A5; 3]);
        assert!(work[..WORK_LENGTH].iter().all(|byte| *byte == 0));
        assert_eq!(work[WORK_LENGTH..], [0xA5; 3]);
        // The record is counted from 0 in each play, and a refusal leaves it and the units.
        assert_eq!(areas.tally, wanted.unwrap_or(tally(7, 8, 9)));
        if wanted.is_err() {
            assert_eq!((areas.types, areas.settings), (vec![1, 1], units.to_vec()));
        }
    }
}

#[test]
fn short_and_unequal_areas() {
    let long = "x ".repeat(4_097);
    for (table, work, types, settings) in [
        (TABLE_LENGTH - 1, WORK_LENGTH, 2, 2),
        (TABLE_LENGTH, WORK_LENGTH - 1, 2, 2),
        (0, 0, 0, 0),
        (TABLE_LENGTH, WORK_LENGTH, 2, 1),
        (TABLE_LENGTH, WORK_LENGTH, 1, 2),
        (TABLE_LENGTH, WORK_LENGTH, 0, 1),
        (TABLE_LENGTH, WORK_LENGTH, 1, 0),
        (TABLE_LENGTH, WORK_LENGTH, MAX_UNITS + 1, MAX_UNITS),
    ] {
        let (types, settings) = (vec![1; types], vec![0; settings]);
        for script in ["S,0,0,0", "", "x", &long] {
            let mut areas = Areas::new(table, work, &types, &settings);
            assert_eq!(areas.play(script), refused(ShortArea));
            assert!(areas.table.iter().all(|number| *number == 0xA5A5));
            assert!(areas.work.iter().all(|byte| *byte == 0xA5));
            assert_eq!((&areas.types, &areas.settings), (&types, &settings));
            assert_eq!(areas.tally, tally(7, 8, 9));
        }
    }
    // Too many units or lines change nothing either.
    for (count, script) in [(MAX_UNITS + 1, ""), (1, long.as_str())] {
        let (types, settings) = (vec![1; count], vec![0; count]);
        let mut areas = Areas::new(TABLE_LENGTH, WORK_LENGTH, &types, &settings);
        assert_eq!(areas.play(script), refused(TooLong));
        assert!(areas.table.iter().all(|number| *number == 0xA5A5));
        assert!(areas.work.iter().all(|byte| *byte == 0xA5));
        assert_eq!(areas.tally, tally(7, 8, 9));
    }
}
