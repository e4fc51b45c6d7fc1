//! Request 14, zoned boards: lists and isos that call themselves, through the crate.

use rulefile::Direction::{self, Back, Forward};
use rulefile::{Desk, Query, Refusal, Refused, Value};

const ZONES: &[u8] = include_bytes!("../../../examples/zones.rules");
const DEEP: &[u8] = include_bytes!("../../../examples/refusals/24-too-large.in");
const NO_SETTING: &[u8] = include_bytes!("../../../examples/refusals/24-no-setting.in");
const RECURSION: &[u8] = include_bytes!("../../../examples/refusals/23-recursion.in");
const NOT_A_LIST: &[u8] = include_bytes!("../../../examples/refusals/23-not-a-list.in");

/// Three zones of the older board, and of the newer one.
const OLDER: &[u8] = b"PRUKPRURRLUKPLULUKPRURRRUN";
const NEWER: &[u8] = b"PKPRRRURUKPLULUKPRRLURUNRU";

fn refused(refusal: Refusal, line: usize) -> Refused {
    Refused { refusal, line }
}

fn run(
    file: &[u8],
    iso: u32,
    way: Direction,
    budget: u32,
    letters: &[u8],
) -> Result<Value, Refused> {
    Desk::new().run(file, Query::new(iso, way, budget, letters))
}

/// The rule file in front of the queries.
fn rules(input: &[u8]) -> &[u8] {
    let queries = input.windows(2).position(|part| part == b"\nQ");
    queries.map_or(input, |place| &input[..place + 1])
}

/// A list of so many units.
fn units(count: usize) -> Vec<u8> {
    [b"KU".repeat(count), b"N".to_vec()].concat()
}

#[test]
fn there_and_back() {
    let mut desk = Desk::new();
    assert_eq!(desk.check(ZONES), Ok(()));
    let there = run(ZONES, 4, Forward, 18, OLDER).unwrap();
    assert_eq!((there.count, &there.letters[..]), (18, NEWER));
    let back = run(ZONES, 4, Back, 18, NEWER).unwrap();
    assert_eq!((back.count, &back.letters[..]), (18, OLDER));
    let turned = desk.turn(ZONES).unwrap();
    assert_eq!(run(&turned, 4, Forward, 18, NEWER), Ok(back));
    assert_eq!(
        run(ZONES, 4, Forward, 17, OLDER),
        Err(refused(Refusal::Spent, 0))
    );
    let open = &OLDER[..OLDER.len() - 1];
    assert_eq!(
        run(ZONES, 4, Forward, 18, open),
        Err(refused(Refusal::NoValue, 0))
    );
}

#[test]
fn the_ceilings_of_a_run() {
    let file = rules(DEEP);
    let large = Err(refused(Refusal::TooLarge, 0));
    let spent = Err(refused(Refusal::Spent, 0));
    assert_eq!(
        run(file, 0, Forward, 40, &units(39)).map(|value| value.count),
        Ok(40)
    );
    for way in [Forward, Back] {
        // an application is counted before it is measured
        assert_eq!(run(file, 0, way, 40, &units(40)), spent);
        assert_eq!(run(file, 0, way, 41, &units(40)), large);
        assert_eq!(run(file, 0, way, 0, &units(64)), spent);
        assert_eq!(run(file, 0, way, 1, &units(64)), large);
        assert_eq!(run(file, 0, way, u32::MAX, &units(1_000)), large);
    }
}

#[test]
fn no_numbers_and_no_bounds() {
    let mut desk = Desk::new();
    let many = refused(Refusal::TooMany, 0);
    assert_eq!(desk.number_of(ZONES, 10, b"PRUN"), Err(many));
    assert_eq!(desk.setting_of(ZONES, 10, 0), Err(many));
    assert_eq!(desk.number_of(ZONES, 4, b"PRURRLU"), Ok(6));
    for iso in 1..5 {
        assert_eq!(desk.bounds(ZONES, iso).map(|_| ()), Err(many));
        assert_eq!(desk.export(ZONES, iso, 9).map(|_| ()), Err(many));
    }
    assert_eq!(desk.bounds(ZONES, 0).map(|bounds| bounds.greatest), Ok(1));
    assert_eq!(desk.import(ZONES, 10, 10, b"0,0\n").map(|_| ()), Err(many));
    let (mut types, mut settings) = ([4], [6]);
    let mut play = |script: &[u8]| desk.play(ZONES, &mut types, &mut settings, script, 9);
    assert_eq!(play(b"S,0,4,0\n").map(|_| ()), Err(many));
    assert_eq!(play(b"S,0,4,0\nS,0,9,0\n").map(|_| ()), Err(many));
    let bad = refused(Refusal::BadScript, 0);
    assert_eq!(play(b"S,0,9,0\nS,0,4,0\n").map(|_| ()), Err(bad));
    assert_eq!(play(b"S,0,0,0\n").map(|tally| tally.done), Ok(1));
}

#[test]
fn refusals_of_files() {
    let mut desk = Desk::new();
    assert_eq!(desk.check(RECURSION), Err(refused(Refusal::Recursion, 13)));
    assert_eq!(desk.check(NOT_A_LIST), Err(refused(Refusal::Recursion, 5)));
    assert_eq!(desk.check(NO_SETTING), Err(refused(Refusal::GapLeft, 14)));
    let shown = desk.witness(NO_SETTING).unwrap_err();
    assert_eq!(shown.refused, refused(Refusal::TooLarge, 0));
    assert_eq!(&shown.letters[..], b"");
}
