//! Units tried out, from the words of request 12 and document 01.

use apart::areas::{check_areas, Known, TABLE, WORK};
use apart::check;
use apart::generate::played::turned;
use apart::units::{play, play_rules, Lent, Played, Tally};

mod common;
use common::{lines, refused_files, typed};

/// "File S (one line each, parted here by blanks)".
const S: &str = "T,0,0,0 T,1,0,0 T,2,1,1 P,0,0,0 P,2,0,0 P,3,0,0 P,1,0,0 P,1,1,0 \
P,4,1,3 P,4,1,4 P,4,2,3 I,1,1 C,1,2 C,2,1 I,2,2 C,5,6 L,4,0,3 C,7,7";

/// What the record holds before a play.
const KEPT: Tally = tally(7, 8, 9);

const fn tally(done: u32, skipped: u32, spent: u32) -> Tally {
    Tally {
        done,
        skipped,
        spent,
    }
}

/// Number, types, settings and record after a play. Table and work are left as
/// Check leaves them, or as they were with 1 and 2.
fn played_on(
    file: &[u8],
    types: &[u32],
    settings: &[u32],
    script: &[u8],
    budget: u32,
) -> (u8, Vec<u32>, Vec<u32>, Tally) {
    let (mut table, mut work) = (vec![1; TABLE + 3], vec![1; WORK + 3]);
    let (mut other, mut working) = (table.clone(), work.clone());
    let (mut types, mut settings) = (types.to_vec(), settings.to_vec());
    let mut tally = KEPT;
    let lent = Lent {
        table: &mut table,
        work: &mut work,
        types: &mut types,
        settings: &mut settings,
        tally: &mut tally,
    };
    let Played { number, line } = play(&Known::of(file), script, budget, lent);
    assert_eq!(line, 0);
    if number != 1 && number != 2 {
        check_areas(file, &mut other, &mut working);
    }
    assert_eq!((table, work), (other, working));
    (number, types, settings, tally)
}

/// The same on S.
fn played(
    types: &[u32],
    settings: &[u32],
    script: &str,
    budget: u32,
) -> (u8, Vec<u32>, Vec<u32>, Tally) {
    played_on(&lines(S), types, settings, script.as_bytes(), budget)
}

#[test]
fn visits_are_done_skipped_and_spent() {
    assert_eq!(
        played(&[1, 2], &[0, 1], "S,0,0,0\nS,0,1,0\r\nS,1,1,0\n", 2),
        (0, vec![1, 2], vec![1, 0], tally(2, 1, 0))
    );
    assert_eq!(
        played(&[1, 2], &[0, 1], "S,1,1,0\nS,0,0,1\n", 1),
        (0, vec![1, 2], vec![1, 1], tally(1, 0, 1))
    );
    // Each visit has the whole budget, and a later one the unit as it is then.
    assert_eq!(
        played(&[2], &[0], "S,0,1,0\nS,0,1,0\nS,0,1,0\n", 2),
        (0, vec![2], vec![1], tally(3, 0, 0))
    );
    assert_eq!(
        played(&[2, 0], &[3, 0], "S,0,1,1\nS,1,0,0\nS,0,1,0\n", 0),
        (0, vec![2, 0], vec![3, 0], tally(0, 1, 2))
    );
    assert_eq!(played(&[], &[], "", 1), (0, vec![], vec![], tally(0, 0, 0)));
    assert_eq!(
        played(&[0], &[0], "", 1),
        (0, vec![0], vec![0], tally(0, 0, 0))
    );
}

/// "A visit whose type does not match the unit": trees are compared, and "the
/// unit then holds the T line that the iso's I line names at the other end".
#[test]
fn types_by_their_trees() {
    let file = lines(
        "T,0,0,0 T,1,0,0 T,0,0,0 T,1,2,2 T,2,0,1 P,0,0,0 P,2,0,0 P,3,0,0 P,1,0,0 P,4,0,3 \
         I,1,3 C,1,2 C,2,1 I,3,4 C,3,4",
    );
    let there = played_on(
        &file,
        &[1, 3, 3],
        &[0, 0, 1],
        b"S,0,0,0\nS,1,0,0\nS,2,1,0\n",
        1,
    );
    assert_eq!(there, (0, vec![3, 3, 4], vec![1, 1, 1], tally(3, 0, 0)));
    let back = played_on(&file, &there.1, &there.2, b"S,2,1,1\nS,1,0,1\nS,0,0,1\n", 1);
    assert_eq!(back, (0, vec![1, 1, 3], vec![0, 0, 1], tally(3, 0, 0)));
}

/// "playing the script last line first with directions exchanged, under the same
/// budget, restores each type tree and number".
#[test]
fn the_way_back() {
    let script = b"S,0,0,0\r\nS,1,1,0\nS,1,1,1\nS,0,0,1\r\nS,1,1,0\n";
    let back = turned(script);
    assert_eq!(back, b"S,1,1,1\nS,0,0,0\nS,1,1,0\nS,1,1,1\nS,0,0,1\n");
    let rules = check(&lines(S)).expect("accepted");
    for first in 0..2 {
        for second in 0..4 {
            let units = [(1, first), (2, second)];
            let (there, done) = play_rules(&rules, &units, script, 2).expect("played");
            assert_eq!(done, tally(5, 0, 0));
            let (again, done) = play_rules(&rules, &there, &back, 2).expect("played");
            assert_eq!((&again[..], done), (&units[..], tally(5, 0, 0)));
        }
    }
}

#[test]
fn refusals_in_their_order_leave_everything() {
    for (types, settings, script, number) in [
        (vec![1], vec![], "", 1),
        (vec![], vec![0], "x", 1),
        (vec![3; 1_002], vec![0; 1_001], "x", 1),
        (vec![3, 1], vec![0, 2], "S,9,0,0\n", 15),
        (vec![1, 3], vec![2, 0], "S,9,0,0\n", 19),
        (vec![1, 1], vec![0, 2], "S,9,0,0\n", 19),
        (vec![1], vec![0], "S,1,0,0\n", 22),
        (vec![1], vec![0], "S,0,2,0\n", 22),
        (vec![1], vec![0], "S,0,0,2\n", 22),
        (vec![1], vec![0], "S,0,0,0\nS,0,0,0", 22),
        (vec![1], vec![0], "S,0,0,0\r", 22),
        (vec![1], vec![0], "S,0,0,0\r\r\n", 22),
        (vec![1], vec![0], "S,00,0,0\n", 22),
        (vec![1], vec![0], "S,0,0\n", 22),
        (vec![1], vec![0], "S,0,0,0,0\n", 22),
        (vec![1], vec![0], "S,65536,0,0\n", 22),
        (vec![1], vec![0], "\n", 22),
        (vec![], vec![], "S,0,0,0\n", 22),
        (vec![3; 1_001], vec![9; 1_001], "x", 2),
        (vec![3], vec![9], &"x\n".repeat(4_097), 2),
        (vec![1], vec![0], &("S,0,0,0\n".repeat(4_096) + "S"), 2),
    ] {
        let given = played(&types, &settings, script, 9);
        assert_eq!(given, (number, types, settings, KEPT), "{script}");
    }
}

/// "Up to 1,000 units" and "up to 4,096 lines".
#[test]
fn the_most_units_and_lines() {
    let types = vec![1; 1_000];
    let given = played(&types, &[0; 1_000], "S,999,0,0\n", 1);
    let mut settings = vec![0; 1_000];
    settings[999] = 1;
    assert_eq!(given, (0, types, settings, tally(1, 0, 0)));
    let script = "S,0,0,0\n".repeat(4_096);
    let given = played(&[1], &[1], &script, 1);
    assert_eq!(given, (0, vec![1], vec![1], tally(4_096, 0, 0)));
    let unfed = &script[..script.len() - 1];
    assert_eq!(played(&[1], &[1], unfed, 1), (22, vec![1], vec![1], KEPT));
}

/// 18 "a type too big to number", in the order of the units with 15 and 19.
#[test]
fn types_too_big_to_number() {
    let products: String = (1..32).map(|bits| format!(" T,2,1,{bits}")).collect();
    let file = typed(&format!("T,0,0,0 T,1,0,0{products}"));
    for (types, settings, number) in [
        ([31, 32], [0, 0], 18),
        ([32, 33], [0, 0], 18),
        ([33, 32], [0, 0], 15),
        ([1, 32], [2, 0], 19),
        ([32, 1], [u32::MAX, 2], 18),
        ([31, 1], [u32::MAX >> 1, 1], 0),
        ([31, 1], [1 << 31, 1], 19),
    ] {
        let (given, ..) = played_on(&file, &types, &settings, b"", 1);
        assert_eq!(given, number, "{types:?} {settings:?}");
    }
}

#[test]
fn a_refused_file_refuses_the_play() {
    for file in refused_files() {
        let known = Known::of(&file);
        let (mut table, mut work) = (vec![1; TABLE], vec![1; WORK]);
        let (mut other, mut working) = (table.clone(), work.clone());
        let checked = known.check(&mut other, &mut working);
        let (mut types, mut settings, mut tally) = ([5], [6], KEPT);
        let lent = Lent {
            table: &mut table,
            work: &mut work,
            types: &mut types,
            settings: &mut settings,
            tally: &mut tally,
        };
        let given = play(&known, b"bad", 1, lent);
        assert_eq!((given.number, given.line), (checked.number, checked.line));
        assert_eq!((types, settings, tally), ([5], [6], KEPT));
        assert_eq!((table, work), (other, working));
    }
}
