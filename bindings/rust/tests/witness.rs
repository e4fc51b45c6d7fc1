//! A setting that shows the fault, through the wrapper: refusals 11 to 14, fewest letters and byte order; other
//! answers; lent areas; the stored examples.

use rulefile::{
    check, witness, Desk, Refusal, Refused, Witness, Witnessed, RESULT_LENGTH, TABLE_LENGTH,
    WORK_LENGTH,
};
use std::fs;
use std::path::{Path, PathBuf};

/// Document 01's file S, its lines parted by blanks.
const S: &str = "T,0,0,0 T,1,0,0 T,2,1,1 P,0,0,0 P,2,0,0 P,3,0,0 P,1,0,0 P,1,1,0 P,4,1,3 P,4,1,4 \
    P,4,2,3 I,1,1 C,1,2 C,2,1 I,2,2 C,5,6 L,4,0,3 C,7,7";

/// Four values, LLU to RRU, with a pattern each, from P line 4 on; T line 4 has PLULU to PRURU on its left and a
/// unit on its right. Fifteen lines.
const FOUR: &str = "T,0,0,0 T,1,0,0 T,1,1,1 T,2,1,1 T,1,3,0 P,0,0,0 P,1,0,0 P,2,0,0 P,3,0,0 \
    P,2,2,0 P,2,3,0 P,3,2,0 P,3,3,0 P,2,1,0 P,3,1,0";

/// Isos that name all lines of it, behind the one that is refused.
const FOUR_USED: &str = "I,2,4 I,3,0 C,0,1 C,2,3 C,4,5 C,6,7 C,8,9";

/// S without its last clause and the pattern of it.
fn gap() -> String {
    S.trim_end_matches(" C,7,7").replacen(" P,4,2,3", "", 1)
}

/// A file from its lines.
fn file(lines: &str) -> Vec<u8> {
    lines
        .split_whitespace()
        .flat_map(|line| [line.as_bytes(), b"\n"].concat())
        .collect()
}

fn shown(lines: &str) -> Result<(), Witness> {
    Desk::new().witness(&file(lines))
}

fn by(refusal: Refusal, line: usize, letters: &str) -> Result<(), Witness> {
    Err(Witness {
        refused: Refused { refusal, line },
        letters: letters.as_bytes().to_vec(),
    })
}

#[test]
fn files_of_document_01() {
    assert_eq!(shown(S), Ok(()));
    assert_eq!(shown(""), Ok(()));
    assert_eq!(shown(&gap()), by(Refusal::GapLeft, 14, "PRULU"));
    let idle = S.trim_end_matches(" C,7,7");
    assert_eq!(shown(idle), by(Refusal::IdleLine, 11, ""));
    let twice = format!("{S} C,7,7");
    assert_eq!(shown(&twice), by(Refusal::OverlapLeft, 15, "PRULU"));
    let right = "T,0,0,0 T,1,0,0 P,0,0,0 P,2,0,0 I,0,1 C,0,1";
    assert_eq!(shown(right), by(Refusal::GapRight, 5, "RU"));
    assert_eq!(shown("T,1,0,0"), by(Refusal::BadName, 1, ""));
}

#[test]
fn each_side() {
    let of = |lines: &str| shown(&format!("{FOUR} {lines} {FOUR_USED}"));
    let (left, right) = (Refusal::OverlapLeft, Refusal::OverlapRight);
    assert_eq!(of("I,2,2 C,4,4 C,5,5 C,8,9"), by(left, 16, "LLU"));
    assert_eq!(of("I,2,2 C,1,1 C,1,1"), by(left, 16, "LLU"));
    assert_eq!(of("I,2,2 C,4,5 C,4,5"), by(left, 16, "LLU"));
    assert_eq!(of("I,2,2 C,4,7 C,5,5 C,7,5 C,6,7"), by(right, 16, "LRU"));
    assert_eq!(of("I,1,0 C,2,0 C,3,0"), by(right, 16, "U"));
    let (left, right) = (Refusal::GapLeft, Refusal::GapRight);
    assert_eq!(of("I,2,2 C,7,4 C,4,5"), by(left, 16, "LRU"));
    assert_eq!(of("I,1,2 C,2,4 C,3,7"), by(right, 16, "LRU"));
    // The first iso that is refused, and one without clauses.
    let first = of("I,0,0 C,0,0 I,2,1 I,2,2 C,4,5 C,4,5");
    assert_eq!(first, by(left, 18, "LLU"));
}

/// Fewest letters come before byte order, over the whole value.
#[test]
fn fewest_letters_first() {
    let of = |lines: &str| shown(&format!("{FOUR} {lines} {FOUR_USED}"));
    assert_eq!(of("I,4,4"), by(Refusal::GapLeft, 16, "RU"));
    let twice = of("I,4,4 C,1,1 C,1,1");
    assert_eq!(twice, by(Refusal::OverlapLeft, 16, "RU"));
    assert_eq!(of("I,4,4 C,3,3"), by(Refusal::GapLeft, 16, "LPLULU"));
    let parts = "T,0,0,0 T,1,0,0 T,1,1,0 T,2,2,2 P,0,0,0 P,3,0,0 P,4,1,1 I,3,3";
    let all = format!("{parts} I,3,3 C,2,2");
    assert_eq!(shown(&all), by(Refusal::GapLeft, 8, "PRURU"));
    let but_one = format!("{parts} C,2,2");
    assert_eq!(shown(&but_one), by(Refusal::GapLeft, 8, "PLLURU"));
}

#[test]
fn a_value_of_127_letters() {
    let seven = "T,0,0,0 T,2,0,0 T,2,1,1 T,2,2,2 T,2,3,3 T,2,4,4 T,2,5,5";
    let Err(shown) = shown(&format!("{seven} P,1,0,0 I,6,6 C,0,0 C,0,0")) else {
        panic!("the file is accepted");
    };
    assert_eq!(shown.refused.refusal, Refusal::OverlapLeft);
    assert_eq!(shown.letters.len(), RESULT_LENGTH);
    let units = shown.letters.iter().filter(|letter| **letter == b'U');
    assert_eq!(units.count(), 64);
}

#[test]
fn refusals_as_text() {
    let text = |lines: &str| shown(lines).unwrap_err().to_string();
    assert_eq!(
        text(&gap()),
        "refused with 13, gap left, at line 14, shown by PRULU"
    );
    assert_eq!(text("x"), "refused with 3, bad line, at line 1");
    let witnessed = Witnessed {
        refused: Refused {
            refusal: Refusal::GapLeft,
            line: 15,
        },
        length: 5,
    };
    assert_eq!(
        witnessed.to_string(),
        "refused with 13, gap left, at line 15"
    );
}

type Areas = (Vec<u16>, Vec<u8>, Vec<u8>);

/// Areas of these lengths with a pattern in them.
fn areas(table: usize, work: usize, result: usize) -> Areas {
    (vec![0xA5A5; table], vec![0xA5; work], vec![0xA5; result])
}

fn lent(file: &[u8], areas: &mut Areas) -> Result<(), Witnessed> {
    witness(file, &mut areas.0, &mut areas.1, &mut areas.2)
}

/// Number, line, table and work area are those of `check`, and the result is kept behind the letters.
#[test]
fn lent_areas() {
    let gap = gap();
    let long = "\n".repeat(4_097);
    let refused = ["T,0,0,0 T,1,0,1", "T,0,0,0 P,1,32,0"].map(file);
    let files = [file(S), file(&gap), long.into_bytes(), b"T".to_vec()];
    for file in files.iter().chain(&refused) {
        for more in [0, 1, 300] {
            let lengths = [TABLE_LENGTH, WORK_LENGTH, RESULT_LENGTH].map(|length| length + more);
            let mut given = areas(lengths[0], lengths[1], lengths[2]);
            let mut checked = given.clone();
            let answer = lent(file, &mut given);
            let wanted = check(file, &mut checked.0, &mut checked.1);
            assert_eq!(answer.map_err(|shown| shown.refused), wanted);
            let length = answer.map_or_else(|shown| shown.length, |()| 0);
            checked.2[..length].copy_from_slice(&b"PRULU"[..length]);
            assert_eq!(given, checked);
        }
    }
}

#[test]
fn short_areas() {
    let gap = file(&gap());
    for (table, work, result) in [
        (TABLE_LENGTH - 1, WORK_LENGTH, RESULT_LENGTH),
        (TABLE_LENGTH, WORK_LENGTH - 1, RESULT_LENGTH),
        (TABLE_LENGTH, WORK_LENGTH, RESULT_LENGTH - 1),
        (TABLE_LENGTH, WORK_LENGTH, 5),
        (0, 0, 0),
    ] {
        for file in [&gap, &file(S), &vec![b'\n'; 4_097]] {
            let mut given = areas(table, work, result);
            let before = given.clone();
            let refused = Refused {
                refusal: Refusal::ShortArea,
                line: 0,
            };
            let wanted = Err(Witnessed { refused, length: 0 });
            assert_eq!(lent(file, &mut given), wanted);
            assert_eq!(given, before);
        }
    }
}

/// The files below a folder that end so.
fn below(folder: &Path, ending: &str) -> Vec<PathBuf> {
    let mut found = Vec::new();
    for entry in fs::read_dir(folder).unwrap() {
        let path = entry.unwrap().path();
        if path.is_dir() {
            found.extend(below(&path, ending));
        } else if path.extension().is_some_and(|found| found == ending) {
            found.push(path);
        }
    }
    found
}

/// Each stored input that is refused with 11 to 14 has the setting stored beside it, and no other has one; each of
/// the four numbers is among them.
#[test]
fn stored_settings() {
    let folder = Path::new(env!("CARGO_MANIFEST_DIR")).join("../../examples");
    let mut numbers = Vec::new();
    for path in below(&folder, "in") {
        let input = fs::read(&path).unwrap();
        let lines = input.split_inclusive(|byte| *byte == b'\n');
        let rules = lines.take_while(|line| line[0] != b'Q');
        let rules: Vec<u8> = rules.flatten().copied().collect();
        let stored = fs::read_to_string(path.with_extension("shown")).ok();
        let found = match Desk::new().witness(&rules) {
            Err(shown)
                if !shown.letters.is_empty() || shown.refused.refusal == Refusal::TooLarge =>
            {
                let Refused { refusal, line } = shown.refused;
                numbers.push(refusal.number());
                let letters = String::from_utf8(shown.letters).unwrap();
                Some(format!("{},{line},{letters}\n", refusal.number()))
            }
            _ => None,
        };
        assert_eq!(found, stored, "{}", path.display());
    }
    for number in [11, 12, 13, 14, 24] {
        assert!(numbers.contains(&number), "no input is refused {number}");
    }
}
