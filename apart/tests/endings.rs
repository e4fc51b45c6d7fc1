//! Request 06: either ending on each line, and carriage returns elsewhere.

use apart::desk::desk;
use apart::generate::ending::{across, is_across, resaved, with_return, CHUNK, S};
use apart::generate::random::Random;
use apart::generate::{accepted, any_file, query};
use apart::lines::{split, text, BYTES};
use apart::{check, turn};

fn checked(file: &[u8]) -> (u8, usize) {
    check(file).map_or_else(|refusal| (refusal.number, refusal.line), |_| (0, 0))
}

/// What is printed for S with these queries, without the file's answer.
fn answers(queries: &[u8]) -> String {
    let printed = String::from_utf8(desk(&[S, queries].concat())).unwrap();
    printed.strip_prefix("0,0\n").expect("accepted").to_string()
}

#[test]
fn a_carriage_return_before_each_byte_of_a_file() {
    let mut line = 1;
    for (place, byte) in S.iter().enumerate() {
        let wanted = if *byte == b'\n' { (0, 0) } else { (3, line) };
        assert_eq!(checked(&with_return(S, place)), wanted, "{place}");
        line += usize::from(*byte == b'\n');
    }
    assert_eq!(checked(&with_return(S, S.len())), (3, 19));
}

#[test]
fn two_carriage_returns_before_a_line_feed_are_refused() {
    for (place, byte) in S.iter().enumerate().filter(|(_, byte)| **byte == b'\n') {
        assert_eq!(*byte, b'\n');
        let twice = with_return(&with_return(S, place), place);
        let line = S[..place].split(|byte| *byte == b'\n').count();
        assert_eq!(checked(&twice), (3, line));
    }
}

#[test]
fn a_carriage_return_before_each_byte_of_a_query() {
    let asked = b"Q,0,0,1,LU\n";
    for place in 0..asked.len() {
        let queries = [asked, &with_return(asked, place)[..]].concat();
        let wanted = match place {
            0..=7 => "3,0,",
            8..=9 => "16,0,",
            _ => "0,1,RU",
        };
        assert_eq!(answers(&queries), format!("0,1,RU\n{wanted}\n"), "{place}");
    }
    assert_eq!(answers(b"Q,0,0,1,LU\r\r\n"), "16,0,\n");
    assert_eq!(answers(b"Q,0,0,1,LU\r"), "3,0,\n");
    assert_eq!(answers(b"Q,0,0,1,\r\n"), "16,0,\n");
    assert_eq!(desk(&[S, b"\rQ,0,0,1,LU\n"].concat()), b"3,19\n");
}

#[test]
fn both_bytes_of_the_ending_count_among_the_200() {
    let asked = |letters: usize, ending: &str| {
        let line = format!("Q,0,0,1,{}{ending}", "U".repeat(letters));
        (line.len(), answers(line.as_bytes()))
    };
    assert_eq!(asked(191, "\n"), (200, "16,0,\n".to_string()));
    assert_eq!(asked(190, "\r\n"), (200, "16,0,\n".to_string()));
    assert_eq!(asked(191, "\r\n"), (201, "3,0,\n".to_string()));
    assert_eq!(asked(192, "\n"), (201, "3,0,\n".to_string()));
}

#[test]
fn the_65_536_bytes_count_carriage_returns() {
    let file = |length: usize, ending: &str| "T".repeat(length - ending.len()) + ending;
    assert_eq!(checked(file(BYTES, "\r\n").as_bytes()), (3, 1));
    assert_eq!(checked(file(BYTES + 1, "\r\n").as_bytes()), (2, 0));
    assert_eq!(checked(file(BYTES, "\n").as_bytes()), (3, 1));
}

#[test]
fn files_with_other_endings_are_answered_alike() {
    let mut random = Random::new(61);
    let mut kinds = [0; 2];
    for _ in 0..400 {
        let file = any_file(&mut random);
        let other = resaved(&mut random, &file);
        if file.len().max(other.len()) > BYTES {
            continue;
        }
        assert_eq!(checked(&file), checked(&other));
        assert_eq!(turn(&file).ok(), turn(&other).ok());
        kinds[usize::from(check(&file).is_ok())] += 1;
    }
    assert!(kinds.iter().all(|count| *count > 50), "{kinds:?}");
}

#[test]
fn input_with_other_endings_is_answered_alike() {
    let mut random = Random::new(62);
    for _ in 0..100 {
        let mut input = accepted(&mut random);
        let rules = check(&input).unwrap();
        let first = input.len();
        for _ in 0..20 {
            input.extend(query::query(&mut random, &rules));
        }
        let other = resaved(&mut random, &input);
        let long = |lines: &[u8]| split(lines).iter().any(|line| line.len() > 198);
        if !long(&input[first..]) {
            assert_eq!(desk(&input), desk(&other));
            assert!(!desk(&input).contains(&b'\r'));
        }
    }
}

#[test]
fn turned_files_have_no_carriage_return() {
    let mut random = Random::new(63);
    for _ in 0..100 {
        let plain = turn(&accepted(&mut random)).unwrap();
        assert!(!plain.contains(&b'\r'));
        let saved = resaved(&mut random, &plain);
        let turned = turn(&saved).unwrap();
        assert!(!turned.contains(&b'\r'));
        assert_eq!(turned.len(), plain.len());
        assert_eq!(turn(&turned).unwrap(), plain);
    }
}

#[test]
fn resaved_lines_keep_their_texts() {
    let mut random = Random::new(64);
    let bytes = b"a\r\nb\n\r\r\nc\r\n\n\r\nd\r";
    let texts = |bytes: &[u8]| -> Vec<Option<Vec<u8>>> {
        let lines = split(bytes).into_iter();
        lines.map(|line| text(line).map(<[u8]>::to_vec)).collect()
    };
    let mut made = [false; 2];
    for _ in 0..50 {
        let saved = resaved(&mut random, bytes);
        assert_eq!(texts(&saved), texts(bytes));
        assert!(saved.ends_with(b"d\r"));
        made[usize::from(saved.windows(3).any(|three| three == b"b\r\n"))] = true;
    }
    assert_eq!(made, [true; 2]);
}

#[test]
fn a_chunk_ends_within_an_ending() {
    let mut random = Random::new(65);
    for _ in 0..20 {
        let file = across(&mut random);
        assert!(check(&file).is_ok());
        assert_eq!(file[CHUNK - 1..=CHUNK], *b"\r\n");
        assert!(is_across(&file, 0, file.len()));
        let asked = query::with_return_at(&mut random, 198);
        assert_eq!(asked.len(), 200);
    }
    assert!(!is_across(S, 0, S.len()));
}
