//! SHA-256 held to the examples of FIPS 180-4 and of the standard's test vectors, and the calendar to itself, day by day.

#[allow(dead_code)]
#[path = "../src/calendar.rs"]
mod calendar;
#[path = "../src/sha256.rs"]
mod sha256;

/// The examples of NIST for SHA-256: no byte, one block, two blocks, and a message of 896 bits.
const EXAMPLES: [(&str, &str); 4] = [
    (
        "",
        "e3b0c44298fc1c149afbf4c8996fb92427ae41e4649b934ca495991b7852b855",
    ),
    (
        "abc",
        "ba7816bf8f01cfea414140de5dae2223b00361a396177a9cb410ff61f20015ad",
    ),
    (
        "abcdbcdecdefdefgefghfghighijhijkijkljklmklmnlmnomnopnopq",
        "248d6a61d20638b8e5c026930c3e6039a33ce45964ff2167f6ecedd419db06c1",
    ),
    (
        "abcdefghbcdefghicdefghijdefghijkefghijklfghijklmghijklmnhijklmnoijklmnopjklmnopqklmnopqrlmnopqrsmnopqrstnopqrstu",
        "cf5b16a778af8380036ce59e7b0492370b249b11e8f07a51afac45037afee9d1",
    ),
];

/// The hash of a million letters a.
const MILLION: &str = "cdc76e5c9914fb9281a1c7e284d73e67f1809a48a497200e046d39ccc7112cd0";

#[test]
fn the_examples_of_the_standard() {
    for (text, digits) in EXAMPLES {
        assert_eq!(sha256::digits(text.as_bytes()), digits, "{text:?}");
    }
    assert_eq!(sha256::digits(&vec![b'a'; 1_000_000]), MILLION);
}

#[test]
fn in_parts_of_any_length_it_is_the_same() {
    for part in [1, 3, 63, 64, 65, 1_000, 999_999] {
        let mut hash = sha256::Sha256::new();
        for bytes in vec![b'a'; 1_000_000].chunks(part) {
            hash.add(bytes);
        }
        assert_eq!(hash.digits(), MILLION, "parts of {part} bytes");
    }
}

/// How many days a month has.
fn days(year: i64, month: i64) -> i64 {
    let leap = year % 4 == 0 && (year % 100 != 0 || year % 400 == 0);
    match month {
        2 => 28 + i64::from(leap),
        4 | 6 | 9 | 11 => 30,
        _ => 31,
    }
}

#[test]
fn every_day_follows_the_one_before_it() {
    let (mut year, mut month, mut day) = (1600, 1, 1);
    // eight hundred years from 1600-01-01 on
    for number in -135_140..-135_140 + 292_194 {
        assert_eq!(calendar::civil(number), (year, month, day));
        day += 1;
        if day > days(year, month) {
            (month, day) = (month + 1, 1);
        }
        if month > 12 {
            (year, month) = (year + 1, 1);
        }
    }
    assert_eq!((year, month, day), (2400, 1, 1));
}

#[test]
fn days_that_are_known() {
    for (seconds, date) in [
        (0, "1970-01-01"),
        (-1, "1969-12-31"),
        (86_399, "1970-01-01"),
        (86_400, "1970-01-02"),
        (951_782_400, "2000-02-29"),
        (1_000_000_000, "2001-09-09"),
        (2_147_483_647, "2038-01-19"),
        (4_107_542_399, "2100-02-28"),
        (4_107_542_400, "2100-03-01"),
    ] {
        assert_eq!(calendar::date(seconds), date);
    }
}
