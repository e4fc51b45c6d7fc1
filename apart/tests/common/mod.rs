//! Files that the tests of several requests share.

// Each test takes some of them.
#![allow(dead_code)]

/// A file from its lines, parted by blanks.
pub fn lines(words: &str) -> Vec<u8> {
    let lines: Vec<String> = words.split_whitespace().map(|w| format!("{w}\n")).collect();
    lines.concat().into_bytes()
}

/// A file of T lines, numbered as they stand: each that no other names is used
/// by an iso that gives its values back.
pub fn typed(words: &str) -> Vec<u8> {
    let types: Vec<Vec<usize>> = words
        .split_whitespace()
        .map(|word| {
            let fields = word.split(',').skip(1);
            fields
                .map(|field| field.parse().expect("a number"))
                .collect()
        })
        .collect();
    let named = |ty: &usize| {
        let names = |fields: &Vec<usize>| fields[0] > 0 && fields[1..].contains(ty);
        types.iter().any(names)
    };
    let isos: Vec<String> = (0..types.len())
        .filter(|ty| !named(ty))
        .map(|ty| format!(" I,{ty},{ty} C,0,0"))
        .collect();
    lines(&format!("{words} P,1,0,0{}", isos.concat()))
}

/// The numbers of the refused files.
pub const REFUSED: [u8; 15] = [2, 3, 4, 5, 6, 7, 8, 9, 10, 11, 12, 13, 14, 21, 23];

/// A file for each of these numbers.
pub fn refused_files() -> [Vec<u8>; REFUSED.len()] {
    let four = "T,0,0,0 T,1,0,0 T,1,1,1 P,0,0,0 P,2,0,0 P,3,0,0 P,2,1,0 P,2,2,0 P,3,1,0 P,1,0,0";
    // A last iso names all P lines, and is not looked at.
    let iso = |words: &str| lines(&format!("{four} {words} I,2,2 C,0,3 C,4,5 C,6,6"));
    [
        vec![b'\n'; 4_097],
        b"T,0,0,0".to_vec(),
        lines("P,0,0,0 T,0,0,0"),
        lines("T,9,0,0"),
        lines("T,1,0,0"),
        lines("T,0,0,0 T,2,0,0 T,2,1,1 T,2,2,2 T,2,3,3 T,2,4,4 T,2,5,5 T,2,6,6"),
        iso("I,1,1 C,6,1"),
        iso("I,1,1 C,6,6 I,1,1 C,6,6 L,1,0,1"),
        iso("I,1,1 C,0,0"),
        iso("I,1,1 C,6,6 C,6,6"),
        iso("I,2,2 C,3,3 C,4,3"),
        iso("I,2,2 C,3,3 C,4,4"),
        iso("I,1,2 C,1,3 C,2,4"),
        lines("T,0,0,0 P,0,0,0 P,0,0,0 I,0,0 C,1,1"),
        lines("T,0,0,0 P,0,0,0 I,0,0 C,0,0 L,0,0,0"),
    ]
}
