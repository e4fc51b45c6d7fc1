//! The desk program: one file and its queries in, all that is printed out.

use crate::areas::Query;
use crate::lines::{numeral, split, text};
use crate::{check, run_rules, Rules};

/// "over 200 bytes with its line feed"; request 06: "a query's 200 bytes count
/// both bytes of the ending".
const QUERY_BYTES: usize = 200;

/// "It prints `number,line` for the file; if refused, it stops there. Then one
/// line a query: `number,count,letters`, letters empty on refusal."
pub fn desk(input: &[u8]) -> Vec<u8> {
    let (file, queries) = parts(input);
    match check(file) {
        Err(refusal) => format!("{},{}\n", refusal.number, refusal.line).into_bytes(),
        Ok(rules) => {
            let mut printed = b"0,0\n".to_vec();
            for line in split(queries) {
                printed.extend(answer(&rules, line));
            }
            printed
        }
    }
}

/// "a file's lines, up to the first line that begins with Q, then queries".
pub fn parts(input: &[u8]) -> (&[u8], &[u8]) {
    let lines = split(input);
    let before = lines.iter().take_while(|line| line[0] != b'Q');
    input.split_at(before.map(|line| line.len()).sum())
}

/// The printed line of one query.
fn answer(rules: &Rules, line: &[u8]) -> Vec<u8> {
    // "A query of another form, or over 200 bytes with its line feed, is
    // refused 3."
    let Some(query) = query(line) else {
        return b"3,0,\n".to_vec();
    };
    match run_rules(rules, query.iso, query.back, query.budget, query.value) {
        Ok((count, letters)) => {
            let head = format!("0,{count},").into_bytes();
            [head, letters, b"\n".to_vec()].concat()
        }
        Err(refusal) => format!("{},0,\n", refusal.number).into_bytes(),
    }
}

/// "queries `Q,iso,direction,budget,letters`"; "Each query ends in a line
/// feed; its iso is 0 to 65,535, its direction 0 or 1, its budget as above, all
/// written as the file's numbers are." "All that follows its fourth comma, even
/// nothing, is the letters field."
pub fn query(line: &[u8]) -> Option<Query<'_>> {
    if line.len() > QUERY_BYTES {
        return None;
    }
    let fields: Vec<&[u8]> = text(line)?.splitn(5, |byte| *byte == b',').collect();
    match fields[..] {
        [b"Q", iso, direction, budget, value] => Some(Query {
            iso: numeral(iso, 65_535)? as u16,
            back: numeral(direction, 1)? == 1,
            budget: numeral(budget, 4_294_967_295)? as u32,
            value,
        }),
        _ => None,
    }
}
