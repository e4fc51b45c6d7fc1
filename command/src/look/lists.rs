//! Refusals 7 and 20 of a pair list: what about it is at fault.

use super::lines::TAGS;
use crate::rules::Rules;
use crate::{form, settings};
use std::collections::BTreeMap;

/// The most lines of a list that is imported, and the most P lines of a file.
const LINES: usize = 128;
const PATTERNS: usize = 1_024;

fn lines(list: &[u8]) -> impl Iterator<Item = &[u8]> {
    list.split_inclusive(|byte| *byte == b'\n')
}

/// How many settings a T line of the file has.
fn settings_of(rules: &Rules, ty: u32) -> u128 {
    rules.settings.get(ty as usize).copied().unwrap_or(0)
}

/// The ceiling that the list or the file made of it passes.
pub fn ceiling(rules: &Rules, types: [u32; 2], list: &[u8]) -> Option<String> {
    let count = lines(list).count();
    if count > LINES {
        return Some(format!(
            "the list has {count} lines; at most {LINES} are allowed"
        ));
    }
    let all = types.map(|ty| {
        let numbers = 0..settings_of(rules, ty).min(count as u128);
        numbers.map(move |number| (ty, settings::of_number(rules, ty as usize, number)))
    });
    let tags = |letters: &[u8]| {
        letters
            .iter()
            .filter(|letter| matches!(letter, b'L' | b'R'))
            .count()
    };
    for (ty, letters) in all.into_iter().flatten() {
        let tags = tags(&letters);
        if tags > TAGS {
            let shown = String::from_utf8_lossy(&letters);
            return Some(format!("setting {shown} of T{ty} has {tags} left and right nodes; at most {TAGS} are allowed"));
        }
    }
    Some(format!(
        "the file would have over {PATTERNS} P lines; at most {PATTERNS} are allowed"
    ))
}

/// The two numbers of a line, or what is wrong with its form.
fn pair(list: &[u8], number: usize, line: &[u8]) -> Result<[u128; 2], String> {
    if let Some(fault) = form::pair_fault(list, number) {
        return Err(fault);
    }
    let text = String::from_utf8_lossy(form::text(line)).into_owned();
    let numbers = text
        .split_once(',')
        .map(|(from, to)| [from.parse().ok(), to.parse().ok()]);
    match numbers {
        Some([Some(from), Some(to)]) => Ok([from, to]),
        _ => Err("it is not two numbers".to_string()),
    }
}

/// The first line of a list that is at fault.
pub fn fault(rules: &Rules, [from, to]: [u32; 2], list: &[u8]) -> Option<String> {
    let [a, b] = [from, to].map(|ty| settings_of(rules, ty));
    if a != b {
        return Some(format!(
            "T{from} has {a} settings and T{to} has {b}: no list leads from each to one"
        ));
    }
    let mut seen: BTreeMap<u128, usize> = BTreeMap::new();
    for (place, line) in lines(list).enumerate() {
        let number = place + 1;
        let at = |why: String| Some(format!("line {number}, {}: {why}", form::shown(line)));
        match pair(list, number, line) {
            Err(why) => return at(why),
            Ok([x, _]) if x != place as u128 => {
                return at(format!("it begins with {x}, where {place} should stand"))
            }
            Ok([x, _]) if x >= a => {
                return at(format!(
                    "T{from} has {a} settings, and the last number is {}",
                    a - 1
                ))
            }
            Ok([_, y]) if y >= b => {
                return at(format!(
                    "T{to} has {b} settings, and the last number is {}",
                    b - 1
                ))
            }
            Ok([_, y]) => {
                if let Some(before) = seen.insert(y, number) {
                    return at(format!("line {before} leads to {y} too"));
                }
            }
        }
    }
    let count = seen.len();
    Some(format!(
        "the list has {count} lines, and T{from} has {a} settings"
    ))
}
