//! Settings as people write them: by letters, by number, by the numbers of their parts, and by names. What is written
//! so becomes letters, and what those are worth is the library's to say.

use crate::rules::{Rules, ENDLESS};
use crate::show::tree;
use crate::{form, names, settings};

/// The letters of the setting of a T line that has a number; none where there are fewer, or no numbers.
pub fn of_number(rules: &Rules, ty: usize, number: u128) -> Option<Vec<u8>> {
    let count = *rules.settings.get(ty)?;
    (number < count && count != ENDLESS).then(|| settings::of_number(rules, ty, number))
}

/// The most bytes of a setting as people write it: 64 parts, each with a name, have fewer, and so have lists that are
/// run.
const LONGEST: usize = 32_768;

/// The letters of a setting that is written in one of the ways; or why it is none.
pub fn read(rules: &Rules, ty: usize, text: &str) -> Result<Vec<u8>, String> {
    let text = text.trim();
    if text.len() > LONGEST {
        return Err(none(rules, ty, text));
    }
    let letters = !text.is_empty() && text.bytes().all(|byte| b"ULRPNK".contains(&byte));
    if letters && tree::fits(rules, ty, text.as_bytes()) {
        return Ok(text.as_bytes().to_vec());
    }
    value(rules, ty, text)
}

/// A setting by names and numbers.
fn value(rules: &Rules, ty: usize, text: &str) -> Result<Vec<u8>, String> {
    let text = inner(text);
    if let Some(letters) = rules.names.setting_of(ty, &names::one_blank(text)) {
        return Ok(letters.to_vec());
    }
    let text = inner(untitled(rules, ty, text));
    if let Some(number) = form::number(text) {
        let letters = of_number(rules, ty, number.into());
        return letters.ok_or_else(|| too_high(rules, ty, text));
    }
    match rules.types.get(ty).map(|row| row.kind) {
        Some(0) if rules.names.ty(ty) == Some(text) => Ok(b"U".to_vec()),
        Some(1) if rules.choices[ty] == 0 => part(rules, ty, text),
        Some(2) => tuple(rules, ty, text),
        Some(3) => list(rules, ty, text),
        _ => Err(none(rules, ty, text)),
    }
}

/// A text without the name of its T line in front.
fn untitled<'a>(rules: &Rules, ty: usize, text: &'a str) -> &'a str {
    let title = rules.names.ty(ty);
    let rest = title.and_then(|title| text.strip_prefix(title));
    rest.filter(|rest| rest.starts_with(' '))
        .map_or(text, str::trim)
}

/// A text without the brackets around all of it.
fn inner(text: &str) -> &str {
    let mut text = text.trim();
    while let Some(within) = within(text) {
        text = within.trim();
    }
    text
}

/// What stands between the first bracket of a text and the last, where these belong together.
fn within(text: &str) -> Option<&str> {
    let within = text.strip_prefix('(')?.strip_suffix(')')?;
    let mut depth = 0usize;
    for c in within.chars() {
        match c {
            '(' => depth += 1,
            // where there is none to close, the first bracket is closed before the end
            ')' => depth = depth.checked_sub(1)?,
            _ => {}
        }
    }
    Some(within)
}

/// The parts of a text between the commas that stand in no brackets. Square ones are brackets where there are lists.
fn split<'a>(rules: &Rules, text: &'a str) -> Vec<&'a str> {
    let (mut parts, mut depth, mut start) = (Vec::new(), 0usize, 0);
    let square = rules.has_lists();
    for (place, c) in text.char_indices() {
        match c {
            '(' => depth += 1,
            ')' => depth = depth.saturating_sub(1),
            '[' if square => depth += 1,
            ']' if square => depth = depth.saturating_sub(1),
            ',' if depth == 0 => {
                parts.push(&text[start..place]);
                start = place + 1;
            }
            _ => {}
        }
    }
    parts.push(&text[start..]);
    parts
}

/// A setting of a sum that is no number of choices: `i:x`.
fn part(rules: &Rules, ty: usize, text: &str) -> Result<Vec<u8>, String> {
    let parts = tree::parts(rules, ty);
    let (place, rest) = text.split_once(':').ok_or_else(|| none(rules, ty, text))?;
    let place = form::number(place.trim()).map(|place| place as usize);
    let Some(place) = place.filter(|place| *place < parts.len()) else {
        return Err(none(rules, ty, text));
    };
    let mut letters = vec![b'R'; place];
    if place + 1 < parts.len() {
        letters.push(b'L');
    }
    letters.extend(value(rules, parts[place], rest)?);
    Ok(letters)
}

/// A setting of a product: one a part.
fn tuple(rules: &Rules, ty: usize, text: &str) -> Result<Vec<u8>, String> {
    let (parts, given) = (tree::parts(rules, ty), split(rules, text));
    if given.len() < 2 {
        return Err(none(rules, ty, text));
    }
    if given.len() != parts.len() {
        let (wanted, given, reads) = (parts.len(), given.len(), tree::ty(rules, ty).text());
        return Err(format!(
            "T{ty}, {reads}, has {wanted} parts, here there are {given}"
        ));
    }
    let mut letters = Vec::new();
    for (place, (part, text)) in parts.iter().zip(given).enumerate() {
        if place + 1 < parts.len() {
            letters.push(b'P');
        }
        letters.extend(value(rules, *part, text)?);
    }
    Ok(letters)
}

/// A setting of a list: `[x, y]`, or `[]`.
fn list(rules: &Rules, ty: usize, text: &str) -> Result<Vec<u8>, String> {
    let within = text
        .strip_prefix('[')
        .and_then(|text| text.strip_suffix(']'));
    let within = within.ok_or_else(|| none(rules, ty, text))?.trim();
    let mut letters = Vec::new();
    if !within.is_empty() {
        for text in split(rules, within) {
            letters.push(b'K');
            letters.extend(value(rules, rules.types[ty].a, text)?);
        }
    }
    letters.push(b'N');
    Ok(letters)
}

/// What is said of a number that no setting has.
fn too_high(rules: &Rules, ty: usize, number: &str) -> String {
    if rules.endless(ty) {
        let (reads, example) = (tree::ty(rules, ty).text(), example(rules, ty));
        return format!(
            "T{ty}, {reads}, holds a list, so that its settings have no numbers; {example} is one"
        );
    }
    let last = rules
        .settings
        .get(ty)
        .map_or(0, |count| count.saturating_sub(1));
    format!("T{ty} has no setting {number}: they are numbered 0 to {last}")
}

/// What is said of a text that is no setting.
fn none(rules: &Rules, ty: usize, text: &str) -> String {
    let (text, example) = (names::seen(text), example(rules, ty));
    format!("{text} is no setting of T{ty}; {example} is one")
}

/// A setting to write others like it: the first or, of a type that holds a list, one with an element.
fn example(rules: &Rules, ty: usize) -> String {
    if ty >= rules.types.len() {
        return String::new();
    }
    let letters = match rules.endless(ty) {
        true => settings::of_number(rules, ty, 1),
        false => settings::of_number(rules, ty, 0),
    };
    tree::setting(rules, ty, &letters)
}
