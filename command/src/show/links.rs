//! Text within the page: made safe, its names as links to where they stand, or as a string of its style.

use super::Sight;

/// Text that is safe within the page.
pub fn escaped(text: &str) -> String {
    text.chars().map(safe).collect()
}

fn safe(c: char) -> String {
    match c {
        '&' => "&amp;".to_string(),
        '<' => "&lt;".to_string(),
        '>' => "&gt;".to_string(),
        '"' => "&quot;".to_string(),
        '\'' => "&#39;".to_string(),
        c => c.to_string(),
    }
}

/// Where a type or an iso stands on the page.
pub fn anchor(letter: char, place: usize) -> String {
    match letter {
        'T' => format!("T{place}"),
        _ => format!("iso-{place}"),
    }
}

/// A name within a text: marked by where it stands, for `linked`. No name has these marks, which nobody can see.
pub fn marked(label: &str, letter: char, place: usize) -> String {
    let label: String = label.chars().filter(|c| !c.is_control()).collect();
    format!("\u{1}{}\u{2}{label}\u{3}", anchor(letter, place))
}

/// Whether the page has such a place.
fn is_shown(sight: &Sight, anchor: &str) -> bool {
    let number = |digits: &str| digits.parse().ok();
    match anchor.strip_prefix("iso-") {
        Some(iso) => number(iso).is_some_and(|iso| sight.isos.contains(&iso)),
        None => number(&anchor[1..]).is_some_and(|ty| sight.types.contains(&ty)),
    }
}

/// Text that is safe within the page, the names that are marked in it as links, where what they name is on the page.
pub fn linked(sight: &Sight, text: &str) -> String {
    let mut parts = text.split('\u{1}');
    let mut linked = escaped(parts.next().unwrap_or_default());
    for part in parts {
        let (to, rest) = part.split_once('\u{2}').unwrap_or((part, ""));
        let (label, rest) = rest.split_once('\u{3}').unwrap_or((rest, ""));
        let (label, rest) = (escaped(label), escaped(rest));
        linked += &match is_shown(sight, to) {
            true => format!("<a href=\"#{to}\">{label}</a>{rest}"),
            false => label + &rest,
        };
    }
    linked
}

/// Text as a string of the page's style, on so many lines as it has.
pub fn quoted(text: &str) -> String {
    let plain = |c: char| c.is_alphanumeric() || " ,.:;-_()/·…".contains(c);
    let one = |c: char| match plain(c) {
        true => c.to_string(),
        false => format!("\\{:x} ", c as u32),
    };
    let safe: String = text.chars().map(one).collect();
    format!("\"{safe}\"")
}

/// A text of at most so many characters, its middle left out where it is longer.
pub fn shortened(text: &str, most: usize) -> String {
    let chars: Vec<char> = text.chars().collect();
    if chars.len() <= most {
        return text.to_string();
    }
    let part = most.saturating_sub(1) / 2;
    let end = chars[chars.len() - part..].iter();
    let middle = std::iter::once(&'…');
    chars[..part].iter().chain(middle).chain(end).collect()
}
