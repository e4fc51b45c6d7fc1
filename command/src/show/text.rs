//! A file as plain text.

use super::tree::{self, Shown};
use super::Sight;
use crate::rules::Iso;
use crate::{check, explain};
use rulefile::Desk;

/// The verdict, in lines.
fn verdict(sight: &Sight) -> String {
    let (number, line) = explain::numbers(sight.verdict);
    let words = match sight.verdict {
        Ok(()) => format!("{} is accepted.\n", sight.file.name),
        Err(refused) => explain::refusal_in(&sight.rules, sight.file, refused),
    };
    let lines = check::counts(&sight.file.bytes);
    format!("{number},{line}\n{words}  lines: {lines}\n")
}

/// The most characters of a line, where that can be had.
const WIDTH: usize = 100;

/// Rows of two columns, the first as wide as its longest text of at most 48 characters.
fn columns(rows: &[(String, String)]) -> Vec<String> {
    let length = |text: &String| text.chars().count();
    let lengths = rows.iter().map(|row| length(&row.0));
    let width = lengths.filter(|length| *length <= 48).max().unwrap_or(0);
    let row = |(first, second): &(String, String)| {
        let room = " ".repeat(width.saturating_sub(length(first)));
        format!("  {first}{room}  {second}")
    };
    rows.iter().map(row).collect()
}

/// A line and, behind a `where`, the let steps: on lines of their own, where one line has no room for them.
fn with_steps(line: String, steps: &[String]) -> String {
    if steps.is_empty() {
        return line + "\n";
    }
    let whole = format!("{line}, where {}", steps.join(", "));
    if whole.chars().count() <= WIDTH {
        return whole + "\n";
    }
    let (mut text, mut last) = (line + "\n", "      where".to_string());
    for (place, step) in steps.iter().enumerate() {
        let comma = if place + 1 < steps.len() { "," } else { "" };
        let step = format!(" {step}{comma}");
        if place > 0 && last.chars().count() + step.chars().count() > WIDTH {
            text += &format!("{last}\n");
            last = " ".repeat(11);
        }
        last += &step;
    }
    text + &last + "\n"
}

fn types(sight: &Sight) -> String {
    if sight.types.is_empty() {
        return String::new();
    }
    let row = |place: &usize| {
        let expression = tree::titled(&sight.rules, *place);
        let settings = sight.rules.settings_of(*place);
        (format!("T{place} = {expression}"), settings)
    };
    let rows: Vec<_> = sight.types.iter().map(row).collect();
    format!("\ntypes\n{}\n", columns(&rows).join("\n"))
}

fn clauses(sight: &Sight, iso: &Iso) -> String {
    let clauses = iso.clauses.iter();
    let shown = clauses.map(|clause| (clause.line, tree::clause(&sight.rules, clause)));
    let shown: Vec<(usize, Shown)> = shown.collect();
    let row = |(line, shown): &(usize, Shown)| {
        let left = format!("line {line}: {}", shown.left.text());
        (left, format!("↦ {}", shown.right.text()))
    };
    let lines = columns(&shown.iter().map(row).collect::<Vec<_>>());
    let rows = lines.into_iter().zip(&shown);
    rows.map(|(line, shown)| with_steps(line, &shown.1.steps()))
        .collect()
}

/// The whole text: the conversions, and then the types.
pub fn text(desk: &mut Desk, sight: &Sight) -> String {
    let mut text = verdict(sight);
    if !sight.rules.types.is_empty() {
        let whose = sight.whose().map(|whose| explain::entry("names", &whose));
        let lines = tree::legend(&sight.rules);
        text += &whose.unwrap_or_default();
        text.extend(lines.iter().map(|line| format!("  {line}\n")));
    }
    for place in &sight.isos {
        let Some(iso) = sight.rules.isos.get(*place) else {
            continue;
        };
        let (heading, ends) = (sight.heading(desk, *place), sight.ends(*place));
        text += &format!("\n{heading} (line {})\n  {ends}\n", iso.line);
        text += &clauses(sight, iso);
    }
    text + &types(sight)
}
