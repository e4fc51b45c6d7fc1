//! Lines and tables of the page, in as many columns as there is room for.

use super::links::escaped;
use super::svg::Drawn;
use super::{tree, Sight};
use crate::samples::{Conversion, Conversions, Setting};

/// The most characters of a column; what is longer goes on in the next line.
const WIDEST: usize = 110;

/// The most rows of a table; a longer list is several tables, each with its heading.
const ROWS: usize = 16;

/// How many characters a text has.
pub fn length(text: &str) -> usize {
    text.chars().count()
}

/// A line of the page.
#[derive(Default)]
pub struct Line {
    /// Whether the line of the file is the one refused.
    pub fault: bool,
    /// What links to it name.
    pub id: String,
    /// What it says, and how many characters that are.
    pub html: String,
    pub length: usize,
    /// What is drawn below it.
    pub drawing: Option<Drawn>,
}

/// Lines in as many columns as there is room for, each as wide as the longest line needs.
pub fn lines(lines: &[Line]) -> String {
    // a line is indented, and some eight points of a drawing are as wide as a character
    let drawn = |line: &Line| line.drawing.as_ref().map_or(0, |drawn| drawn.width / 8);
    let widths = lines
        .iter()
        .map(|line| (line.length + 5).max(drawn(line) + 3));
    let width = widths.max().unwrap_or(0).min(WIDEST);
    let (class, style) = match lines.iter().any(|line| line.drawing.is_some()) {
        true => (
            "lines drawn f",
            format!("grid-template-columns:repeat(auto-fill,minmax(min({width}ch,100%),1fr))"),
        ),
        false => ("lines f", format!("columns:{width}ch")),
    };
    let mut text = format!("<div class=\"{class}\" style=\"{style}\">\n");
    for line in lines {
        let class = if line.fault { "line fault" } else { "line" };
        let id = match line.id.as_str() {
            "" => String::new(),
            id => format!(" id=\"{id}\""),
        };
        let drawing = line.drawing.as_ref().map_or("", |drawn| &drawn.svg);
        text += &format!("<div class=\"{class}\"{id}>{}{drawing}</div>\n", line.html);
    }
    text + "</div>\n"
}

/// How a setting reads.
fn reading(sight: &Sight, ty: usize, setting: &Setting) -> String {
    tree::setting(&sight.rules, ty, setting.letters.as_bytes())
}

fn number(setting: &Setting) -> String {
    setting
        .number
        .map_or("–".to_string(), |number| number.to_string())
}

/// The number of a setting and how it reads, as cells; its letters where it is pointed at.
fn cells(setting: &Setting, reading: &str) -> String {
    let (number, reading) = (number(setting), escaped(reading));
    let letters = escaped(&setting.letters);
    format!("<td class=\"r\">{number}</td><td class=\"f\" title=\"{letters}\">{reading}</td>")
}

/// A conversion as a row, and how many characters it has.
fn row(sight: &Sight, types: [usize; 2], conversion: &Conversion) -> (String, usize) {
    let Conversion { from, to } = conversion;
    let left = reading(sight, types[0], from);
    let mut plain = length(&left) + length(&number(from));
    let to = match to {
        Ok((to, steps)) => {
            let right = reading(sight, types[1], to);
            plain += length(&right) + length(&number(to));
            format!("{}<td class=\"r\">{steps}</td>", cells(to, &right))
        }
        Err(why) => format!("<td></td><td colspan=\"2\">{why}</td>"),
    };
    (format!("<tr>{}{to}</tr>\n", cells(from, &left)), plain)
}

/// Conversions as tables.
pub fn tables(sight: &Sight, types: [usize; 2], conversions: &Conversions) -> String {
    let rows: Vec<_> = conversions
        .rows
        .iter()
        .map(|one| row(sight, types, one))
        .collect();
    // besides there are the steps, the heads and the room between
    let widest = rows.iter().map(|row| row.1).max().unwrap_or(0) + 11;
    let width = widest.clamp(30, WIDEST);
    // of some length three tables, so that they stand beside each other
    let parts = rows.len().div_ceil(ROWS).max((rows.len() / 8).clamp(1, 3));
    let size = rows.len().div_ceil(parts).max(1);
    let mut text = format!("<div class=\"rows f\" style=\"columns:{width}ch;--wide:{width}ch\">\n");
    for part in rows.chunks(size) {
        text += "<table><thead><tr><th class=\"r\">no.</th><th>setting</th><th class=\"r\">no.</th><th>becomes</th>\
                 <th class=\"r\">steps</th></tr></thead><tbody>\n";
        text.extend(part.iter().map(|row| row.0.as_str()));
        text += "</tbody></table>\n";
    }
    text + "</div>\n"
}
