//! Tables in Markdown, and how numbers are written.

use std::fmt;

/// A table whose columns but the first are numbers.
pub struct Table {
    rows: Vec<Vec<String>>,
}

impl Table {
    pub fn new(heads: &[&str]) -> Self {
        let rule = (0..heads.len()).map(|column| if column == 0 { "---" } else { "---:" });
        let rows = vec![
            heads.iter().map(|head| head.to_string()).collect(),
            rule.map(String::from).collect(),
        ];
        Table { rows }
    }

    pub fn row(&mut self, cells: Vec<String>) {
        assert_eq!(cells.len(), self.rows[0].len(), "cells of a row");
        self.rows.push(cells);
    }
}

impl fmt::Display for Table {
    fn fmt(&self, f: &mut fmt::Formatter) -> fmt::Result {
        let mut lines = self.rows.iter();
        lines.try_for_each(|cells| writeln!(f, "| {} |", cells.join(" | ")))
    }
}

/// Three digits of a number, or all of those before the point.
fn digits(number: f64) -> String {
    let places = match number {
        n if n < 9.995 => 2,
        n if n < 99.95 => 1,
        _ => 0,
    };
    format!("{number:.places$}")
}

/// A time given in nanoseconds.
pub fn time(nanoseconds: f64) -> String {
    match nanoseconds {
        n if n < 999.5 => digits(n) + " ns",
        n if n < 999.5e3 => digits(n / 1e3) + " µs",
        n if n < 999.5e6 => digits(n / 1e6) + " ms",
        n => digits(n / 1e9) + " s",
    }
}

/// A number of instructions, for an axis.
pub fn instructions(number: f64) -> String {
    match number {
        n if n < 999.5 => digits(n),
        n if n < 999.5e3 => digits(n / 1e3) + " k",
        n if n < 999.5e6 => digits(n / 1e6) + " M",
        n => digits(n / 1e9) + " G",
    }
}

/// A whole number, its digits in groups of three.
pub fn whole(number: f64) -> String {
    let digits = format!("{number:.0}");
    let mut text = String::new();
    for (place, digit) in digits.char_indices() {
        if place > 0 && (digits.len() - place) % 3 == 0 {
            text.push(',');
        }
        text.push(digit);
    }
    text
}

pub fn ratio(number: f64) -> String {
    format!("{number:.2}")
}

#[cfg(test)]
mod tests {
    use super::*;

    #[test]
    fn numbers_are_written_with_three_digits_at_least() {
        assert_eq!(time(9.994), "9.99 ns");
        assert_eq!(time(9.996), "10.0 ns");
        assert_eq!(time(999.4), "999 ns");
        assert_eq!(time(999.6), "1.00 µs");
        assert_eq!(time(12_345_678.0), "12.3 ms");
        assert_eq!(time(2.5e9), "2.50 s");
        assert_eq!(instructions(20_000_000.0), "20.0 M");
        assert_eq!(whole(999.0), "999");
        assert_eq!(whole(1_234_567.4), "1,234,567");
        assert_eq!(ratio(0.9951), "1.00");
    }

    #[test]
    fn a_table_is_markdown() {
        let mut table = Table::new(&["a", "b"]);
        table.row(vec!["1".to_string(), "2".to_string()]);
        let lines = "| a | b |\n| --- | ---: |\n| 1 | 2 |\n";
        assert_eq!(table.to_string(), lines);
    }
}
