//! The tables of costs, printed.

use crate::instructions::Counts;
use crate::list::{Growth, Row};
use crate::measure::Both;
use crate::point::{Point, Series};
use crate::table::{ratio, time, whole, Table};
use crate::worst::CANDIDATES;

const TIMES: [&str; 3] = ["time, proved", "time, apart", "apart / proved"];
const INSTRUCTIONS: [&str; 3] = [
    "instructions, proved",
    "instructions, apart",
    "apart / proved",
];
const TIMES_GROWN: [&str; 4] = ["time, proved", "factor", "time, apart", "factor"];
const INSTRUCTIONS_GROWN: [&str; 4] = [
    "instructions, proved",
    "factor",
    "instructions, apart",
    "factor",
];

/// A table with columns for the times where any were taken, and for the instructions where any were counted.
fn table(first: &[&str], columns: [&[&str]; 2], times: &[Both], counts: &Counts) -> Table {
    let shown = [!times.is_empty(), !counts.is_empty()];
    let columns = columns.iter().zip(shown).filter(|(_, shown)| *shown);
    let heads = columns.flat_map(|(heads, _)| heads.iter());
    Table::new(&first.iter().chain(heads).copied().collect::<Vec<_>>())
}

/// The costs of both implementations, row by row.
pub fn side_by_side(rows: &[Row], times: &[Both], counts: &Counts) {
    let mut table = table(&["what", "for"], [&TIMES, &INSTRUCTIONS], times, counts);
    let each = |point: Point, both: &Both| both.map(|cost| cost / f64::from(point.parts()));
    for (place, row) in rows.iter().enumerate() {
        let mut cells = vec![row.label.clone(), row.part.to_string()];
        if let Some(both) = times.get(place) {
            cells.extend(compared(each(row.point, both), time));
        }
        if let Some(both) = counts.get(&row.point) {
            cells.extend(compared(each(row.point, both), whole));
        }
        table.row(cells);
    }
    println!("## Side by side\n\n{table}");
    let desk = |(row, _): &(&Row, &Both)| row.point.series == Series::Desk;
    for (row, times) in rows.iter().zip(times).filter(desk) {
        let second = times.map(|time| row.point.size as f64 * 1e9 / time);
        let [proved, apart] = [second.proved, second.apart].map(whole);
        println!(
            "Queries a second: {proved} by `rules`, {apart} by the desk program written apart.\n"
        );
    }
}

/// Both numbers and their ratio.
fn compared(both: Both, write: fn(f64) -> String) -> [String; 3] {
    [write(both.proved), write(both.apart), ratio(both.ratio())]
}

/// The files among which the worst case was looked for.
pub fn candidates(points: &[Point], times: &[Both], counts: &Counts) {
    let first = ["file", "lines", "bytes"];
    let mut table = table(&first, [&TIMES, &INSTRUCTIONS], times, counts);
    for (place, (point, candidate)) in points.iter().zip(&CANDIDATES).enumerate() {
        let call = point.call();
        let [lines, bytes] = [call.lines(), call.bytes()].map(|count| whole(count as f64));
        let mut cells = vec![candidate.label.to_string(), lines, bytes];
        if let Some(both) = times.get(place) {
            cells.extend(compared(*both, time));
        }
        if let Some(both) = counts.get(point) {
            cells.extend(compared(*both, whole));
        }
        table.row(cells);
    }
    println!("## The worst case of Check\n\n{table}");
}

/// How costs grow.
pub fn growths(growths: &[Growth], times: &[Vec<Both>], counts: &Counts) {
    println!("## Growth\n");
    for (growth, times) in growths.iter().zip(times) {
        println!(
            "{}:\n\n{}",
            growth.label,
            grown_table(growth, times, counts)
        );
    }
}

/// Each cost, and how many times the one before it is; with instructions alone, as far as they are counted.
fn grown_table(growth: &Growth, times: &[Both], counts: &Counts) -> Table {
    let columns: [&[&str]; 2] = [&TIMES_GROWN, &INSTRUCTIONS_GROWN];
    let mut table = table(&[growth.unit], columns, times, counts);
    let points = growth.points();
    for (place, point) in points.iter().enumerate() {
        let before = place.checked_sub(1);
        let mut cells = vec![whole(f64::from(point.amount()))];
        if !times.is_empty() {
            let before = before.map(|place| &times[place]);
            cells.extend(grown(Some(&times[place]), before, time));
        }
        if !counts.is_empty() {
            let before = before.and_then(|place| counts.get(&points[place]));
            cells.extend(grown(counts.get(point), before, whole));
        }
        if counts.contains_key(point) || !times.is_empty() {
            table.row(cells);
        }
    }
    table
}

/// Each number with its factor to the one before it, as far as there are any.
fn grown(both: Option<&Both>, before: Option<&Both>, write: fn(f64) -> String) -> [String; 4] {
    let Some(Both { proved, apart }) = both else {
        return Default::default();
    };
    let [one, two] = match before {
        Some(before) => [proved / before.proved, apart / before.apart].map(ratio),
        None => Default::default(),
    };
    [write(*proved), one, write(*apart), two]
}

#[cfg(test)]
mod tests {
    use super::*;

    /// Costs of the sizes of the first growth, each twice the one before.
    fn costs(growth: &Growth) -> Vec<Both> {
        let cost = |place| Both {
            proved: f64::from(1 << place),
            apart: f64::from(3 << place),
        };
        (0..growth.points().len()).map(cost).collect()
    }

    fn lines(table: &Table) -> Vec<String> {
        table.to_string().lines().map(String::from).collect()
    }

    #[test]
    fn a_table_has_the_columns_of_what_was_measured() {
        let growth = &crate::list::growths(true)[0];
        let costs = costs(growth);
        let counts: Counts = growth.points().into_iter().zip(costs.clone()).collect();
        let times_alone = lines(&grown_table(growth, &costs, &Counts::new()));
        assert_eq!(
            times_alone[0],
            "| lines | time, proved | factor | time, apart | factor |"
        );
        assert_eq!(times_alone[3], "| 512 | 2.00 ns | 2.00 | 6.00 ns | 2.00 |");
        let instructions_alone = lines(&grown_table(growth, &[], &counts));
        assert_eq!(
            instructions_alone[0],
            "| lines | instructions, proved | factor | instructions, apart | factor |"
        );
        assert_eq!(instructions_alone[3], "| 512 | 2 | 2.00 | 6 | 2.00 |");
        let both = lines(&grown_table(growth, &costs, &counts));
        assert_eq!(
            both[3],
            "| 512 | 2.00 ns | 2.00 | 6.00 ns | 2.00 | 2 | 2.00 | 6 | 2.00 |"
        );
    }

    #[test]
    fn sizes_that_were_not_counted_have_no_row() {
        let growth = &crate::list::growths(true)[0];
        let first = growth.points()[0];
        let counts = Counts::from([(first, costs(growth)[0])]);
        assert_eq!(lines(&grown_table(growth, &[], &counts)).len(), 3);
    }
}
