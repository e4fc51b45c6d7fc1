//! The tables of `--growth`: instructions by size, the exponent that fits, and what the definition needs.

use crate::fit::exponent;
use crate::growing::{Growing, Measure, Of, MEASURES};
use crate::instructions::{of_growing, shared_out};
use crate::table::{ratio, whole, Table};

/// How far above what the definition needs an exponent may be: the cost of small sizes is not all of one power.
const TOLERANCE: f64 = 0.15;

/// What was counted of a row: the instructions of each size.
struct Counted {
    row: &'static Growing,
    costs: Vec<f64>,
    exponent: f64,
}

impl Counted {
    fn new(sizes: &[usize], row: &'static Growing, costs: Vec<f64>) -> Self {
        let sizes: Vec<f64> = sizes.iter().map(|size| *size as f64).collect();
        let exponent = exponent(&sizes, &costs);
        Counted {
            row,
            costs,
            exponent,
        }
    }

    fn is_above(&self) -> bool {
        self.exponent > f64::from(self.row.needs) + TOLERANCE
    }

    fn cells(&self) -> Vec<String> {
        let part = match self.row.of {
            Of::Call => "a call",
            Of::Part(name, _) => name,
        };
        let mut cells = vec![self.row.service.to_string(), part.to_string()];
        cells.extend(self.costs.iter().map(|cost| whole(*cost)));
        let mark = if self.is_above() { ", above" } else { "" };
        let needs = format!("{}, {}", self.row.needs, self.row.why);
        cells.extend([ratio(self.exponent) + mark, needs]);
        cells
    }
}

/// Which rows are counted: all, those of a measure, or one service's of a measure.
#[derive(Clone, Copy, Default)]
pub struct Choice<'a> {
    pub measure: Option<&'a str>,
    pub service: Option<&'a str>,
}

impl Choice<'_> {
    /// The rows of a measure.
    fn rows(self, measure: &'static Measure) -> Vec<&'static Growing> {
        let is = |wanted: Option<&str>, name| wanted.is_none_or(|wanted| wanted == name);
        let rows = measure
            .rows
            .iter()
            .filter(|_| is(self.measure, measure.name));
        rows.filter(|row| is(self.service, row.service)).collect()
    }
}

/// Counts and prints what is chosen; whether no exponent is above what is needed, or nothing where there is no such
/// row.
pub fn shown(choice: Choice) -> Option<bool> {
    let points: Vec<Point> = MEASURES
        .iter()
        .flat_map(|one| points(choice, one))
        .collect();
    points.iter().for_each(|(_, row, size)| row.held(*size));
    let count = |(measure, row, size): &Point| of_growing(measure.name, row, *size);
    let mut costs = shared_out(&points, count).into_iter();
    let mut none_above = None;
    for measure in MEASURES {
        let counted = |row| {
            let own = costs.by_ref().take(measure.sizes.len());
            Counted::new(measure.sizes, row, own.collect())
        };
        let counted: Vec<Counted> = choice.rows(measure).into_iter().map(counted).collect();
        if !counted.is_empty() {
            println!("By {}:\n\n{}", measure.name, table(measure.sizes, &counted));
            none_above = Some(report(measure.name, &counted) & none_above.unwrap_or(true));
        }
    }
    none_above
}

/// A row at a size.
type Point = (&'static Measure, &'static Growing, usize);

fn points(choice: Choice, measure: &'static Measure) -> Vec<Point> {
    let rows = choice.rows(measure).into_iter();
    let sizes = |row| measure.sizes.iter().map(move |size| (measure, row, *size));
    rows.flat_map(sizes).collect()
}

fn table(sizes: &[usize], rows: &[Counted]) -> Table {
    let sizes: Vec<String> = sizes.iter().map(|size| whole(*size as f64)).collect();
    let sizes = sizes.iter().map(String::as_str);
    let heads = ["service", "for"].into_iter().chain(sizes);
    let heads: Vec<&str> = heads.chain(["exponent", "needs"]).collect();
    let mut table = Table::new(&heads);
    rows.iter().for_each(|row| table.row(row.cells()));
    table
}

/// Says which exponents are above what is needed; whether none is.
fn report(measure: &str, rows: &[Counted]) -> bool {
    let mut none = true;
    for row in rows.iter().filter(|row| row.is_above()) {
        let (service, needs) = (row.row.service, row.row.needs);
        let exponent = ratio(row.exponent);
        eprintln!(
            "{service} grows with the {measure} by an exponent of {exponent}, {needs} is needed"
        );
        none = false;
    }
    none
}

#[cfg(test)]
mod tests {
    use super::*;

    const SIZES: [usize; 5] = [8, 16, 32, 64, 128];

    /// The row of Check by clauses, which may grow by an exponent of two, with costs of a power.
    fn grown(power: f64) -> Counted {
        let row = &MEASURES[1].rows[0];
        assert_eq!((row.service, row.needs), ("Check", 2));
        let cost = |size: &usize| 20_000.0 + 10.0 * (*size as f64).powf(power);
        Counted::new(&SIZES, row, SIZES.iter().map(cost).collect())
    }

    #[test]
    fn an_exponent_above_what_is_needed_is_reported() {
        assert!(report("clauses", &[grown(1.0), grown(2.0)]));
        assert!(report("clauses", &[grown(2.1)]));
        assert!(!report("clauses", &[grown(1.0), grown(2.2)]));
        assert!(!report("clauses", &[grown(3.0), grown(1.0)]));
    }

    #[test]
    fn a_row_has_each_size_the_exponent_and_what_is_needed() {
        let table = table(&SIZES, &[grown(1.0)]).to_string();
        let lines: Vec<&str> = table.lines().collect();
        assert_eq!(
            lines[0],
            "| service | for | 8 | 16 | 32 | 64 | 128 | exponent | needs |"
        );
        assert_eq!(
            lines[2],
            "| Check | a call | 20,080 | 20,160 | 20,320 | 20,640 | 21,280 | 1.00 | 2, each two clauses of a side |"
        );
        assert_eq!(lines.len(), 3);
        let above = grown(3.0).cells();
        assert_eq!(above[7], "3.00, above");
    }

    #[test]
    fn a_choice_leaves_out_the_rest() {
        let count = |measure, service| {
            let choice = Choice { measure, service };
            let rows = MEASURES.iter().map(|one| points(choice, one).len());
            rows.sum::<usize>()
        };
        let [lines, clauses] = [0, 1].map(|place: usize| MEASURES[place].rows.len());
        assert_eq!(count(Some("lines"), None), 4 * lines);
        assert_eq!(count(Some("clauses"), None), 5 * clauses);
        assert_eq!(count(Some("clauses"), Some("Check")), 5);
        assert_eq!(count(Some("clauses"), Some("none")), 0);
        assert!(count(None, None) > 4 * lines + 5 * clauses);
    }
}
