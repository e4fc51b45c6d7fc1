//! The rows and the series that are measured.

use crate::inputs::{MOST_ISOS_OF_128, ZONES};
use crate::instructions::Counts;
use crate::measure::Both;
use crate::point::{Point, Series};
use crate::single::SINGLES;
use crate::worst::CANDIDATES;
use apart::lines::LISTS;

const QUERIES: usize = 100_000;
/// The most queries of a sheet.
const SHEET: usize = rulefile::MAX_QUERIES;
/// The most visits of a play.
const VISITS: usize = 4_096;
/// One above the applications of the towers.
const TOWERS: usize = 1 << 14;
/// Instructions of longer runs are not counted.
const COUNTED: usize = 1 << 16;

/// A row of the first table: what is done, what the cost is given for, and the point that stands for it.
pub struct Row {
    pub label: String,
    pub part: &'static str,
    pub point: Point,
}

impl Row {
    fn new(label: &str, part: &'static str, series: Series, size: usize) -> Row {
        Row {
            label: label.to_string(),
            part,
            point: Point::new(series, size),
        }
    }
}

/// A series of growing points, and what their sizes are.
pub struct Growth {
    pub label: &'static str,
    pub unit: &'static str,
    series: Series,
    sizes: Vec<usize>,
}

impl Growth {
    pub fn points(&self) -> Vec<Point> {
        let point = |size: &usize| Point::new(self.series, *size);
        self.sizes.iter().map(point).collect()
    }
}

fn is_counted(point: &Point) -> bool {
    match point.series {
        Series::Applications | Series::Swaps => point.size <= COUNTED,
        _ => true,
    }
}

pub fn candidates() -> Vec<Point> {
    let places = 1..=CANDIDATES.len();
    places
        .map(|place| Point::new(Series::Worst, place))
        .collect()
}

/// The accepted candidate, with or without many clauses an iso, that costs the proved library the most: instructions
/// or, where they are not counted, time.
pub fn costliest(many: bool, times: &[Both], counts: &Counts) -> Point {
    let cost = |(place, point): (usize, Point)| {
        let both = counts.get(&point).or(times.get(place));
        (both.expect("a cost of each candidate").proved, point)
    };
    let most = candidates()
        .into_iter()
        .enumerate()
        .filter(|(place, _)| CANDIDATES[*place].has_many_clauses() == many)
        .filter(|(_, point)| point.call().is_accepted())
        .map(cost)
        .max_by(|one, two| one.0.total_cmp(&two.0));
    most.expect("a file is accepted").1
}

/// The points whose instructions are counted, each once. The row of the worst case is one of the candidates.
pub fn counted(growths: &[Growth]) -> Vec<Point> {
    let mut points = candidates();
    let rows = rows([points[0]; 2]);
    points.extend(rows.iter().map(|row| row.point));
    points.extend(growths.iter().flat_map(Growth::points));
    let mut once = Vec::new();
    for point in points.into_iter().filter(is_counted) {
        if !once.contains(&point) {
            once.push(point);
        }
    }
    once
}

/// The rows of the first table.
pub fn rows(worst: [Point; 2]) -> Vec<Row> {
    let call = |label, series, size| Row::new(label, "a call", series, size);
    let runs = |label, series| Row::new(label, "an application", series, TOWERS);
    let mut rows = rows_of_checks(worst);
    rows.extend([
        call("Turn, 4,096 lines", Series::Turn, 4_096),
        runs("Run, tower of isos on one bit", Series::Applications),
        call("Run, one swap of a value of 127 letters", Series::Swap, 127),
        runs("Run, tower of isos on 127 letters", Series::Swaps),
    ]);
    rows.extend(rows_of_zones());
    rows.extend(rows_of_queries());
    rows.extend(rows_of_plays());
    rows.extend(rows_of_singles());
    rows
}

/// The rows of Check; the last two are candidates for the worst case.
fn rows_of_checks(worst: [Point; 2]) -> Vec<Row> {
    let call = |label: &str, series, size| Row::new(label, "a call", series, size);
    let pairs = "Check, 256 T and 1,024 P lines of units and pairs";
    let closed = "Check, 29 isos of 128 closed clauses";
    let mut rows = vec![
        call("Check, file S", Series::S, 18),
        call("Check, 4,096 lines", Series::Lines, 4_096),
        call("Check, 32 isos of 32 closed clauses", Series::Isos, 32),
        call(closed, Series::Closed, MOST_ISOS_OF_128),
        call(pairs, Series::Pairs, 1_024),
    ];
    for (clauses, worst) in ["up to 32", "128"].into_iter().zip(worst) {
        let file = CANDIDATES[worst.size - 1].label;
        let label = format!("Check, worst case of {clauses} clauses: {file}");
        rows.push(call(&label, worst.series, worst.size));
    }
    rows
}

/// The rows of a zoned board, where lists are taken.
fn rows_of_zones() -> Vec<Row> {
    let row = |label, size| Row::new(label, "a call", Series::Zoned, size);
    let rows = [
        row("Check, a zoned board", 1),
        row("Turn, a zoned board", 2),
        row("Run, 20 zones", ZONES),
    ];
    rows.into_iter().filter(|_| LISTS).collect()
}

/// The rows for many queries of one file. Of the runs on a long file, which are all alike, a few are made.
fn rows_of_queries() -> [Row; 5] {
    let row = |label, series, size| Row::new(label, "a query", series, size);
    let in_one = "600 queries in one sheet, 4,096 lines";
    [
        row("600 queries in one sheet, file S", Series::Sheet, SHEET),
        row("600 runs of their own, file S", Series::Runs, SHEET),
        row(in_one, Series::LongSheet, SHEET),
        row("600 runs of their own, 4,096 lines", Series::LongRuns, 4),
        row("`rules`, 100,000 queries", Series::Desk, QUERIES),
    ]
}

/// The rows for a play of 1,000 units, and for the same runs in sheets.
fn rows_of_plays() -> [Row; 4] {
    let row = |label, series| Row::new(label, "a visit", series, VISITS);
    [
        row(
            "1,000 units, 4,096 visits in one play, file S",
            Series::Play,
        ),
        row(
            "4,096 of these runs in seven sheets, file S",
            Series::Sheets,
        ),
        row(
            "1,000 units, 4,096 visits in one play, 4,096 lines",
            Series::LongPlay,
        ),
        row(
            "4,096 of these runs in seven sheets, 4,096 lines",
            Series::LongSheets,
        ),
    ]
}

/// The rows of the later services.
fn rows_of_singles() -> impl Iterator<Item = Row> {
    let row = |(place, label)| Row::new(label, "a call", Series::Single, place);
    (1..)
        .zip(SINGLES.iter().map(|single| single.label))
        .map(row)
}

/// The series whose growth is shown; the first four are plotted.
pub fn growths(quick: bool) -> Vec<Growth> {
    let growth = |label, unit, series, sizes| Growth {
        label,
        unit,
        series,
        sizes,
    };
    let clauses = "Check by clauses in each of 32 isos";
    let one_iso = "Check by clauses of one iso";
    let isos = "Check by isos of 32 clauses";
    let nodes = "Check by nodes of each pattern";
    let runs = doubling(1 << 10, if quick { 1 << 14 } else { 1 << 22 });
    let lines = || doubling(256, 4_096);
    let sheet = doubling(SHEET / 8, SHEET);
    let desk = doubling(QUERIES / 16, QUERIES);
    vec![
        growth("Check by lines", "lines", Series::Lines, lines()),
        growth(clauses, "clauses", Series::Clauses, doubling(2, 32)),
        growth(isos, "isos", Series::Isos, doubling(1, 32)),
        growth(
            "Run by applications",
            "applications",
            Series::Applications,
            runs,
        ),
        growth(nodes, "nodes", Series::Nodes, vec![7, 15, 31, 63, 127]),
        growth(one_iso, "clauses", Series::Many, doubling(2, 128)),
        growth("Turn by lines", "lines", Series::Turn, lines()),
        growth("A sheet by queries", "queries", Series::Sheet, sheet),
        growth("`rules` by queries", "queries", Series::Desk, desk),
    ]
}

fn doubling(first: usize, last: usize) -> Vec<usize> {
    let next = |size: &usize| Some(size * 2).filter(|size| *size <= last);
    std::iter::successors(Some(first), next).collect()
}
