//! The picture of the growth: a panel for each series, both axes logarithmic.

use crate::instructions::Counts;
use crate::list::Growth;
use crate::measure::Both;
use crate::point::Point;
use crate::table::{instructions, time, whole};

const WIDTH: f64 = 960.0;
const HEIGHT: f64 = 760.0;
const HEAD: f64 = 50.0;
const PANEL: (f64, f64) = (480.0, 355.0);
/// The axes within a panel: left, right, top, bottom.
const FRAME: [f64; 4] = [72.0, 440.0, 34.0, 296.0];
const PROVED: &str = "#1f5fa8";
const APART: &str = "#c2541b";
const GUIDE: &str = "#777";
const DASHES: &str = "7 4";
const DOTS: &str = "1 4";

/// What a panel shows: sizes and costs, what a cost is, and how it is written.
struct Shown {
    sizes: Vec<f64>,
    costs: Vec<Both>,
    what: &'static str,
    write: fn(f64) -> String,
}

/// The times of the first four series.
pub fn of_times(growths: &[Growth], times: &[Vec<Both>]) -> String {
    let both = growths.iter().zip(times);
    picture(both.map(|(growth, times)| {
        let shown = growth.points().into_iter().zip(times.clone()).collect();
        (growth, shown_by(shown, "time a call", time))
    }))
}

/// The instructions of the first four series, as far as they are counted.
pub fn of_instructions(growths: &[Growth], counts: &Counts) -> String {
    let count = |point: Point| counts.get(&point).map(|both| (point, *both));
    picture(growths.iter().map(|growth| {
        let shown = growth.points().into_iter().filter_map(count).collect();
        (growth, shown_by(shown, "instructions a call", instructions))
    }))
}

fn shown_by(points: Vec<(Point, Both)>, what: &'static str, write: fn(f64) -> String) -> Shown {
    let size = |(point, _): &(Point, Both)| f64::from(point.amount());
    Shown {
        sizes: points.iter().map(size).collect(),
        costs: points.iter().map(|(_, both)| *both).collect(),
        what,
        write,
    }
}

fn picture<'a>(panels: impl Iterator<Item = (&'a Growth, Shown)>) -> String {
    let mut svg = format!(
        "<svg xmlns=\"http://www.w3.org/2000/svg\" viewBox=\"0 0 {WIDTH} {HEIGHT}\" \
         font-family=\"sans-serif\" font-size=\"13\" fill=\"#222\">\n\
         <rect width=\"{WIDTH}\" height=\"{HEIGHT}\" fill=\"#fff\"/>\n"
    );
    legend(&mut svg);
    for (place, (growth, shown)) in panels.take(4).enumerate() {
        let x = (place % 2) as f64 * PANEL.0;
        let y = HEAD + (place / 2) as f64 * PANEL.1;
        svg += &format!("<g transform=\"translate({x} {y})\">\n");
        panel(&mut svg, growth, &shown);
        svg += "</g>\n";
    }
    svg + "</svg>\n"
}

fn legend(svg: &mut String) {
    let y = 28.0;
    curve(svg, &[(60.0, y), (105.0, y)], PROVED, "none");
    marks(svg, &[(82.5, y)], PROVED, true);
    text(svg, (115.0, y + 4.5), "start", "proved library");
    curve(svg, &[(260.0, y), (305.0, y)], APART, DASHES);
    marks(svg, &[(282.5, y)], APART, false);
    text(svg, (315.0, y + 4.5), "start", "checker written apart");
    curve(svg, &[(510.0, y), (555.0, y)], GUIDE, DOTS);
    text(
        svg,
        (565.0, y + 4.5),
        "start",
        "slope of a cost that doubles with the size",
    );
}

/// The logarithms at the ends of both axes.
struct Axes {
    x: (f64, f64),
    y: (f64, f64),
}

impl Axes {
    fn of(sizes: &[f64], costs: &[f64]) -> Self {
        let low = costs.iter().copied().fold(f64::MAX, f64::min).log10();
        let high = costs.iter().copied().fold(f64::MIN, f64::max).log10();
        Axes {
            x: (sizes[0].log10(), (sizes[sizes.len() - 1]).log10()),
            y: (low.floor(), high.ceil()),
        }
    }

    /// Where a size and a cost stand.
    fn at(&self, size: f64, cost: f64) -> (f64, f64) {
        let share = |value: f64, ends: (f64, f64)| (value.log10() - ends.0) / (ends.1 - ends.0);
        let [left, right, top, bottom] = FRAME;
        (
            left + share(size, self.x) * (right - left),
            bottom - share(cost, self.y) * (bottom - top),
        )
    }
}

fn panel(svg: &mut String, growth: &Growth, shown: &Shown) {
    let sizes = &shown.sizes;
    let proved: Vec<f64> = shown.costs.iter().map(|both| both.proved).collect();
    let apart: Vec<f64> = shown.costs.iter().map(|both| both.apart).collect();
    let axes = Axes::of(sizes, &[&proved[..], &apart[..]].concat());
    let [left, right, top, bottom] = FRAME;
    let middle = (left + right) / 2.0;
    text(svg, (middle, top - 12.0), "middle", growth.label);
    text(svg, (middle, bottom + 44.0), "middle", growth.unit);
    text(svg, (8.0, top - 12.0), "start", shown.what);
    grid(svg, &axes, shown);
    guide(svg, &axes, sizes, proved[proved.len() - 1]);
    let placed = |costs: &[f64]| -> Vec<(f64, f64)> {
        let both = sizes.iter().zip(costs);
        both.map(|(size, cost)| axes.at(*size, *cost)).collect()
    };
    curve(svg, &placed(&apart), APART, DASHES);
    marks(svg, &placed(&apart), APART, false);
    curve(svg, &placed(&proved), PROVED, "none");
    marks(svg, &placed(&proved), PROVED, true);
}

/// The lines and labels of both axes.
fn grid(svg: &mut String, axes: &Axes, shown: &Shown) {
    let [left, right, top, bottom] = FRAME;
    let decades = axes.y.0 as i32..=axes.y.1 as i32;
    let few = axes.y.1 - axes.y.0 < 2.5;
    for (decade, step) in decades.flat_map(|decade| [1, 2, 5].map(|step| (decade, step))) {
        let cost = f64::from(step) * 10f64.powi(decade);
        let y = axes.at(1.0, cost).1;
        if y < top - 0.5 {
            continue;
        }
        rule(
            svg,
            (left, y),
            (right, y),
            if step == 1 { "#ccc" } else { "#eee" },
        );
        if step == 1 || few {
            text(
                svg,
                (left - 8.0, y + 4.5),
                "end",
                &(shown.write)(cost).replace(".00", "").replace(".0", ""),
            );
        }
    }
    let every = shown.sizes.len().div_ceil(6);
    for (place, size) in shown.sizes.iter().enumerate() {
        let x = axes.at(*size, 1.0).0;
        rule(svg, (x, top), (x, bottom), "#eee");
        if place % every == 0 {
            text(svg, (x, bottom + 23.0), "middle", &whole(*size));
        }
    }
    rule(svg, (left, bottom), (right, bottom), "#555");
    rule(svg, (left, top), (left, bottom), "#555");
}

/// From the last cost down by as much as the size falls, no further than the axis.
fn guide(svg: &mut String, axes: &Axes, sizes: &[f64], cost: f64) {
    let last = sizes[sizes.len() - 1];
    let least = 10f64.powf(axes.y.0);
    let first = sizes[0].max(last * least / cost);
    let ends = [axes.at(first, cost * first / last), axes.at(last, cost)];
    curve(svg, &ends, GUIDE, DOTS);
}

fn rule(svg: &mut String, from: (f64, f64), to: (f64, f64), color: &str) {
    let ((a, b), (c, d)) = (from, to);
    *svg += &format!(
        "<line x1=\"{a:.1}\" y1=\"{b:.1}\" x2=\"{c:.1}\" y2=\"{d:.1}\" stroke=\"{color}\"/>\n"
    );
}

fn curve(svg: &mut String, points: &[(f64, f64)], color: &str, dashes: &str) {
    let pairs: Vec<String> = points
        .iter()
        .map(|(x, y)| format!("{x:.1},{y:.1}"))
        .collect();
    let pairs = pairs.join(" ");
    *svg += &format!(
        "<polyline points=\"{pairs}\" fill=\"none\" stroke=\"{color}\" stroke-width=\"2\" \
         stroke-dasharray=\"{dashes}\" stroke-linecap=\"round\"/>\n"
    );
}

/// Round marks or square ones.
fn marks(svg: &mut String, points: &[(f64, f64)], color: &str, round: bool) {
    for (x, y) in points {
        *svg += &match round {
            true => format!("<circle cx=\"{x:.1}\" cy=\"{y:.1}\" r=\"4\" fill=\"{color}\"/>\n"),
            false => format!(
                "<rect x=\"{:.1}\" y=\"{:.1}\" width=\"7\" height=\"7\" fill=\"{color}\"/>\n",
                x - 3.5,
                y - 3.5
            ),
        };
    }
}

fn text(svg: &mut String, (x, y): (f64, f64), anchor: &str, words: &str) {
    *svg += &format!("<text x=\"{x:.1}\" y=\"{y:.1}\" text-anchor=\"{anchor}\">{words}</text>\n");
}
