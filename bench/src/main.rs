//! Measures the proved library and the checker written apart side by side, and prints tables.

mod answer;
mod call;
mod clock;
mod desk;
mod draft;
mod fit;
mod growing;
mod grown;
mod growth;
mod inputs;
mod instructions;
mod list;
mod long;
mod measure;
mod plot;
mod point;
mod report;
mod service;
mod single;
mod table;
mod worst;

use call::{Areas, Call, Implementation, Proved};
use desk::Desk;
use growth::Choice;
use instructions::Counts;
use list::Growth;
use measure::{Both, Plan};
use point::{Point, Series};
use std::env;
use std::fs;
use std::hint::black_box;
use std::process::ExitCode;
use std::time::Duration;

const USAGE: &str = "bench [--quick|--times|--instructions] RULES APART-RULES FOLDER PICTURE
bench --growth [MEASURE [SERVICE]]
bench --once SERIES SIZE proved|apart CALLS
bench --grown MEASURE SERVICE SIZE PARTS CALLS";

/// What is measured. The rounds of a quick run are short, and its largest sizes smaller.
#[derive(Clone, Copy, PartialEq, Eq)]
struct Mode {
    times: bool,
    instructions: bool,
    quick: bool,
}

impl Mode {
    fn named(name: &str) -> Option<Mode> {
        let (times, instructions, quick) = match name {
            "" => (true, true, false),
            "--quick" => (true, false, true),
            "--times" => (true, false, false),
            "--instructions" => (false, true, false),
            _ => return None,
        };
        Some(Mode {
            times,
            instructions,
            quick,
        })
    }
}

fn main() -> ExitCode {
    let arguments: Vec<String> = env::args().skip(1).collect();
    let arguments: Vec<&str> = arguments.iter().map(String::as_str).collect();
    let done = match arguments[..] {
        ["--once", series, size, by, calls] => once(series, size, by, calls),
        ["--grown", measure, service, size, parts, calls] => {
            grown_once([measure, service], [size, parts, calls])
        }
        ["--growth", ref chosen @ ..] => match grown(chosen) {
            Some(false) => return ExitCode::FAILURE,
            shown => shown.map(|_| ()),
        },
        [rules, apart, folder, picture] => measured("", desk(rules, apart, folder), picture),
        [mode, rules, apart, folder, picture] => {
            measured(mode, desk(rules, apart, folder), picture)
        }
        _ => None,
    };
    match done {
        Some(()) => ExitCode::SUCCESS,
        None => {
            eprintln!("{USAGE}");
            ExitCode::from(2)
        }
    }
}

fn desk(rules: &str, apart_rules: &str, folder: &str) -> Desk {
    Desk {
        rules: rules.into(),
        apart_rules: apart_rules.into(),
        folder: folder.into(),
    }
}

/// Makes one point's call a number of times, for callgrind.
fn once(series: &str, size: &str, by: &str, calls: &str) -> Option<()> {
    let point = Point::new(Series::named(series)?, size.parse().ok()?);
    let by = Implementation::named(by)?;
    make(&point.call(), by, calls.parse().ok()?);
    Some(())
}

/// The same for a row of `--growth`, by the proved library.
fn grown_once([measure, service]: [&str; 2], numbers: [&str; 3]) -> Option<()> {
    let row = growing::named(measure, service)?;
    let [size, parts, calls] = numbers.map(|number| number.parse::<usize>().ok());
    make(&(row.call)(size?, parts?), Proved, calls?);
    Some(())
}

fn make(call: &Call, by: Implementation, calls: usize) {
    let mut areas = Areas::new();
    for _ in 0..calls {
        black_box(call).make(by, black_box(&mut areas));
    }
}

/// Shows how instructions grow, by all measures or one, of all services or one.
fn grown(chosen: &[&str]) -> Option<bool> {
    let [measure, service] = [0, 1].map(|place| chosen.get(place).copied());
    match chosen.len() {
        0..=2 => growth::shown(Choice { measure, service }),
        _ => None,
    }
}

/// The plans for the rows and for all the rest.
fn plans(quick: bool) -> [Plan; 2] {
    let plan = |milliseconds, rounds| Plan {
        round: Duration::from_millis(milliseconds),
        rounds,
    };
    match quick {
        true => [plan(2, 1), plan(1, 1)],
        false => [plan(20, 25), plan(10, 9)],
    }
}

fn measured(mode: &str, desk: Desk, picture: &str) -> Option<()> {
    let mode = Mode::named(mode)?;
    let svg = bench(&desk, mode);
    fs::write(picture, svg).expect("the picture's folder is there");
    Some(())
}

/// Measures and prints the tables; gives the picture.
fn bench(desk: &Desk, mode: Mode) -> String {
    let [long, short] = plans(mode.quick);
    let candidates = list::candidates();
    let growths = list::growths(mode.quick);
    let counts = match mode.instructions {
        true => instructions::count_all(&list::counted(&growths), desk),
        false => Counts::new(),
    };
    let timed = |points: &[Point], plan| match mode.times {
        true => timed(points, desk, plan),
        false => Vec::new(),
    };
    let candidate_times = timed(&candidates, short);
    let worst = [false, true].map(|many| list::costliest(many, &candidate_times, &counts));
    let rows = list::rows(worst);
    let points: Vec<Point> = rows.iter().map(|row| row.point).collect();
    let row_times = timed(&points, long);
    let grow = |growth: &Growth| timed(&growth.points(), short);
    let growth_times: Vec<Vec<Both>> = growths.iter().map(grow).collect();

    report::side_by_side(&rows, &row_times, &counts);
    report::candidates(&candidates, &candidate_times, &counts);
    report::growths(&growths, &growth_times, &counts);
    println!("Every answer was the expected one, the same from both implementations.");
    match mode.instructions {
        true => plot::of_instructions(&growths, &counts),
        false => plot::of_times(&growths, &growth_times),
    }
}

fn timed(points: &[Point], desk: &Desk, plan: Plan) -> Vec<Both> {
    let mut group: Vec<_> = points.iter().map(|point| point.timed(desk)).collect();
    measure::times(&mut group, plan)
}
