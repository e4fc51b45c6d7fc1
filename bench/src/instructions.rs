//! Instructions, counted by callgrind: the difference between two runs of a program with different numbers
//! of calls or queries, so that all the rest drops out.

use crate::call::{Apart, Implementation, Proved};
use crate::desk::Desk;
use crate::growing::{Growing, Of};
use crate::measure::Both;
use crate::point::{Point, Series};
use std::collections::HashMap;
use std::env;
use std::process::{Command, Stdio};
use std::sync::atomic::{AtomicUsize, Ordering};
use std::sync::Mutex;
use std::thread;

/// The C library's memset may store by one repeated instruction, which callgrind counts once a byte.
const NO_REPEATS: &str =
    "glibc.cpu.x86_rep_stosb_threshold=1000000000:glibc.cpu.x86_rep_movsb_threshold=1000000000";

pub type Counts = HashMap<Point, Both>;

/// The instructions of each point, with a thread for each core, once its answers were the expected ones.
pub fn count_all(points: &[Point], desk: &Desk) -> Counts {
    points.iter().for_each(|point| hold(*point, desk));
    hold(Point::new(Series::Desk, 0), desk);
    let counts = shared_out(points, |point| count(*point, desk));
    points.iter().copied().zip(counts).collect()
}

/// What a function gives of each of a list, by a thread for each core.
pub fn shared_out<T: Sync, N: Send>(all: &[T], give: impl Fn(&T) -> N + Sync) -> Vec<N> {
    let next = AtomicUsize::new(0);
    let given = Mutex::new(Vec::new());
    let work = || loop {
        let place = next.fetch_add(1, Ordering::Relaxed);
        let Some(one) = all.get(place) else { break };
        let number = give(one);
        given.lock().expect("a lock").push((place, number));
    };
    let cores = thread::available_parallelism().map_or(1, |cores| cores.get());
    thread::scope(|scope| {
        for _ in 0..cores {
            scope.spawn(work);
        }
    });
    let mut given = given.into_inner().expect("a lock");
    given.sort_by_key(|(place, _)| *place);
    given.into_iter().map(|(_, number)| number).collect()
}

/// Holds both implementations to the expected answer; it also writes the files that the desk programs read.
fn hold(point: Point, desk: &Desk) {
    let mut held = point.timed(desk);
    for by in [Proved, Apart] {
        held.time(by, 1);
    }
}

fn count(point: Point, desk: &Desk) -> Both {
    let [proved, apart] = [Proved, Apart].map(|by| match point.series {
        Series::Desk => of_desk(point.size, desk, by),
        // a call that takes long is made once
        Series::Worst => of_calls(point, by, 0, 1),
        _ => of_calls(point, by, 1, 3),
    });
    Both { proved, apart }
}

/// Instructions a call, by two numbers of calls.
fn of_calls(point: Point, by: Implementation, few: u32, many: u32) -> f64 {
    let size = point.size.to_string();
    let made = ["--once", point.series.name(), &size, by.name()];
    between(&made, few, many)
}

/// Instructions a call of this program with these arguments, by two numbers of calls behind them.
fn between(arguments: &[&str], few: u32, many: u32) -> f64 {
    let program = env::current_exe().expect("the program knows its path");
    let total = |calls: u32| {
        let mut run = callgrind();
        run.arg(&program).args(arguments).arg(calls.to_string());
        collected(run)
    };
    (total(many) - total(few)) / f64::from(many - few)
}

/// The proved library's instructions for a row of a measure at a size: a call's, or those of a part of it.
pub fn of_growing(measure: &str, row: &Growing, size: usize) -> f64 {
    let size = size.to_string();
    let total = |parts: usize| {
        let parts = parts.to_string();
        between(&["--grown", measure, row.service, &size, &parts], 1, 2)
    };
    match row.of {
        Of::Call => total(0),
        Of::Part(_, [few, many]) => (total(many) - total(few)) / (many - few) as f64,
    }
}

/// Instructions for so many queries.
fn of_desk(queries: usize, desk: &Desk, by: Implementation) -> f64 {
    let total = |queries: usize| {
        let mut run = callgrind();
        run.arg(desk.program(by)).stdin(desk.input(queries));
        collected(run)
    };
    total(queries) - total(0)
}

fn callgrind() -> Command {
    let mut command = Command::new("valgrind");
    command.args(["--tool=callgrind", "--callgrind-out-file=/dev/null"]);
    command.env("GLIBC_TUNABLES", NO_REPEATS);
    command
}

/// The number of instructions that callgrind reports.
fn collected(mut run: Command) -> f64 {
    let run = run.stdout(Stdio::null()).stderr(Stdio::piped());
    let output = run.output().expect("valgrind is there");
    let report = String::from_utf8_lossy(&output.stderr);
    assert!(output.status.success(), "{report}");
    let number = report.split("Collected :").nth(1).map(str::trim_start);
    let digits = number.and_then(|rest| rest.split_whitespace().next());
    digits
        .and_then(|text| text.parse().ok())
        .expect("a count in the report")
}
