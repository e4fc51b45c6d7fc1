//! Compares the desk program and the linked library with the checker written
//! apart. The last line is `N passed, M failed`.

use compare::arguments::{Arguments, USAGE};
use compare::tally::Tally;
use compare::work::compare;
use std::fs;
use std::io;
use std::process::ExitCode;
use std::time::Instant;

fn main() -> ExitCode {
    let words: Vec<String> = std::env::args().skip(1).collect();
    let Some(wanted) = Arguments::read(&words) else {
        eprintln!("{USAGE}");
        return ExitCode::from(2);
    };
    let begun = Instant::now();
    let compared = compare(&wanted).and_then(|tally| keep(&wanted, &tally).map(|()| tally));
    match compared {
        Ok(tally) => {
            tally.print();
            println!("seconds        {:.1}", begun.elapsed().as_secs_f64());
            let (passed, failed) = tally.verdict();
            println!("{passed} passed, {failed} failed");
            ExitCode::from(u8::from(failed > 0))
        }
        Err(error) => {
            eprintln!("differ: {error}");
            ExitCode::from(2)
        }
    }
}

/// Keeps the input of the first mismatch.
fn keep(wanted: &Arguments, tally: &Tally) -> io::Result<()> {
    match (&wanted.keep, tally.reports.first()) {
        (Some(path), Some(report)) => fs::write(path, &report.input),
        _ => Ok(()),
    }
}
