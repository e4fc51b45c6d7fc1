//! Which of the three standard streams are closed.

use std::fs::{self, OpenOptions};
use std::mem;
use std::path::Path;
use std::sync::OnceLock;

static CLOSED: OnceLock<[bool; 3]> = OnceLock::new();

/// Notes which streams are closed, and fills their places, so that no file that is opened later takes one. To be
/// called before any file is opened.
pub fn guard() {
    let known = Path::new("/proc/self/fd").is_dir();
    let closed = [0, 1, 2]
        .map(|number| known && fs::symlink_metadata(format!("/proc/self/fd/{number}")).is_err());
    for _ in closed.iter().filter(|closed| **closed) {
        // the lowest free number is given out
        let filler = OpenOptions::new().read(true).write(true).open("/dev/null");
        mem::forget(filler);
    }
    CLOSED.get_or_init(|| closed);
}

fn closed(number: usize) -> bool {
    CLOSED.get().is_some_and(|closed| closed[number])
}

/// Whether standard input is closed.
pub fn input_closed() -> bool {
    closed(0)
}

/// Whether standard output is closed.
pub fn output_closed() -> bool {
    closed(1)
}

/// Whether standard error is closed.
pub fn error_closed() -> bool {
    closed(2)
}
