//! What a page says of its own worth: the file by its SHA-256, the day, and what judged it.

use crate::input::Input;
use crate::{calendar, judge, sha256};

/// What stands in the foot of every printed page.
pub struct Stamp {
    /// The SHA-256 of the bytes that were judged; none of a file that was not read to its end.
    pub sha_256: Option<String>,
    pub date: String,
    /// What judged it.
    pub judged: String,
}

/// The stamp of a file, today.
pub fn of(file: &Input) -> Stamp {
    let whole = !file.too_long();
    Stamp {
        sha_256: whole.then(|| sha256::digits(&file.bytes)),
        date: calendar::today(),
        judged: judge::now(),
    }
}
