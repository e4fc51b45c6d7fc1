//! The day by the system's clock, in UTC, without any command of the system.

use std::time::{SystemTime, UNIX_EPOCH};

/// The days of four hundred years, after which the calendar begins anew.
const ERA: i64 = 146_097;

/// Year, month and day of a day counted from 1970-01-01, in the calendar that is in use. The year is taken to begin
/// in March, so that a leap day is its last one.
pub fn civil(day: i64) -> (i64, i64, i64) {
    // from 0000-03-01 on
    let day = day + 719_468;
    let (era, day) = (day.div_euclid(ERA), day.rem_euclid(ERA));
    let year = (day - day / 1_460 + day / 36_524 - day / 146_096) / 365;
    let day = day - (365 * year + year / 4 - year / 100);
    // from March on the months have 153 days in five
    let month = (5 * day + 2) / 153;
    let day = day - (153 * month + 2) / 5 + 1;
    let (month, later) = match month {
        0..=9 => (month + 3, 0),
        _ => (month - 9, 1),
    };
    (400 * era + year + later, month, day)
}

/// The day of so many seconds from 1970-01-01 on, as `2026-11-17`.
pub fn date(seconds: i64) -> String {
    let (year, month, day) = civil(seconds.div_euclid(86_400));
    format!("{year:04}-{month:02}-{day:02}")
}

/// Today.
pub fn today() -> String {
    let now = SystemTime::now();
    let seconds = match now.duration_since(UNIX_EPOCH) {
        Ok(since) => since.as_secs() as i64,
        // a clock that stands before 1970
        Err(before) => -(before.duration().as_secs() as i64) - 1,
    };
    date(seconds)
}
