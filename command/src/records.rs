//! Verdicts as they are filed: lines `label: text`, and an empty line between a verdict and the next one. A later
//! verdict stands behind the earlier ones.

use crate::input::{failure, shown};
use crate::{judge, Failure};
use std::ffi::{OsStr, OsString};
use std::fs::{self, File};
use std::io::Read;

/// The most bytes of a file of verdicts: some twenty thousand of them.
const MOST: u64 = 1 << 24;

/// A verdict that was filed.
pub struct Record(Vec<(String, String)>);

impl Record {
    /// The text of a label.
    pub fn get(&self, label: &str) -> Option<&str> {
        let found = self.0.iter().find(|line| line.0 == label);
        found.map(|line| line.1.as_str())
    }

    /// The text of a label that every verdict has.
    fn known(&self, label: &str) -> &str {
        self.get(label).unwrap_or_default()
    }

    /// `number,line`.
    pub fn verdict(&self) -> &str {
        self.known("verdict")
    }

    /// The hash of the bytes that were judged.
    pub fn sha_256(&self) -> &str {
        self.known("SHA-256")
    }

    /// The day on which it was judged.
    pub fn date(&self) -> &str {
        self.get("date").unwrap_or("a day that it does not say")
    }

    /// By what it was judged, in words.
    pub fn judge(&self) -> String {
        judge::words(|label| self.get(label))
    }

    /// Whether what judges now judged it.
    pub fn by_the_same(&self) -> bool {
        let mut now = judge::NOW.iter();
        now.all(|(label, text)| self.get(label) == Some(*text))
    }
}

/// A verdict out of its lines, where these are one.
fn record(lines: &[&str]) -> Option<Record> {
    // an editor may have taken the blank away before a text of no letters
    let parts = lines.iter().map(|line| line.split_once(':'));
    let parts: Option<Vec<_>> = parts.collect();
    let lines = parts?.into_iter();
    let lines = lines.map(|(label, text)| (label.to_string(), text.trim().to_string()));
    let record = Record(lines.collect());
    let digits = record.sha_256().bytes().filter(u8::is_ascii_hexdigit);
    let whole = digits.count() == 64 && record.verdict().contains(',');
    whole.then_some(record)
}

/// The verdicts of a text, where it is made of such.
fn records(text: &str) -> Option<Vec<Record>> {
    let lines: Vec<&str> = text.lines().collect();
    let parts = lines.split(|line| line.is_empty());
    let parts = parts.filter(|part| !part.is_empty());
    parts.map(record).collect()
}

/// Where the verdict on a file is filed.
pub fn place(file: &OsStr) -> OsString {
    let mut place = OsString::from(file);
    place.push(".verdict");
    place
}

/// The verdicts that are filed at a place, the earliest first; nothing where nothing stands there. What is no verdict
/// is an error, since nothing may be put behind it.
pub fn read(place: &OsStr) -> Result<Option<Vec<Record>>, Failure> {
    let name = shown(place);
    let cannot = |error| failure(&name, "read", &error);
    if fs::symlink_metadata(place).is_err() {
        return Ok(None);
    }
    if fs::metadata(place).map_err(cannot)?.is_dir() {
        return Err(Failure(format!("{name} is a folder, not a verdict")));
    }
    let mut bytes = Vec::new();
    let file = File::open(place).map_err(cannot)?;
    let all = file.take(MOST).read_to_end(&mut bytes);
    all.map_err(cannot)?;
    let text = String::from_utf8(bytes).ok();
    let found = text.and_then(|text| records(&text));
    match found.filter(|found| !found.is_empty()) {
        Some(found) => Ok(Some(found)),
        None => Err(Failure(format!(
            "{name} is there and is no verdict; it is kept. Move it away, and file the verdict then"
        ))),
    }
}
