//! `verify`: whether a file is the one that was judged, and is judged the same.

use crate::arguments::Given;
use crate::explain::{self, entry};
use crate::files::{self, Many, Row};
use crate::records::{self, Record};
use crate::verdict::{base, Judged, BESIDE};
use crate::{input, judge, Failure, Outcome, Status};
use std::ffi::OsStr;

/// The verdicts beside a file, which must have one.
fn filed(path: &OsStr) -> Result<Vec<Record>, Failure> {
    let place = records::place(path);
    records::read(&place)?.ok_or_else(|| {
        let (place, name) = (input::shown(&place), input::shown(path));
        Failure(format!(
            "there is no verdict {place}; `rulefile verdict {name}` files one"
        ))
    })
}

/// The last verdict, the earlier ones, and the file as it is judged now.
struct Sight<'a> {
    last: &'a Record,
    earlier: &'a [Record],
    judged: &'a Judged,
    /// Whether the bytes and the verdict are the same.
    same: [bool; 2],
}

impl Sight<'_> {
    fn bytes(&self) -> String {
        let now = &self.judged.sha_256;
        match self.same[0] {
            true => format!("the same, SHA-256 {now}"),
            false => format!(
                "changed, SHA-256 {} then and {now} now",
                self.last.sha_256()
            ),
        }
    }

    fn verdict(&self) -> String {
        let then = self.last.verdict();
        let then_word = self.last.get("word").unwrap_or("unknown");
        let (now, now_word) = (self.judged.numbers(), explain::word(self.judged.verdict));
        match self.same[1] {
            true => format!("{now}, {now_word}, then and now"),
            false => format!("{then}, {then_word}, then; {now}, {now_word}, now"),
        }
    }

    /// By what was judged then, and by what now.
    fn judges(&self) -> [String; 2] {
        let then = format!("on {} by {}", self.last.date(), self.last.judge());
        let now = match self.last.by_the_same() {
            true => "by the same".to_string(),
            false => format!("by {}", judge::now()),
        };
        [then, now]
    }

    /// What it comes to, in a sentence.
    fn sentence(&self) -> &'static str {
        match self.same {
            [true, true] => "is the file that was judged, and it is judged the same",
            [true, false] => "is the file that was judged, and it is judged otherwise now",
            [false, true] => "is not the file that was judged; the verdict on it is the same",
            [false, false] => "is not the file that was judged, and it is judged otherwise",
        }
    }

    /// What to do where something has changed.
    fn advice(&self) -> Option<String> {
        let same = |record: &&Record| self.judged.same_as(record)[0];
        match (self.same, self.earlier.iter().rev().find(same)) {
            ([true, true], _) => None,
            ([true, false], _) if self.last.by_the_same() => Some(
                "the same library judges the same bytes the same: the verdict that is filed was altered; \
                 ask who did it"
                    .to_string(),
            ),
            ([true, false], _) => Some(
                "CHANGELOG.md says which files a version judges otherwise; look at the file again, and file \
                 the new verdict with `rulefile verdict`"
                    .to_string(),
            ),
            (_, Some(record)) => Some(format!(
                "these bytes are those of an earlier verdict, of {}: was an old file put back?",
                record.date()
            )),
            (_, None) => Some(
                "ask who changed it; `rulefile compare` says what differs from the file that was judged, and \
                 `rulefile verdict` files the new verdict behind the old one"
                    .to_string(),
            ),
        }
    }

    fn text(&self, path: &OsStr) -> String {
        let name = &self.judged.file.name;
        let mut text = format!("{}\n{name} {}.\n", self.answer(), self.sentence());
        text += &entry("bytes", &self.bytes());
        text += &entry("verdict", &self.verdict());
        let [then, now] = self.judges();
        text += &entry("judged then", &then);
        text += &entry("judged now", &now);
        let old = self.last.get("file");
        if let Some(old) = old.filter(|old| **old != base(path)) {
            text += &entry("name", &format!("it was called {old} when it was judged"));
        }
        let advice = self.advice();
        text + &advice
            .map(|advice| entry("what to do", &advice))
            .unwrap_or_default()
    }

    fn answer(&self) -> &'static str {
        match self.same {
            [true, true] => "good",
            _ => "changed",
        }
    }
}

/// Verifies one file.
fn verify_one(path: &OsStr) -> Result<Row, Failure> {
    let judged = Judged::read(path, BESIDE)?;
    let filed = filed(path)?;
    let Some((last, earlier)) = filed.split_last() else {
        return Err(Failure(format!(
            "there is no verdict on {}",
            judged.file.name
        )));
    };
    let sight = Sight {
        last,
        earlier,
        judged: &judged,
        same: judged.same_as(last),
    };
    let status = match sight.same {
        [true, true] => Status::Done,
        _ => Status::Refused,
    };
    let cells = [sight.answer(), last.verdict(), &judged.numbers()];
    Ok(Row {
        status,
        text: sight.text(path),
        warning: None,
        cells: cells.map(str::to_string).to_vec(),
    })
}

/// Verifies files.
pub fn verify(given: &Given) -> Outcome {
    let many = Many {
        head: &["answer", "then", "now"],
        words: ["good", "changed"],
    };
    files::each(given, &many, verify_one)
}
