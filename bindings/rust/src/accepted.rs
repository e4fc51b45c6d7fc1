//! An accepted file, open on a desk.

use crate::letters::Text;
use crate::{Bounds, Desk, Letters, Overlap, Query, Refusal, Refused, Tally, Value};
use std::fmt;

/// A file that Check has accepted, open on a [`Desk`]. There is no other way to one than [`Desk::open`], so that what
/// is asked of it cannot be asked of a refused file; a refusal is then one of what was asked, and names no line.
pub struct Accepted<'a> {
    desk: &'a mut Desk,
    file: &'a [u8],
}

impl fmt::Debug for Accepted<'_> {
    fn fmt(&self, f: &mut fmt::Formatter) -> fmt::Result {
        f.debug_tuple("Accepted").field(&Text(self.file)).finish()
    }
}

/// A setting sent through an iso.
#[derive(Clone, Debug, PartialEq, Eq)]
pub struct Converted {
    /// The applications made.
    pub count: u32,
    /// The setting that came out.
    pub letters: Letters,
}

impl<'a> Accepted<'a> {
    /// A file that was accepted on this desk.
    pub(crate) fn on(desk: &'a mut Desk, file: &'a [u8]) -> Self {
        Accepted { desk, file }
    }

    /// The bytes of the file.
    pub fn file(&self) -> &'a [u8] {
        self.file
    }

    /// The file turned, which is accepted too.
    pub fn turn(&mut self) -> Result<Vec<u8>, Refused> {
        self.desk.turn(self.file)
    }

    /// What an iso makes of a setting. Refused with 15, 16, 17 or 24.
    pub fn run(&mut self, query: Query) -> Result<Converted, Refused> {
        self.desk.run(self.file, query).map(Converted::from)
    }

    /// What each of these queries is answered: what [`Accepted::run`] answers to it alone. Refused with 2 where there
    /// are over 600.
    pub fn sheet(&mut self, queries: &[Query]) -> Result<Vec<Result<Converted, Refusal>>, Refused> {
        let answers = self.desk.sheet_of(self.file, queries)?;
        let converted = |answer: Result<Value, Refusal>| answer.map(Converted::from);
        Ok(answers.into_iter().map(converted).collect())
    }

    /// The number of a setting of T line number `ty`. Refused with 15, 16 or 18.
    pub fn number_of(&mut self, ty: u32, letters: &Letters) -> Result<u32, Refused> {
        let letters = letters.as_bytes();
        self.desk.number_of(self.file, ty, letters)
    }

    /// The setting of T line number `ty` that has a number. Refused with 15, 18 or 19.
    pub fn setting_of(&mut self, ty: u32, setting: u32) -> Result<Letters, Refused> {
        let given = self.desk.setting_of(self.file, ty, setting)?;
        Ok(Letters::given(&given))
    }

    /// P lines number `left` and `right` compared. Refused with 15.
    pub fn overlap(&mut self, left: u32, right: u32) -> Result<Overlap, Refused> {
        self.desk.overlap(self.file, left, right)
    }

    /// What the runs of iso number `iso` count, at the least and at the most. Refused with 15 or 18.
    pub fn bounds(&mut self, iso: u32) -> Result<Bounds, Refused> {
        self.desk.bounds(self.file, iso)
    }

    /// Plays a script of visits on units, each a T line and a setting number, and gives the tally. Refused with 1, 2,
    /// 15, 18, 19 or 22.
    pub fn play(
        &mut self,
        types: &mut [u32],
        settings: &mut [u32],
        script: &[u8],
        budget: u32,
    ) -> Result<Tally, Refused> {
        self.desk.play(self.file, types, settings, script, budget)
    }

    /// Iso number `iso` as a pair list. Refused with 15, 17 or 18.
    pub fn export(&mut self, iso: u32, budget: u32) -> Result<Vec<u8>, Refused> {
        self.desk.export(self.file, iso, budget)
    }

    /// A file with one iso from T line number `from` to T line number `to`, out of a pair list. Refused with 7, 15, 18
    /// or 20.
    pub fn import(&mut self, from: u32, to: u32, list: &[u8]) -> Result<Vec<u8>, Refused> {
        self.desk.import(self.file, from, to, list)
    }

    /// The file's lines, five numbers each: the letter's code, the fields, and the size of a T or P line; zeros behind
    /// them.
    pub fn table(&self) -> &[u16] {
        self.desk.table()
    }
}

impl From<Value> for Converted {
    fn from(value: Value) -> Converted {
        Converted {
            count: value.count,
            letters: Letters::given(&value.letters),
        }
    }
}
