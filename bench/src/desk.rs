//! The two desk programs on files of queries.

use crate::call::{Apart, Implementation, Proved};
use crate::clock;
use crate::inputs;
use crate::measure::Timed;
use std::fs::{self, File};
use std::path::{Path, PathBuf};
use std::process::Command;
use std::time::Duration;

/// The programs, and a folder for what they read and write.
pub struct Desk {
    pub rules: PathBuf,
    pub apart_rules: PathBuf,
    pub folder: PathBuf,
}

impl Desk {
    pub fn program(&self, by: Implementation) -> &Path {
        match by {
            Proved => &self.rules,
            Apart => &self.apart_rules,
        }
    }

    /// A file of so many queries.
    pub fn input(&self, queries: usize) -> File {
        let path = self.folder.join(format!("queries-{queries}"));
        if !path.exists() {
            fs::write(&path, inputs::desk(queries)).expect("the folder takes a file");
        }
        File::open(path).expect("the file is there")
    }
}

/// The programs with so many queries.
pub struct Queries<'a> {
    pub desk: &'a Desk,
    pub count: usize,
}

impl Queries<'_> {
    /// The time of one run, the program's start included; its answers have to be the expected ones.
    fn run(&self, by: Implementation) -> Duration {
        let output = self.desk.folder.join("answers");
        let mut command = Command::new(self.desk.program(by));
        command.stdin(self.desk.input(self.count));
        command.stdout(File::create(&output).expect("the folder takes a file"));
        let begin = clock::of_children();
        let status = command.status().expect("the program is there");
        let spent = clock::of_children() - begin;
        assert!(status.success(), "{by:?} ends with {status}");
        let answers = fs::read(&output).expect("the answers are there");
        assert!(
            answers == inputs::desk_answers(self.count),
            "{by:?} answers otherwise"
        );
        spent
    }
}

impl Timed for Queries<'_> {
    fn time(&mut self, by: Implementation, count: u32) -> Duration {
        (0..count).map(|_| self.run(by)).sum()
    }
}
