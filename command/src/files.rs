//! Many files in one call: each for itself, and a table of all at the end.

use crate::arguments::Given;
use crate::{input, output, progress, Failure, Outcome, Status};
use std::ffi::OsStr;

/// What a command that takes many files says of them.
pub struct Many {
    /// The heads of the columns; that of the file's name comes last, by itself.
    pub head: &'static [&'static str],
    /// What a file is called where all is well, and where it is not.
    pub words: [&'static str; 2],
}

/// What came of one file: what is printed of it and warned of, and its cells of the table.
pub struct Row {
    pub status: Status,
    pub text: String,
    pub warning: Option<&'static str>,
    pub cells: Vec<String>,
}

impl Row {
    /// Prints what came of the file, with something behind it.
    fn print(&self, behind: &str) -> Result<(), Failure> {
        output::print(format!("{}{behind}", self.text).as_bytes())?;
        if let Some(warning) = self.warning {
            output::say(&format!("warning: {warning}"));
        }
        Ok(())
    }
}

/// Rows in columns, each as wide as its widest cell; the last one as it is.
pub fn table(rows: &[Vec<String>]) -> String {
    let length = |cell: &String| cell.chars().count();
    let columns = rows.iter().map(Vec::len).max().unwrap_or(0);
    let width = |column: usize| {
        let cells = rows.iter().filter_map(|row| row.get(column));
        cells.map(length).max().unwrap_or(0)
    };
    let widths: Vec<usize> = (0..columns).map(width).collect();
    let mut text = String::new();
    for row in rows {
        let mut line = String::new();
        for (cell, width) in row.iter().zip(&widths) {
            line += &format!("  {cell}{}", " ".repeat(width - length(cell)));
        }
        text += &format!("{}\n", line.trim_end());
    }
    text
}

/// Standard input can be read once.
fn require_one_input(given: &Given) -> Result<(), Failure> {
    let inputs = given.words().iter().filter(|word| *word == "-");
    match inputs.count() {
        0 | 1 => Ok(()),
        _ => Err(Failure("standard input can be read only once".to_string())),
    }
}

/// Does the same with every file. One that cannot be read is told of, and the others are gone on with.
pub fn each(
    given: &Given,
    many: &Many,
    mut one: impl FnMut(&OsStr) -> Result<Row, Failure>,
) -> Outcome {
    require_one_input(given)?;
    if let [file] = given.words() {
        let row = one(file)?;
        return row.print("").map(|()| row.status);
    }
    let head = many.head.iter().chain(&["file"]);
    let mut rows = vec![head.map(|cell| cell.to_string()).collect::<Vec<_>>()];
    let [mut good, mut bad, mut unread] = [0, 0, 0];
    for (place, file) in given.words().iter().enumerate() {
        progress::tell(format!("{place} of {} files", given.words().len()));
        let mut cells = match one(file) {
            Ok(row) => {
                row.print("\n")?;
                match row.status {
                    Status::Done => good += 1,
                    Status::Refused => bad += 1,
                }
                row.cells
            }
            Err(Failure(why)) => {
                unread += 1;
                output::say(&why);
                vec!["–".to_string(); many.head.len()]
            }
        };
        cells.push(input::shown(file));
        rows.push(cells);
    }
    let (files, [done, refused]) = (rows.len() - 1, many.words);
    let counts = format!("{files} files: {good} {done}, {bad} {refused}, {unread} not judged\n");
    output::print(format!("{counts}{}", table(&rows)).as_bytes())?;
    match (unread, bad) {
        (0, 0) => Ok(Status::Done),
        (0, _) => Ok(Status::Refused),
        _ => Err(Failure(format!("{unread} of {files} files are not judged"))),
    }
}
