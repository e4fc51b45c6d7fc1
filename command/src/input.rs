//! Files as they are handed in: a rule file up to its ceiling, and a word for what cannot be read.

use crate::{output, progress, streams, Failure};
use std::ffi::{OsStr, OsString};
use std::fs::{self, File};
use std::io::{self, BufRead, BufReader, ErrorKind, IsTerminal, Read};

/// The most bytes of a rule file.
pub const CEILING: usize = 65_536;

/// A rule file: what to call it, and its bytes, of which one more than the ceiling is enough for refusal 2.
pub struct Input {
    /// The path as it was given, `-` for standard input.
    pub path: OsString,
    /// The name as it is shown; `standard input` for `-`.
    pub name: String,
    /// The bytes, at most one more than the ceiling.
    pub bytes: Vec<u8>,
}

impl Input {
    /// Whether there was more than the ceiling.
    pub fn too_long(&self) -> bool {
        self.bytes.len() > CEILING
    }
}

/// What an error of the system means for a file.
pub fn failure(name: &str, deed: &str, error: &io::Error) -> Failure {
    Failure(match error.kind() {
        ErrorKind::NotFound => format!("there is no file {name}"),
        ErrorKind::PermissionDenied => format!("no right to {deed} {name}"),
        _ => format!("cannot {deed} {name}: {error}"),
    })
}

/// A name as it is shown.
pub fn shown(path: &OsStr) -> String {
    if path == "-" {
        return "standard input".to_string();
    }
    let shown = path.to_string_lossy();
    shown
        .chars()
        .map(|c| if c.is_control() { '?' } else { c })
        .collect()
}

/// A file or, for `-`, standard input, opened to be read. A folder is none.
fn open(path: &OsStr, name: &str) -> Result<Box<dyn Read>, Failure> {
    if path == "-" {
        return standard_input();
    }
    let cannot = |error: io::Error| failure(name, "read", &error);
    let file = File::open(path).map_err(cannot)?;
    if file.metadata().map_err(cannot)?.is_dir() {
        return Err(Failure(format!("{name} is a folder, not a file")));
    }
    Ok(Box::new(file))
}

fn standard_input() -> Result<Box<dyn Read>, Failure> {
    if streams::input_closed() {
        return Err(Failure("standard input is closed".to_string()));
    }
    if fs::metadata("/dev/stdin").is_ok_and(|stdin| stdin.is_dir()) {
        return Err(Failure(
            "standard input is a folder, not a file".to_string(),
        ));
    }
    if io::stdin().is_terminal() {
        output::say("reading standard input from the terminal; Ctrl-D ends it");
    }
    Ok(Box::new(io::stdin()))
}

/// Reads a rule file; no more of it than tells that it is too long.
pub fn read(path: &OsStr) -> Result<Input, Failure> {
    let name = shown(path);
    let mut bytes = Vec::new();
    let most = CEILING as u64 + 1;
    let all = open(path, &name)?.take(most).read_to_end(&mut bytes);
    all.map_err(|error| failure(&name, "read", &error))?;
    progress::at_work();
    let path = path.to_os_string();
    Ok(Input { path, name, bytes })
}

/// The bytes of a list that goes into one call; one of over 65,536 bytes is none.
pub fn read_list(path: &OsStr, what: &str) -> Result<Vec<u8>, Failure> {
    let list = read(path)?;
    match list.too_long() {
        true => {
            let name = list.name;
            let why = format!("{name} is no {what}: it has over {CEILING} bytes");
            Err(Failure(why))
        }
        false => Ok(list.bytes),
    }
}

/// The lines of a list of any length, each with its ending.
pub struct Lines {
    name: String,
    from: BufReader<Box<dyn Read>>,
    number: usize,
}

/// Opens a list.
pub fn lines(path: &OsStr) -> Result<Lines, Failure> {
    let name = shown(path);
    let from = BufReader::new(open(path, &name)?);
    if path == "-" && io::stdin().is_terminal() {
        progress::off();
    }
    Ok(Lines {
        name,
        from,
        number: 0,
    })
}

impl Lines {
    /// The next line; none at the end. A line of over 65,536 bytes belongs to no list, and is not read on.
    pub fn next(&mut self) -> Result<Option<Vec<u8>>, Failure> {
        let mut line = Vec::new();
        let most = CEILING as u64 + 1;
        let read = self.from.by_ref().take(most).read_until(b'\n', &mut line);
        read.map_err(|error| failure(&self.name, "read", &error))?;
        self.number += 1;
        if line.len() > CEILING {
            let (name, number) = (&self.name, self.number);
            let why = format!("{name} is no list: its line {number} has over 65,536 bytes");
            return Err(Failure(why));
        }
        Ok(Some(line).filter(|line| !line.is_empty()))
    }
}
