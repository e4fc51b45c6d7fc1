//! The desk program as a process, and the comparison of what is printed.

use std::io::{self, Read, Write};
use std::path::PathBuf;
use std::process::{ChildStdin, Command, Stdio};
use std::thread;

/// A desk program.
pub trait Program {
    /// What it prints for an input.
    fn printed(&mut self, input: &[u8]) -> io::Result<Vec<u8>>;
}

/// The program `rules`, a process for each input.
pub struct Process {
    pub path: PathBuf,
}

impl Program for Process {
    fn printed(&mut self, input: &[u8]) -> io::Result<Vec<u8>> {
        let mut child = Command::new(&self.path)
            .stdin(Stdio::piped())
            .stdout(Stdio::piped())
            .stderr(Stdio::inherit())
            .spawn()?;
        let (stdin, stdout) = (child.stdin.take(), child.stdout.take());
        let mut printed = Vec::new();
        thread::scope(|scope| {
            // Both pipes hold but some bytes, so they are served at once.
            let writer = scope.spawn(|| stdin.map_or(Ok(()), |stdin| write(stdin, input)));
            let read = stdout.map_or(Ok(0), |mut stdout| stdout.read_to_end(&mut printed));
            read.and(writer.join().expect("the writer does not panic"))
        })?;
        let status = child.wait()?;
        if !status.success() {
            printed.extend_from_slice(format!("(ended with {status})\n").as_bytes());
        }
        Ok(printed)
    }
}

/// The program may end before it has read all.
fn write(mut stdin: ChildStdin, input: &[u8]) -> io::Result<()> {
    match stdin.write_all(input) {
        Err(error) if error.kind() == io::ErrorKind::BrokenPipe => Ok(()),
        written => written,
    }
}

/// The first line in which two printed texts differ.
pub fn difference(ours: &[u8], theirs: &[u8]) -> Option<String> {
    if ours == theirs {
        return None;
    }
    let ours: Vec<&[u8]> = ours.split(|byte| *byte == b'\n').collect();
    let theirs: Vec<&[u8]> = theirs.split(|byte| *byte == b'\n').collect();
    let lines = ours.len().max(theirs.len());
    let place = (0..lines).find(|place| ours.get(*place) != theirs.get(*place))?;
    let show = |lines: &[&[u8]]| match lines.get(place) {
        Some(line) => String::from_utf8_lossy(line).to_string(),
        None => "(nothing)".to_string(),
    };
    Some(format!(
        "printed line {}: here {}, there {}",
        place + 1,
        show(&ours),
        show(&theirs)
    ))
}

/// The number and the second field of each printed line.
pub fn numbers(printed: &[u8]) -> Vec<(usize, u64)> {
    let text = String::from_utf8_lossy(printed);
    let numbers = text.lines().filter_map(|line| {
        let mut fields = line.split(',');
        Some((fields.next()?.parse().ok()?, fields.next()?.parse().ok()?))
    });
    numbers.collect()
}
