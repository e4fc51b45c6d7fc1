//! What is written: to standard output, to standard error, and to files, each whole or not at all. What is there is
//! written over only where that is asked for.

use crate::arguments::Given;
use crate::input::{failure, shown};
use crate::{progress, streams, Failure};
use std::ffi::{OsStr, OsString};
use std::fs::{self, File, Metadata, OpenOptions};
use std::io::{self, ErrorKind, Read, Seek, SeekFrom, Write};
use std::path::{Path, PathBuf};
use std::process;

/// Says a line on standard error. Where that fails there is nobody left to tell.
pub fn say(line: &str) {
    progress::give_way();
    let _ = writeln!(io::stderr(), "rulefile: {line}");
}

/// Writes to standard output.
pub fn print(bytes: &[u8]) -> Result<(), Failure> {
    if streams::output_closed() {
        return Err(Failure("standard output is closed".to_string()));
    }
    progress::give_way();
    let mut output = io::stdout().lock();
    let written = output.write_all(bytes).and_then(|()| output.flush());
    written.map_err(|error| failure("standard output", "write to", &error))
}

/// Where a command writes to: a file that `-o` names or, where none is named, standard output.
#[derive(Clone, Copy)]
pub struct Target<'a> {
    path: Option<&'a OsStr>,
    /// Whether a file that is there may be written over.
    force: bool,
}

/// What is said of a file that is there.
fn kept(path: &OsStr) -> Failure {
    let name = shown(path);
    Failure(format!(
        "{name} is there; it is kept. --force writes over it"
    ))
}

/// Where the words of a call say to write to. A file that is there is kept, unless they say `--force`; this is looked
/// at before anything is done, and again when it is written.
pub fn target<'a>(given: &'a Given) -> Result<Target<'a>, Failure> {
    let (path, force) = (given.value("-o"), given.flag("--force"));
    match path {
        Some(path) if !force && fs::metadata(path).is_ok_and(|old| old.is_file()) => {
            Err(kept(path))
        }
        _ => Ok(Target { path, force }),
    }
}

impl Target<'_> {
    /// Writes all at once.
    pub fn give(&self, bytes: &[u8]) -> Result<(), Failure> {
        let mut sink = self.open()?;
        sink.write(bytes)?;
        sink.close()
    }

    /// Begins to write.
    pub fn open(&self) -> Result<Sink, Failure> {
        match self.path {
            None => Ok(Sink(Place::Standard)),
            Some(path) => Sink::to(path, self.force),
        }
    }
}

/// What is being written.
pub struct Sink(Place);

enum Place {
    Standard,
    /// What is no regular file, a device for one: it is written to as it is.
    Device(OsString, File),
    /// A file that is written beside its place until it is whole.
    Beside(Beside),
}

impl Sink {
    fn to(path: &OsStr, force: bool) -> Result<Sink, Failure> {
        let cannot = |error: io::Error| failure(&shown(path), "write", &error);
        let target = fs::canonicalize(path).unwrap_or_else(|_| PathBuf::from(path));
        let old = fs::metadata(&target).ok();
        match &old {
            Some(old) if old.is_dir() => Err(Failure(format!("{} is a folder", shown(path)))),
            Some(old) if !old.is_file() => {
                let device = OpenOptions::new().write(true).open(&target);
                let device = device.map_err(cannot)?;
                Ok(Sink(Place::Device(path.into(), device)))
            }
            Some(_) if !force => Err(kept(path)),
            Some(old) if old.permissions().readonly() => Err(no_right(path)),
            _ => Beside::new(path, target, force, old).map(|beside| Sink(Place::Beside(beside))),
        }
    }

    /// Writes more.
    pub fn write(&mut self, bytes: &[u8]) -> Result<(), Failure> {
        let (path, file) = match &mut self.0 {
            Place::Standard => return print(bytes),
            Place::Device(path, file) => (path, file),
            Place::Beside(beside) => (&mut beside.path, &mut beside.file),
        };
        let written = file.write_all(bytes);
        written.map_err(|error| failure(&shown(path), "write", &error))
    }

    /// Ends it: now a file stands at its place, whole.
    pub fn close(self) -> Result<(), Failure> {
        match self.0 {
            Place::Beside(beside) => beside.put(),
            _ => Ok(()),
        }
    }
}

fn no_right(path: &OsStr) -> Failure {
    Failure(format!("no right to write {}", shown(path)))
}

/// A file that is written beside its place; it is gone again where it is not put there.
struct Beside {
    /// The place as it was named, and as it is.
    path: OsString,
    target: PathBuf,
    force: bool,
    beside: PathBuf,
    file: File,
}

impl Beside {
    fn new(
        path: &OsStr,
        target: PathBuf,
        force: bool,
        old: Option<Metadata>,
    ) -> Result<Beside, Failure> {
        let cannot = |error: io::Error| failure(&shown(path), "write", &error);
        let beside = beside(&target);
        let file = OpenOptions::new()
            .write(true)
            .create_new(true)
            .open(&beside)
            .map_err(cannot)?;
        let made = Beside {
            path: path.into(),
            target,
            force,
            beside,
            file,
        };
        if let Some(old) = old {
            let kept = made.file.set_permissions(old.permissions());
            kept.map_err(cannot)?;
        }
        Ok(made)
    }

    /// Puts the file in its place.
    fn put(self) -> Result<(), Failure> {
        let put = self.file.sync_all().and_then(|()| match self.force {
            true => fs::rename(&self.beside, &self.target),
            false => put_first(&self.beside, &self.target),
        });
        // the folder keeps the new name only once it is on the disk itself
        let put = put.and_then(|()| File::open(folder(&self.target))?.sync_all());
        put.map_err(|error| match error.kind() {
            ErrorKind::AlreadyExists => kept(&self.path),
            _ => failure(&shown(&self.path), "write", &error),
        })
    }
}

impl Drop for Beside {
    fn drop(&mut self) {
        let _ = fs::remove_file(&self.beside);
    }
}

/// Puts a file in a place where nothing stands. A second name is given out only where none is there yet, which a
/// file system without such names cannot do.
fn put_first(beside: &Path, target: &Path) -> io::Result<()> {
    match fs::hard_link(beside, target) {
        Err(error) if error.kind() == ErrorKind::AlreadyExists => Err(error),
        Err(_) if fs::symlink_metadata(target).is_ok() => Err(ErrorKind::AlreadyExists.into()),
        Err(_) => fs::rename(beside, target),
        Ok(()) => Ok(()),
    }
}

/// Writes a file where none stands; whether it was so.
pub fn write_first(path: &OsStr, bytes: &[u8]) -> Result<bool, Failure> {
    let target = Target {
        path: Some(path),
        force: false,
    };
    match target.give(bytes) {
        Err(_) if fs::metadata(path).is_ok_and(|there| there.is_file()) => Ok(false),
        given => given.map(|()| true),
    }
}

/// Puts a text behind what a file holds, on a line of its own: all of it or nothing.
pub fn append(path: &OsStr, text: &str) -> Result<(), Failure> {
    let cannot = |error: io::Error| failure(&shown(path), "write", &error);
    if fs::metadata(path).map_err(cannot)?.permissions().readonly() {
        return Err(no_right(path));
    }
    append_to(path, text).map_err(cannot)
}

fn append_to(path: &OsStr, text: &str) -> io::Result<()> {
    let mut file = OpenOptions::new().read(true).append(true).open(path)?;
    let length = file.metadata()?.len();
    let mut last = [b'\n'];
    if length > 0 {
        file.seek(SeekFrom::End(-1))?;
        file.read_exact(&mut last)?;
    }
    let feed = if last == *b"\n" { "" } else { "\n" };
    let written = file.write_all(format!("{feed}{text}").as_bytes());
    let written = written.and_then(|()| file.sync_all());
    if written.is_err() {
        // what was there stays as it was
        let _ = file.set_len(length);
    }
    written
}

/// The folder that a file stands in.
fn folder(target: &Path) -> &Path {
    let parent = target
        .parent()
        .filter(|parent| !parent.as_os_str().is_empty());
    parent.unwrap_or(Path::new("."))
}

/// A name beside the target that no other process uses.
fn beside(target: &Path) -> PathBuf {
    let mut name = OsString::from(".");
    name.push(target.file_name().unwrap_or_default());
    name.push(format!(".{}.new", process::id()));
    folder(target).join(name)
}
