//! The words behind a command: files, numbers and options.

use crate::{Failure, Outcome};
use std::ffi::{OsStr, OsString};
use std::ops::RangeInclusive;

/// A command: how it is called, what it does, and what does it.
pub struct Command {
    pub name: &'static str,
    /// The words behind the name, as `--help` shows them.
    pub usage: &'static str,
    /// What it does, in a line.
    pub about: &'static str,
    /// What else there is to know.
    pub help: &'static str,
    /// How many words it takes besides options.
    pub words: RangeInclusive<usize>,
    /// The options, each with whether a word follows it.
    pub options: &'static [(&'static str, bool)],
    pub run: fn(&Given) -> Outcome,
}

/// The words that a command was given.
pub struct Given {
    words: Vec<OsString>,
    options: Vec<(&'static str, OsString)>,
}

/// Wrong usage of a command.
fn wrong(command: &Command, why: &str) -> Failure {
    let (name, usage) = (command.name, command.usage);
    Failure(format!(
        "{why}\nusage: rulefile {name} {usage}\n`rulefile {name} --help` says more"
    ))
}

impl Given {
    /// Sorts words into options and others. Behind `--` every word is one of the others.
    pub fn of(command: &'static Command, words: &[OsString]) -> Result<Given, Failure> {
        let mut given = Given {
            words: Vec::new(),
            options: Vec::new(),
        };
        let mut rest = words.iter();
        while let Some(word) = rest.next() {
            match word.to_str() {
                Some("--") => given.words.extend(rest.by_ref().cloned()),
                Some(option) if option.starts_with('-') && option != "-" => {
                    given.take_option(command, option, &mut rest)?;
                }
                _ => given.words.push(word.clone()),
            }
        }
        match given.words.len() {
            n if command.words.contains(&n) => Ok(given),
            n if n < *command.words.start() => Err(wrong(command, "a word is missing")),
            _ => Err(wrong(command, "there is a word too many")),
        }
    }

    fn take_option<'a>(
        &mut self,
        command: &'static Command,
        option: &str,
        rest: &mut impl Iterator<Item = &'a OsString>,
    ) -> Result<(), Failure> {
        let known = command.options.iter().find(|known| known.0 == option);
        let Some((name, valued)) = known else {
            return Err(wrong(command, &format!("there is no option {option}")));
        };
        if self.flag(name) {
            return Err(wrong(command, &format!("{option} is given twice")));
        }
        let value = match valued {
            false => OsString::new(),
            true => match rest.next() {
                Some(value) => value.clone(),
                None => {
                    return Err(wrong(
                        command,
                        &format!("a word is missing behind {option}"),
                    ))
                }
            },
        };
        self.options.push((name, value));
        Ok(())
    }

    /// The word of this place, which the command's range of words says is there.
    pub fn word(&self, place: usize) -> &OsStr {
        &self.words[place]
    }

    /// The word of this place, where it was given.
    pub fn optional(&self, place: usize) -> Option<&OsStr> {
        self.words.get(place).map(OsString::as_os_str)
    }

    /// All words besides options.
    pub fn words(&self) -> &[OsString] {
        &self.words
    }

    /// Whether an option was given.
    pub fn flag(&self, name: &str) -> bool {
        self.value(name).is_some()
    }

    /// The word behind an option.
    pub fn value(&self, name: &str) -> Option<&OsStr> {
        let found = self.options.iter().find(|option| option.0 == name);
        found.map(|option| option.1.as_os_str())
    }
}

/// A number of 32 bits. A letter in front of it, as `rulefile show` prints it, is taken too.
pub fn number(word: &OsStr, letter: &str, what: &str) -> Result<u32, Failure> {
    let text = word.to_str().unwrap_or_default();
    let digits = text.strip_prefix(letter).unwrap_or(text);
    let read = digits.parse().ok();
    let read = read.filter(|_| digits.bytes().all(|byte| byte.is_ascii_digit()));
    read.ok_or_else(|| {
        let word = word.to_string_lossy();
        Failure(format!(
            "{what} is a number from 0 to 4294967295, not '{word}'"
        ))
    })
}
