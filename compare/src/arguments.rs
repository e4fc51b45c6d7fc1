//! The arguments of `differ`.

use std::path::PathBuf;
use std::thread::available_parallelism;

pub const USAGE: &str =
    "differ --seed N --files N --queries N --rules PATH [--keep PATH] [--threads N]";

/// What is to be compared.
#[derive(Debug, Clone, PartialEq, Eq)]
pub struct Arguments {
    pub seed: u64,
    pub files: usize,
    pub queries: usize,
    /// The desk program.
    pub rules: PathBuf,
    /// Where the input of the first mismatch is kept.
    pub keep: Option<PathBuf>,
    /// The answer does not depend on it.
    pub threads: usize,
}

impl Arguments {
    pub fn read(words: &[String]) -> Option<Arguments> {
        let value = |name: &str| {
            let place = words.iter().position(|word| word == name)?;
            words.get(place + 1)
        };
        let threads = match value("--threads") {
            Some(word) => word.parse().ok()?,
            None => available_parallelism().map_or(1, usize::from),
        };
        Some(Arguments {
            seed: value("--seed")?.parse().ok()?,
            files: value("--files")?.parse().ok()?,
            queries: value("--queries")?.parse().ok()?,
            rules: PathBuf::from(value("--rules")?),
            keep: value("--keep").map(PathBuf::from),
            threads: threads.max(1),
        })
    }
}
