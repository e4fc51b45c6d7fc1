//! A rule file while it is written. Each T, P and I line gives its number.

use std::collections::BTreeMap;
use std::fmt::Write;

/// The kinds of T and P lines.
pub const SUM: usize = 1;
pub const PRODUCT: usize = 2;
pub const LIST: usize = 3;
pub const VARIABLE: usize = 1;
pub const LEFT: usize = 2;
pub const RIGHT: usize = 3;
pub const PAIR: usize = 4;
pub const EMPTY: usize = 5;
pub const ELEMENT: usize = 6;

#[derive(Default)]
pub struct Draft {
    text: String,
    lines: usize,
    types: Numbered,
    patterns: Numbered,
    isos: usize,
}

/// The lines of one letter: how many there are, and the number of each one that may be named again.
#[derive(Default)]
struct Numbered {
    count: usize,
    known: BTreeMap<[usize; 3], usize>,
}

impl Draft {
    pub fn lines(&self) -> usize {
        self.lines
    }

    pub fn patterns(&self) -> usize {
        self.patterns.count
    }

    pub fn isos(&self) -> usize {
        self.isos
    }

    pub fn into_bytes(self) -> Vec<u8> {
        self.text.into_bytes()
    }

    fn line(&mut self, letter: char, fields: &[usize]) {
        self.text.push(letter);
        for field in fields {
            write!(self.text, ",{field}").expect("a string takes every text");
        }
        self.text.push('\n');
        self.lines += 1;
    }

    /// A T line, the same one where it was written before.
    pub fn type_of(&mut self, kind: usize, a: usize, b: usize) -> usize {
        match self.types.known.get(&[kind, a, b]) {
            Some(number) => *number,
            None => self.new_type(kind, a, b),
        }
    }

    /// A T line of its own.
    pub fn new_type(&mut self, kind: usize, a: usize, b: usize) -> usize {
        self.line('T', &[kind, a, b]);
        self.types.enter([kind, a, b])
    }

    /// A P line, the same one where it was written before.
    pub fn pattern(&mut self, kind: usize, a: usize, b: usize) -> usize {
        match self.patterns.known.get(&[kind, a, b]) {
            Some(number) => *number,
            None => self.new_pattern(kind, a, b),
        }
    }

    /// A P line of its own.
    pub fn new_pattern(&mut self, kind: usize, a: usize, b: usize) -> usize {
        self.line('P', &[kind, a, b]);
        self.patterns.enter([kind, a, b])
    }

    pub fn iso(&mut self, from: usize, to: usize) -> usize {
        self.line('I', &[from, to]);
        self.isos += 1;
        self.isos - 1
    }

    pub fn clause(&mut self, left: usize, right: usize) {
        self.line('C', &[left, right]);
    }

    /// An L line: p = iso applied to q.
    pub fn step(&mut self, p: usize, iso: usize, q: usize) {
        self.line('L', &[p, iso, q]);
    }
}

impl Numbered {
    fn enter(&mut self, fields: [usize; 3]) -> usize {
        let number = self.count;
        self.known.entry(fields).or_insert(number);
        self.count += 1;
        number
    }
}
