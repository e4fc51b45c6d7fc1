//! Areas to lend: slices out of the middle of buffers that are filled with
//! noise before a call and compared whole after it.

use crate::service::Lent;
use apart::areas::TABLE;
use apart::generate::random::Random;
use std::fmt::Display;

/// The length of a lent area against the least that is stated.
#[derive(Debug, Clone, Copy, PartialEq, Eq)]
pub enum Kind {
    Exact,
    Longer,
    /// Too short by one.
    Short,
    /// Too short by more, and not empty.
    Fewer,
    Empty,
}

impl Kind {
    /// The kind of an area of this length.
    pub fn of(length: usize, least: usize) -> Kind {
        match length {
            _ if length == least => Kind::Exact,
            _ if length > least => Kind::Longer,
            _ if length + 1 == least => Kind::Short,
            0 => Kind::Empty,
            _ => Kind::Fewer,
        }
    }
}

/// The most cells of a buffer before the lent area, and behind it.
const MARGIN: usize = 64;
/// The most by which a longer area is longer.
const LONGER: usize = 500;
/// The length of a table before request 10.
pub const FORMER_TABLE: usize = 16_384;
const NOISE: usize = 100_000;

/// Random cells to fill the buffers with.
pub struct Noise {
    pub(crate) bytes: Vec<u8>,
    pub(crate) narrow: Vec<u16>,
    pub(crate) wide: Vec<u32>,
}

impl Noise {
    pub fn new(random: &mut Random) -> Noise {
        Noise {
            bytes: (0..NOISE).map(|_| random.number() as u8).collect(),
            narrow: (0..NOISE).map(|_| random.number() as u16).collect(),
            wide: (0..NOISE).map(|_| random.number() as u32).collect(),
        }
    }
}

/// Where one area stands in its buffer, and from where the noise is taken.
#[derive(Debug, Clone, Copy)]
pub struct Shape {
    front: usize,
    pub length: usize,
    behind: usize,
    noise: usize,
}

impl Shape {
    pub fn new(random: &mut Random, least: usize, kind: Kind) -> Shape {
        let length = match kind {
            Kind::Exact => least,
            Kind::Longer => least + 1 + random.below(LONGER),
            Kind::Short => least.saturating_sub(1),
            Kind::Fewer => fewer(random, least),
            Kind::Empty => 0,
        };
        Shape {
            front: random.below(MARGIN),
            length,
            behind: random.below(MARGIN),
            noise: random.below(NOISE),
        }
    }
}

/// A length between none and one too few; that of a table is often the one that
/// it had before.
fn fewer(random: &mut Random, least: usize) -> usize {
    match least {
        0..=2 => least.saturating_sub(1),
        TABLE if random.chance(60) => FORMER_TABLE,
        _ => {
            let any = 1 + random.below(least - 2);
            *random.pick(&[1, least / 2, least - 2, any])
        }
    }
}

/// A buffer, of which the middle is lent.
#[derive(Debug, Clone)]
pub struct Buffer<T> {
    pub cells: Vec<T>,
    front: usize,
    length: usize,
}

impl<T: Copy + PartialEq + Display> Buffer<T> {
    pub(crate) fn new() -> Buffer<T> {
        Buffer {
            cells: Vec::new(),
            front: 0,
            length: 0,
        }
    }

    pub(crate) fn fill(&mut self, shape: Shape, noise: &[T]) {
        self.front = shape.front;
        self.length = shape.length;
        self.cells.clear();
        let end = shape.front + shape.length + shape.behind;
        let mut from = shape.noise;
        while self.cells.len() < end {
            let count = (end - self.cells.len()).min(noise.len() - from);
            self.cells.extend_from_slice(&noise[from..from + count]);
            from = 0;
        }
    }

    pub fn lent(&mut self) -> &mut [T] {
        &mut self.cells[self.front..self.front + self.length]
    }

    /// The first element in which two buffers differ, lent or not; elements
    /// are counted from the first one lent.
    pub(crate) fn difference(&self, other: &Buffer<T>, name: &str) -> Option<String> {
        if self.cells == other.cells {
            return None;
        }
        let mut both = self.cells.iter().zip(&other.cells);
        let place = both.position(|(ours, theirs)| ours != theirs)?;
        Some(format!(
            "{name}[{}] of {}: here {}, there {}",
            place as isize - self.front as isize,
            self.length,
            self.cells[place],
            other.cells[place]
        ))
    }
}

/// The areas of one call.
#[derive(Debug, Clone)]
pub struct Areas {
    pub table: Buffer<u16>,
    pub work: Buffer<u8>,
    pub out: Buffer<u8>,
    pub numbers: Buffer<u32>,
}

impl Default for Areas {
    fn default() -> Areas {
        Areas {
            table: Buffer::new(),
            work: Buffer::new(),
            out: Buffer::new(),
            numbers: Buffer::new(),
        }
    }
}

impl Areas {
    /// Makes areas of the shapes; those made from equal shapes are equal.
    pub fn fill(&mut self, shapes: &[Shape; 4], noise: &Noise) {
        self.table.fill(shapes[0], &noise.narrow);
        self.work.fill(shapes[1], &noise.bytes);
        self.out.fill(shapes[2], &noise.bytes);
        self.numbers.fill(shapes[3], &noise.wide);
    }

    pub fn lend(&mut self) -> Lent<'_> {
        Lent {
            table: self.table.lent(),
            work: self.work.lent(),
            out: self.out.lent(),
            numbers: self.numbers.lent(),
        }
    }

    /// The first element in which the areas differ.
    pub fn difference(&self, other: &Areas) -> Option<String> {
        let table = self.table.difference(&other.table, "table");
        let work = table.or_else(|| self.work.difference(&other.work, "work"));
        let out = work.or_else(|| self.out.difference(&other.out, "out"));
        out.or_else(|| self.numbers.difference(&other.numbers, "numbers"))
    }
}
