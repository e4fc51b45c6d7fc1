//! Request 09 for types that hold lists: "the value ... with the fewest letters,
//! the first in byte order among those".
//!
//! The parts of a value that are still to be written stand in columns, the next
//! one first, and each pattern that can still match is a row of cells for them.
//! First the fewest letters are reckoned that can still show the fault; then the
//! letters are chosen one by one, each the first in byte order with which so few
//! still do. What has been reckoned is kept by what is left of the columns.

use crate::cover::{opened, roots, Cell, Root};
use crate::tree::{Pattern, Type};
use crate::witness::{Fault, Side};
use std::collections::HashMap;

/// Columns by number: what stands first, and the columns behind it. 0 is none.
struct Stacks<T> {
    all: Vec<(T, usize)>,
    numbers: HashMap<(usize, usize), usize>,
}

impl<T: Copy> Stacks<T> {
    /// With something in place of what stands first in no columns.
    fn new(nothing: T) -> Stacks<T> {
        Stacks {
            all: vec![(nothing, 0)],
            numbers: HashMap::new(),
        }
    }

    /// The columns with one more before them; `place` tells things apart.
    fn push(&mut self, first: T, place: usize, rest: usize) -> usize {
        let next = self.all.len();
        let number = *self.numbers.entry((place, rest)).or_insert(next);
        if number == next {
            self.all.push((first, rest));
        }
        number
    }
}

/// The columns that are left: their types, and the cells of each row.
#[derive(Debug, PartialEq, Eq, Hash, Clone)]
struct Left {
    types: usize,
    rows: Vec<usize>,
}

pub(crate) struct Columns<'a> {
    fault: Fault,
    types: Stacks<Option<&'a Type>>,
    cells: Stacks<Cell<'a>>,
    found: HashMap<Left, Option<usize>>,
}

impl<'a> Columns<'a> {
    fn new(fault: Fault) -> Columns<'a> {
        Columns {
            fault,
            types: Stacks::new(None),
            cells: Stacks::new(None),
            found: HashMap::new(),
        }
    }

    fn push_type(&mut self, ty: &'a Type, rest: usize) -> usize {
        self.types.push(Some(ty), ty as *const Type as usize, rest)
    }

    /// A cell without left and right nodes, and without those of lists, matches
    /// all values: nothing is kept of a row that has no others.
    fn push_cell(&mut self, cell: Cell<'a>, rest: usize) -> usize {
        match cell.filter(|pattern| pattern.sides() > 0) {
            None if rest == 0 => 0,
            None => self.cells.push(None, 0, rest),
            Some(pattern) => {
                let place = pattern as *const Pattern as usize;
                self.cells.push(Some(pattern), place, rest)
            }
        }
    }

    /// One column, and these patterns for it.
    fn start(&mut self, ty: &'a Type, patterns: &[&'a Pattern]) -> Left {
        let types = self.push_type(ty, 0);
        let rows = patterns
            .iter()
            .map(|pattern| self.push_cell(Some(pattern), 0));
        let rows = rows.collect();
        self.tidy(Left { types, rows })
    }

    /// Of rows alike one is enough where none may match.
    fn tidy(&self, mut left: Left) -> Left {
        if self.fault == Fault::Never {
            left.rows.sort_unstable();
            left.rows.dedup();
        }
        left
    }

    /// Whether what is left shows the fault whatever is written, or cannot show it
    /// any more: row 0 matches all.
    fn decided(&self, left: &Left) -> Option<bool> {
        let settled = left.rows.iter().filter(|row| **row == 0).count();
        match self.fault {
            Fault::Never if settled > 0 => Some(false),
            Fault::Never if left.rows.is_empty() => Some(true),
            Fault::Twice if left.rows.len() < 2 => Some(false),
            Fault::Twice if settled >= 2 => Some(true),
            _ => None,
        }
    }

    /// What can be written first, in byte order, and what is then left.
    fn steps(&mut self, left: &Left) -> Vec<(Vec<u8>, Left)> {
        let (ty, types) = self.types.all[left.types];
        let ty = ty.expect("a column is left");
        let looked = |row: &usize| self.cells.all[*row].0.is_some();
        if !left.rows.iter().any(looked) {
            let rows = left.rows.iter().map(|row| self.cells.all[*row].1);
            let rows = rows.collect();
            return vec![(least(ty), self.tidy(Left { types, rows }))];
        }
        let mut steps = Vec::new();
        for (root, parts) in roots(ty) {
            let next = self.opened(left, root, &parts);
            steps.push((vec![letter(root)], next));
        }
        steps
    }

    /// The columns with the first one opened.
    fn opened(&mut self, left: &Left, root: Root, parts: &[&'a Type]) -> Left {
        let mut types = self.types.all[left.types].1;
        for part in parts.iter().rev() {
            types = self.push_type(part, types);
        }
        let mut rows = Vec::new();
        for row in &left.rows {
            let (cell, mut rest) = self.cells.all[*row];
            let Some(cells) = opened(cell, root, parts.len()) else {
                continue;
            };
            for cell in cells.into_iter().rev() {
                rest = self.push_cell(cell, rest);
            }
            rows.push(rest);
        }
        self.tidy(Left { types, rows })
    }

    /// The fewest letters that show the fault, if any do.
    fn fewest(&mut self, left: &Left) -> Option<usize> {
        match self.decided(left) {
            Some(true) => return Some(self.rest(left.types).len()),
            Some(false) => return None,
            None => {}
        }
        if let Some(found) = self.found.get(left) {
            return *found;
        }
        let mut fewest = None;
        for (written, next) in self.steps(left) {
            let length = self.fewest(&next).map(|rest| written.len() + rest);
            fewest = [fewest, length].into_iter().flatten().min();
        }
        self.found.insert(left.clone(), fewest);
        fewest
    }

    /// The least letters of all columns.
    fn rest(&self, mut types: usize) -> Vec<u8> {
        let mut letters = Vec::new();
        while let (Some(ty), rest) = self.types.all[types] {
            letters.extend(least(ty));
            types = rest;
        }
        letters
    }

    /// The letters of the least value, which there is.
    fn letters(&mut self, mut left: Left) -> Vec<u8> {
        let mut letters = Vec::new();
        while self.decided(&left).is_none() {
            let fewest = self.fewest(&left);
            let mut steps = self.steps(&left).into_iter();
            let (written, next) = steps
                .find(|(written, next)| {
                    fewest == self.fewest(next).map(|rest| written.len() + rest)
                })
                .expect("one of the steps has the fewest");
            letters.extend(written);
            left = next;
        }
        letters.extend(self.rest(left.types));
        letters
    }

    /// The least value of a column that shows the fault with these patterns.
    fn shown(&mut self, ty: &'a Type, patterns: &[&'a Pattern]) -> Option<Vec<u8>> {
        self.found.clear();
        let left = self.start(ty, patterns);
        self.fewest(&left)?;
        Some(self.letters(left))
    }
}

/// The letters of the least value of a type: of a list the empty one.
pub fn least(ty: &Type) -> Vec<u8> {
    match ty {
        Type::Unit => b"U".to_vec(),
        Type::List(_) => b"N".to_vec(),
        Type::Product(a, b) => [b"P".to_vec(), least(a), least(b)].concat(),
        Type::Sum(a, b) => {
            let (a, b) = (least(a), least(b));
            if a.len() <= b.len() {
                [b"L", &a[..]].concat()
            } else {
                [b"R", &b[..]].concat()
            }
        }
    }
}

/// Byte order is K, L, N, P, R, U.
fn letter(root: Root) -> u8 {
    match root {
        Root::Unit => b'U',
        Root::Left => b'L',
        Root::Right => b'R',
        Root::Pair => b'P',
        Root::Empty => b'N',
        Root::Element => b'K',
    }
}

/// The least value that shows the fault of a side. What is matched by two or more
/// patterns is matched by some two of them.
pub(crate) fn least_of(side: &Side) -> Option<Vec<u8>> {
    let mut columns = Columns::new(side.fault);
    match side.fault {
        Fault::Never => columns.shown(side.ty, &side.patterns),
        Fault::Twice => {
            let mut shown = Vec::new();
            for (place, two) in side.patterns.iter().enumerate() {
                for one in &side.patterns[..place] {
                    shown.extend(columns.shown(side.ty, &[one, two]));
                }
            }
            shown
                .into_iter()
                .min_by_key(|value| (value.len(), value.clone()))
        }
    }
}
