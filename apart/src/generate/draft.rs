//! A file as rows that can be changed one by one.

use super::random::Random;
use crate::lines::{parse, split, FORMS};

/// The letter and its fields.
pub type Entry = (u8, Vec<u32>);

#[derive(Clone)]
pub struct Draft(pub Vec<Entry>);

impl Draft {
    /// The rows of a file whose lines all have one of the five forms.
    pub fn of(file: &[u8]) -> Draft {
        let entry = |line: &[u8]| {
            let row = parse(line).expect("one of the five forms");
            let form = FORMS.iter().find(|form| form.0 == row.letter);
            let count = form.expect("a letter of the five").1;
            let fields = row.fields[..count].iter().map(|field| u32::from(*field));
            (row.letter, fields.collect())
        };
        Draft(split(file).into_iter().map(entry).collect())
    }

    pub fn bytes(&self) -> Vec<u8> {
        let mut text = String::new();
        for (letter, fields) in &self.0 {
            text.push(char::from(*letter));
            for field in fields {
                text += &format!(",{field}");
            }
            text.push('\n');
        }
        text.into_bytes()
    }

    pub fn count(&self, letter: u8) -> usize {
        self.places(letter).len()
    }

    /// The places of all lines with the letter.
    pub fn places(&self, letter: u8) -> Vec<usize> {
        let is = |place: &usize| self.0[*place].0 == letter;
        (0..self.0.len()).filter(is).collect()
    }

    pub fn some_place(&self, random: &mut Random, letter: u8) -> Option<usize> {
        let places = self.places(letter);
        if places.is_empty() {
            return None;
        }
        Some(*random.pick(&places))
    }

    /// Adds a T or P line behind the others of its letter, which keeps all
    /// numbers as they are, and gives its number.
    pub fn add(&mut self, letter: u8, fields: [u32; 3]) -> u32 {
        let before: &[u8] = if letter == b'T' { b"T" } else { b"TP" };
        let place = self
            .0
            .iter()
            .take_while(|row| before.contains(&row.0))
            .count();
        self.0.insert(place, (letter, fields.to_vec()));
        (self.count(letter) - 1) as u32
    }

    pub fn push(&mut self, letter: u8, fields: &[u32]) {
        self.0.push((letter, fields.to_vec()));
    }

    /// The number of the T or P line 0,0,0, which is added where there is none.
    pub fn unit(&mut self, letter: u8) -> u32 {
        let places = self.places(letter);
        let is = |place: &usize| self.0[*place].1 == [0, 0, 0];
        match places.iter().position(is) {
            Some(number) => number as u32,
            None => self.add(letter, [0, 0, 0]),
        }
    }

    /// The places of a C line and the L lines under it.
    pub fn clause(&self, start: usize) -> std::ops::Range<usize> {
        let lets = self.0[start + 1..].iter().take_while(|row| row.0 == b'L');
        start..start + 1 + lets.count()
    }

    /// The places of an I line and all lines under it.
    pub fn iso(&self, start: usize) -> std::ops::Range<usize> {
        let under = self.0[start + 1..].iter().take_while(|row| row.0 != b'I');
        start..start + 1 + under.count()
    }
}
