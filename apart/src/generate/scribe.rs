//! Writes planned isos as a file, with lines shared or written again.

use super::random::Random;
use crate::lines::Iso;
use crate::tree::{Pattern, Type};
use std::rc::Rc;

struct Scribe<'a> {
    random: &'a mut Random,
    share: usize,
    types: Vec<Rc<Type>>,
    type_lines: String,
    patterns: Vec<Rc<Pattern>>,
    pattern_lines: String,
}

/// The file of the isos.
pub fn file(random: &mut Random, isos: &[Iso]) -> Vec<u8> {
    let share = *random.pick(&[100, 95, 80, 40]);
    let mut scribe = Scribe {
        random,
        share,
        types: Vec::new(),
        type_lines: String::new(),
        patterns: Vec::new(),
        pattern_lines: String::new(),
    };
    let mut body = String::new();
    for iso in isos {
        let (from, to) = (scribe.ty(&iso.from), scribe.ty(&iso.to));
        body += &format!("I,{from},{to}\n");
        for clause in &iso.clauses {
            let (left, right) = (scribe.pattern(&clause.left), scribe.pattern(&clause.right));
            body += &format!("C,{left},{right}\n");
            for step in &clause.lets {
                let (p, q) = (scribe.pattern(&step.p), scribe.pattern(&step.q));
                body += &format!("L,{p},{},{q}\n", step.iso);
            }
        }
    }
    (scribe.type_lines + &scribe.pattern_lines + &body).into_bytes()
}

impl Scribe<'_> {
    /// The number of a line among those equal to the thing wanted, or `None`
    /// when a new line is to be written.
    fn shared(&mut self, equal: Vec<usize>, full: bool) -> Option<usize> {
        if equal.is_empty() || !(full || self.random.chance(self.share)) {
            return None;
        }
        Some(*self.random.pick(&equal))
    }

    fn ty(&mut self, ty: &Rc<Type>) -> usize {
        let equal = (0..self.types.len()).filter(|place| self.types[*place] == *ty);
        let equal = equal.collect();
        if let Some(place) = self.shared(equal, self.types.len() > 180) {
            return place;
        }
        let line = match &**ty {
            Type::Unit => "T,0,0,0\n".to_string(),
            Type::Sum(a, b) => format!("T,1,{},{}\n", self.ty(a), self.ty(b)),
            Type::Product(a, b) => format!("T,2,{},{}\n", self.ty(a), self.ty(b)),
            Type::List(a) => format!("T,3,{},0\n", self.ty(a)),
        };
        self.type_lines += &line;
        self.types.push(Rc::clone(ty));
        self.types.len() - 1
    }

    fn pattern(&mut self, pattern: &Rc<Pattern>) -> usize {
        let equal = (0..self.patterns.len()).filter(|place| self.patterns[*place] == *pattern);
        let equal = equal.collect();
        if let Some(place) = self.shared(equal, self.patterns.len() > 700) {
            return place;
        }
        let line = match &**pattern {
            Pattern::Unit => "P,0,0,0\n".to_string(),
            Pattern::Variable(number) => format!("P,1,{number},0\n"),
            Pattern::Left(a) => format!("P,2,{},0\n", self.pattern(a)),
            Pattern::Right(a) => format!("P,3,{},0\n", self.pattern(a)),
            Pattern::Pair(a, b) => format!("P,4,{},{}\n", self.pattern(a), self.pattern(b)),
            Pattern::Empty => "P,5,0,0\n".to_string(),
            Pattern::Element(a, b) => format!("P,6,{},{}\n", self.pattern(a), self.pattern(b)),
        };
        self.pattern_lines += &line;
        self.patterns.push(Rc::clone(pattern));
        self.patterns.len() - 1
    }
}
