//! Types, patterns and settings as trees to be written or drawn, in numbers: a right-nested sum of units is a number
//! of choices, and its settings are their places; nested products and pairs are one tuple; in any other sum a part is
//! told by its place; a list has its elements in square brackets. What does not fit its type, in a refused file, is
//! written in letters, and so is all of it where letters are asked for.

use crate::rules::{Clause, Row, Rules};
use crate::settings::MOST_LETTERS;
use std::collections::BTreeSet;

/// The most leaves of a part of a type that is written out where it is used.
const MOST: usize = 7;

/// What a list type is called, before the type of its elements.
const LIST: &str = "list of ";

/// What stands before the rest of a list.
const REST: &str = "…";

/// How types and clauses are read, in two lines, and in a third where there are lists.
pub fn legend(rules: &Rules) -> Vec<&'static str> {
    let mut lines = match rules.letters {
        false => vec![
            "4 is one of four, 0 to 3; 2 × 4 is both, as (1, 3); 2 + (2 × 4) is either, as 0:1 or 1:(1, 3).",
            "Small letters are carried over; 2+a is a, counted on from 2; the last may be all that is left.",
        ],
        true => vec![
            "1 is nothing to tell apart, U; + is the left part, L, or the right one, R; × is both, in queries P.",
            "Small letters are parts carried over.",
        ],
    };
    lines.extend(rules.has_lists().then_some(match rules.letters {
        false => "A list of 4 is any number of them, as [], [3] or [0, 3]; in [a, …b] b is the rest of the list.",
        true => "[] is the empty list, in queries N; [a, …b] is a before the rest of the list, b, in queries K.",
    }));
    lines
}

/// How a name is written: its label, whether it is that of a T line (`T`) or of an iso (`i`), and the line's number.
pub type Write = fn(&str, char, usize) -> String;

/// A name by its label alone.
pub fn plain(label: &str, _: char, _: usize) -> String {
    label.to_string()
}

/// A tree, as it is shown.
pub enum Tree {
    /// A number of choices, a place among them, or a unit in letters.
    Leaf(String),
    /// A variable's number, and how often the number was given out before in the clause.
    Variable(usize, usize),
    /// A T line by its name: the one that people gave it, or its letter and number.
    Name(String, usize),
    /// A place or a letter, and what stands behind it.
    One(String, Box<Tree>),
    /// The parts of a sum (`+`), of a product (`×`), of a tuple (`,`) or of a list (`[`).
    Many(char, Vec<Tree>),
}

/// The letter of a variable: a to z, and then aa, ab and so on; a stroke for each time that its number was given out
/// before.
pub fn variable(number: usize, again: usize) -> String {
    let letter = |place: usize| char::from(b'a' + (place % 26) as u8);
    let front = if number < 26 { "" } else { "a" };
    format!("{front}{}{}", letter(number), "′".repeat(again))
}

/// A T line.
pub fn ty(rules: &Rules, place: usize) -> Tree {
    let kind = rules.types.get(place).map(|row| row.kind);
    let sign = match kind {
        Some(0) => return Tree::Leaf("1".to_string()),
        Some(1) if !rules.letters && rules.choices[place] > 0 => {
            return Tree::Leaf(rules.choices[place].to_string())
        }
        Some(1) => '+',
        Some(2) => '×',
        Some(3) => {
            let element = part_of(rules, rules.types[place].a);
            return Tree::One(LIST.to_string(), Box::new(element));
        }
        _ => return Tree::Leaf("?".to_string()),
    };
    let parts = parts(rules, place).into_iter();
    Tree::Many(sign, parts.map(|part| part_of(rules, part)).collect())
}

/// A type as a part of another: by the name that people gave it, or by its line's where it is large.
fn part_of(rules: &Rules, place: usize) -> Tree {
    if let (false, Some(name)) = (rules.letters, rules.names.ty(place)) {
        return Tree::Name(name.to_string(), place);
    }
    let tree = ty(rules, place);
    match tree.leaves() > MOST {
        true => Tree::Name(format!("T{place}"), place),
        false => tree,
    }
}

/// A T line as text, behind the name that people gave it.
pub fn titled(rules: &Rules, place: usize) -> String {
    let text = ty(rules, place).text();
    match rules.names.ty(place) {
        Some(name) if !rules.letters => format!("{name} ({text})"),
        _ => text,
    }
}

/// The parts of a sum or a product: its left part, those of its right part where that is of the same kind, and so on.
/// A number of choices is one part, and so is a type that people gave names for. In letters there are two parts.
pub fn parts(rules: &Rules, place: usize) -> Vec<usize> {
    let kind = rules.types[place].kind;
    let (mut parts, mut rest) = (Vec::new(), place);
    loop {
        let Row { a, b, .. } = rules.types[rest];
        parts.push(a);
        rest = b;
        let goes_on = rules.types[rest].kind == kind && rules.choices[rest] == 0;
        if !goes_on || rules.letters || rules.names.knows(rest) {
            parts.push(rest);
            return parts;
        }
    }
}

/// A pattern, or the closed value that a setting is.
enum Term {
    Unit,
    /// A variable's number, and how often the number was given out before in the clause.
    Variable(usize, usize),
    /// Right or not, and what stands behind it.
    Side(bool, Box<Term>),
    Pair(Box<Term>, Box<Term>),
    Empty,
    /// An element before a list.
    Element(Box<Term>, Box<Term>),
    /// A P line that cannot be unfolded, in a refused file.
    Unknown,
}

impl Term {
    /// The value that letters begin with, and the letters behind it.
    fn read(letters: &[u8]) -> Option<(Term, &[u8])> {
        let (first, rest) = letters.split_first()?;
        match first {
            b'U' => Some((Term::Unit, rest)),
            b'L' | b'R' => {
                let (part, rest) = Term::read(rest)?;
                Some((Term::Side(*first == b'R', Box::new(part)), rest))
            }
            b'P' => {
                let (left, rest) = Term::read(rest)?;
                let (right, rest) = Term::read(rest)?;
                Some((Term::Pair(Box::new(left), Box::new(right)), rest))
            }
            b'N' => Some((Term::Empty, rest)),
            b'K' => {
                let (element, rest) = Term::read(rest)?;
                let (list, rest) = Term::read(rest)?;
                Some((Term::Element(Box::new(element), Box::new(list)), rest))
            }
            _ => None,
        }
    }

    /// The value that letters are, all of them.
    fn of(letters: &[u8]) -> Option<Term> {
        let letters = Some(letters).filter(|letters| letters.len() <= MOST_LETTERS)?;
        let (term, rest) = Term::read(letters)?;
        rest.is_empty().then_some(term)
    }

    /// The letters of a closed value.
    fn letters(&self) -> Option<Vec<u8>> {
        match self {
            Term::Unit => Some(b"U".to_vec()),
            Term::Side(right, part) => {
                let letter = if *right { b"R" } else { b"L" };
                Some([letter.to_vec(), part.letters()?].concat())
            }
            Term::Pair(left, right) => {
                Some([b"P".to_vec(), left.letters()?, right.letters()?].concat())
            }
            Term::Empty => Some(b"N".to_vec()),
            Term::Element(element, list) => {
                Some([b"K".to_vec(), element.letters()?, list.letters()?].concat())
            }
            Term::Variable(..) | Term::Unknown => None,
        }
    }

    /// Whether a closed value is one of a type.
    fn fits(&self, rules: &Rules, place: usize) -> bool {
        let Some(Row { kind, a, b, .. }) = rules.types.get(place) else {
            return false;
        };
        match (kind, self) {
            (0, Term::Unit) => true,
            (1, Term::Side(right, part)) => part.fits(rules, if *right { *b } else { *a }),
            (2, Term::Pair(left, right)) => left.fits(rules, *a) && right.fits(rules, *b),
            (3, Term::Empty) => true,
            (3, Term::Element(element, list)) => element.fits(rules, *a) && list.fits(rules, place),
            _ => false,
        }
    }

    /// The name that people gave to a closed value of a type.
    fn name(&self, rules: &Rules, place: usize) -> Option<Tree> {
        let known = !rules.letters && rules.names.knows(place);
        let letters = known.then(|| self.letters()).flatten()?;
        let name = rules.names.setting(place, &letters)?;
        Some(Tree::Leaf(name.to_string()))
    }

    /// In letters.
    fn lettered(&self) -> Tree {
        match self {
            Term::Unit => Tree::Leaf("U".to_string()),
            Term::Variable(number, again) => Tree::Variable(*number, *again),
            Term::Side(right, part) => {
                let letter = if *right { "R" } else { "L" };
                Tree::One(letter.to_string(), Box::new(part.lettered()))
            }
            Term::Pair(left, right) => Tree::Many(',', vec![left.lettered(), right.lettered()]),
            Term::Empty => Tree::Leaf("[]".to_string()),
            Term::Element(..) => {
                let elements = self.list(Term::lettered);
                elements.unwrap_or_else(|| self.before())
            }
            Term::Unknown => Tree::Leaf("?".to_string()),
        }
    }

    /// In numbers, as a type has them; in letters where it does not fit.
    fn typed(&self, rules: &Rules, place: usize) -> Tree {
        if let Term::Variable(number, again) = self {
            return Tree::Variable(*number, *again);
        }
        if let Some(name) = self.name(rules, place) {
            return name;
        }
        let title = rules.names.ty(place);
        let shown = match rules.types.get(place) {
            _ if rules.letters => None,
            Some(_) if rules.choices[place] > 0 => {
                let choice = self.choice(rules.choices[place]);
                choice.map(|choice| choice.behind(title))
            }
            Some(row) if row.kind == 1 => {
                let part = self.part(rules, &parts(rules, place));
                part.map(|part| part.behind(title))
            }
            Some(row) if row.kind == 2 => self.tuple(rules, &parts(rules, place)),
            Some(row) if row.kind == 3 => self.list(|element| element.typed(rules, row.a)),
            _ => None,
        };
        shown.unwrap_or_else(|| self.lettered())
    }

    /// One of so many choices: its place, or the place that a variable counts on from.
    fn choice(&self, choices: usize) -> Option<Tree> {
        let (mut place, mut rest) = (0, self);
        while place + 1 < choices {
            match rest {
                Term::Side(true, part) => (place, rest) = (place + 1, part),
                Term::Side(false, part) => {
                    return match part.choice(1)? {
                        Tree::Leaf(_) => Some(Tree::Leaf(place.to_string())),
                        unit => Some(at(place, unit)),
                    }
                }
                _ => break,
            }
        }
        match rest {
            Term::Variable(..) if place == 0 => Some(rest.lettered()),
            Term::Variable(..) => Some(Tree::One(format!("{place}+"), Box::new(rest.lettered()))),
            Term::Unit if place + 1 == choices => Some(Tree::Leaf(place.to_string())),
            _ => None,
        }
    }

    /// A part of a sum, by its place.
    fn part(&self, rules: &Rules, parts: &[usize]) -> Option<Tree> {
        let shown = |place: usize, part: &Term| at(place, part.typed(rules, parts[place]));
        let (mut place, mut rest) = (0, self);
        while place + 1 < parts.len() {
            match rest {
                Term::Side(true, part) => (place, rest) = (place + 1, part),
                Term::Side(false, part) => return Some(shown(place, part)),
                Term::Variable(..) => {
                    let counted = Box::new(rest.lettered());
                    return Some(Tree::One(format!("{place}+"), counted));
                }
                _ => return None,
            }
        }
        Some(shown(place, rest))
    }

    /// The parts of a product as one tuple. A variable for all that is left ends it.
    fn tuple(&self, rules: &Rules, parts: &[usize]) -> Option<Tree> {
        let (last, front) = parts.split_last()?;
        let (mut shown, mut rest) = (Vec::new(), self);
        for part in front {
            match rest {
                Term::Pair(left, right) => {
                    shown.push(left.typed(rules, *part));
                    rest = right;
                }
                Term::Variable(..) if !shown.is_empty() => {
                    shown.push(rest.lettered());
                    return Some(Tree::Many(',', shown));
                }
                _ => return None,
            }
        }
        shown.push(rest.typed(rules, *last));
        Some(Tree::Many(',', shown))
    }

    /// The elements of a list, each as it is shown so. A variable for the rest of the list ends it.
    fn list(&self, element: impl Fn(&Term) -> Tree) -> Option<Tree> {
        let (mut shown, mut rest) = (Vec::new(), self);
        while let Term::Element(first, list) = rest {
            shown.push(element(first));
            rest = list;
        }
        match rest {
            Term::Empty if shown.is_empty() => return Some(Tree::Leaf("[]".to_string())),
            Term::Empty => {}
            Term::Variable(..) => {
                shown.push(Tree::One(REST.to_string(), Box::new(rest.lettered())))
            }
            _ => return None,
        }
        Some(Tree::Many('[', shown))
    }

    /// An element before what is no list, in a refused file.
    fn before(&self) -> Tree {
        match self {
            Term::Element(element, list) => {
                let list = Tree::One(REST.to_string(), Box::new(list.before()));
                Tree::Many('[', vec![element.lettered(), list])
            }
            _ => self.lettered(),
        }
    }
}

/// What stands at a place of a sum.
fn at(place: usize, part: Tree) -> Tree {
    Tree::One(format!("{place}:"), Box::new(part))
}

/// Whether letters are a setting of a T line.
pub fn fits(rules: &Rules, ty: usize, letters: &[u8]) -> bool {
    Term::of(letters).is_some_and(|term| term.fits(rules, ty))
}

/// A setting of a T line, as it is shown; letters that are none stay as they are.
pub fn setting(rules: &Rules, ty: usize, letters: &[u8]) -> String {
    match Term::of(letters) {
        Some(term) if !rules.letters => term.typed(rules, ty).text(),
        _ => String::from_utf8_lossy(letters).into_owned(),
    }
}

/// How the variables of a clause are named.
pub struct Naming {
    /// How often each number was bound in the clause up to here.
    bound: Vec<usize>,
}

impl Naming {
    /// For patterns outside any clause, and for a clause before its left pattern.
    pub fn plain() -> Naming {
        Naming { bound: vec![0; 32] }
    }

    fn bind(&mut self, rules: &Rules, pattern: usize) {
        let known = pattern < rules.patterns.len();
        let variables = known.then(|| rules.variables(pattern));
        for number in variables.unwrap_or_default() {
            if let Some(times) = self.bound.get_mut(number) {
                *times += 1;
            }
        }
    }

    fn term(&self, rules: &Rules, place: usize) -> Term {
        let part = |place: usize| Box::new(self.term(rules, place));
        let Some(row) = rules.patterns.get(place) else {
            return Term::Unknown;
        };
        match row.kind {
            0 => Term::Unit,
            1 => {
                let times = self.bound.get(row.a).copied().unwrap_or(0);
                Term::Variable(row.a, times.saturating_sub(1))
            }
            2 | 3 => Term::Side(row.kind == 3, part(row.a)),
            4 => Term::Pair(part(row.a), part(row.b)),
            5 => Term::Empty,
            6 => Term::Element(part(row.a), part(row.b)),
            _ => Term::Unknown,
        }
    }

    /// A P line as a tree, in letters, since it has no type of its own.
    pub fn pattern(&self, rules: &Rules, place: usize) -> Tree {
        self.term(rules, place).lettered()
    }

    /// A P line as a tree, where a type is known for it.
    fn typed(&self, rules: &Rules, place: usize, ty: Option<usize>) -> Tree {
        let term = self.term(rules, place);
        match ty {
            Some(ty) => term.typed(rules, ty),
            None => term.lettered(),
        }
    }
}

/// A clause as trees.
pub struct Shown {
    pub left: Tree,
    pub right: Tree,
    /// p, the iso's number and q of each let step.
    pub lets: Vec<(Tree, usize, Tree)>,
    /// What the iso of each let step is called.
    isos: Vec<String>,
}

/// What an iso is called: the name that people gave it, or its number.
pub fn iso(rules: &Rules, place: usize) -> String {
    match rules.names.iso(place) {
        Some(name) if !rules.letters => name.to_string(),
        _ => format!("iso {place}"),
    }
}

/// A clause of a file.
pub fn clause(rules: &Rules, clause: &Clause) -> Shown {
    let mut naming = Naming::plain();
    naming.bind(rules, clause.left);
    let left = naming.typed(rules, clause.left, Some(clause.from));
    let mut lets = Vec::new();
    for step in &clause.lets {
        let iso = rules.isos.get(step.iso);
        let q = naming.typed(rules, step.q, iso.map(|iso| iso.from));
        naming.bind(rules, step.p);
        let p = naming.typed(rules, step.p, iso.map(|iso| iso.to));
        lets.push((p, step.iso, q));
    }
    let right = naming.typed(rules, clause.right, Some(clause.to));
    let isos = clause.lets.iter().map(|step| iso(rules, step.iso));
    let isos = isos.collect();
    Shown {
        left,
        right,
        lets,
        isos,
    }
}

impl Tree {
    /// A place behind the name of its type.
    fn behind(self, title: Option<&str>) -> Tree {
        let Some(title) = title else {
            return self;
        };
        match self {
            Tree::Leaf(place) => Tree::Leaf(format!("{title} {place}")),
            Tree::One(place, part) => Tree::One(format!("{title} {place}"), part),
            tree => tree,
        }
    }

    /// The T lines that stand as names.
    pub fn names(&self, names: &mut BTreeSet<usize>) {
        match self {
            Tree::Name(_, place) => {
                names.insert(*place);
            }
            Tree::One(_, part) => part.names(names),
            Tree::Many(_, parts) => parts.iter().for_each(|part| part.names(names)),
            Tree::Leaf(_) | Tree::Variable(..) => {}
        }
    }

    /// How many parts there are that have no parts themselves, and lists.
    pub fn leaves(&self) -> usize {
        match self {
            // so that lists of lists get short names, too
            Tree::One(label, part) if label == LIST => 1 + part.leaves(),
            Tree::One(_, part) => part.leaves(),
            Tree::Many(_, parts) => parts.iter().map(Tree::leaves).sum(),
            _ => 1,
        }
    }

    /// The label of the topmost node.
    pub fn label(&self) -> String {
        match self {
            Tree::Leaf(label) | Tree::Name(label, _) => label.clone(),
            Tree::One(label, _) => label.trim().to_string(),
            Tree::Variable(number, again) => variable(*number, *again),
            Tree::Many('[', _) => "[ ]".to_string(),
            Tree::Many(sign, _) => sign.to_string(),
        }
    }

    /// The tree as text.
    pub fn text(&self) -> String {
        self.written(plain)
    }

    /// The tree as text, with names as these are written.
    pub fn written(&self, name: Write) -> String {
        match self {
            Tree::One(label, part) if label == LIST => match &**part {
                Tree::One(..) => format!("{LIST}{}", part.written(name)),
                part => format!("{LIST}{}", part.operand(name)),
            },
            Tree::One(label, part) => {
                let letter = label == "L" || label == "R";
                let close = matches!(**part, Tree::One(..) | Tree::Leaf(_));
                let blank = if letter && !close { " " } else { "" };
                format!("{label}{blank}{}", part.written(name))
            }
            Tree::Many(',', parts) => {
                let parts = parts.iter().map(|part| part.written(name));
                format!("({})", parts.collect::<Vec<_>>().join(", "))
            }
            Tree::Many('[', parts) => {
                let parts = parts.iter().map(|part| part.written(name));
                format!("[{}]", parts.collect::<Vec<_>>().join(", "))
            }
            Tree::Many(sign, parts) => {
                let parts = parts.iter().map(|part| part.operand(name));
                parts.collect::<Vec<_>>().join(&format!(" {sign} "))
            }
            Tree::Name(label, place) => name(label, 'T', *place),
            _ => self.label(),
        }
    }

    /// The text as a part of a sum or a product.
    fn operand(&self, name: Write) -> String {
        match self {
            Tree::Many(..) => format!("({})", self.written(name)),
            Tree::One(label, _) if label == LIST => format!("({})", self.written(name)),
            _ => self.written(name),
        }
    }
}

impl Shown {
    /// The let steps as text.
    pub fn steps(&self) -> Vec<String> {
        self.written_steps(plain)
    }

    fn written_steps(&self, name: Write) -> Vec<String> {
        let step = |((p, place, q), iso): (&(Tree, usize, Tree), &String)| {
            let q = match q {
                Tree::Many(..) => q.written(name),
                _ => format!("({})", q.written(name)),
            };
            format!("{} = {} {q}", p.written(name), name(iso, 'i', *place))
        };
        self.lets.iter().zip(&self.isos).map(step).collect()
    }

    /// The right side and where its parts come from.
    pub fn outcome(&self) -> String {
        self.written_outcome(plain)
    }

    fn written_outcome(&self, name: Write) -> String {
        let right = self.right.written(name);
        match self.lets.is_empty() {
            true => right,
            false => format!("{right}, where {}", self.written_steps(name).join(", ")),
        }
    }

    /// The whole clause, with names as these are written.
    pub fn written(&self, name: Write) -> String {
        let (left, outcome) = (self.left.written(name), self.written_outcome(name));
        format!("{left} ↦ {outcome}")
    }
}

/// Names, and all names that stand in what they name.
pub fn with_parts(names: BTreeSet<usize>, tree: impl Fn(usize) -> Tree) -> BTreeSet<usize> {
    let mut all = BTreeSet::new();
    let mut rest = names;
    // a line names only earlier ones, so the last one is never met again
    while let Some(last) = rest.pop_last() {
        all.insert(last);
        tree(last).names(&mut rest);
    }
    all
}
