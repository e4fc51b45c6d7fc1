//! Request 09, "A setting that shows the fault".
//!
//! Of a type with few values all of them are written out, each is tried with
//! every pattern, and the least one that shows the fault is taken. Of any type
//! the values are read letter by letter with the set of patterns that can still
//! match: what may follow depends on nothing but the node of the type that is
//! due and that set, so that the least letters to come are found once for each
//! two of these. No two patterns are laid on each other. Types that hold lists
//! have a way of their own (`columns`).

use crate::areas::{Known, RESULT};
use crate::columns;
use crate::lines::{self, Iso};
use crate::numbering;
use crate::tree::{Pattern, Type, Value};
use crate::Refusal;
use std::collections::HashMap;
use std::rc::Rc;

/// Types of at most so many values are tried value by value.
pub const FEW: u64 = 512;

/// What the service gives: with a refusal other than 11 to 14, length 0.
#[derive(Debug, PartialEq, Eq, Clone, Copy)]
pub struct Witnessed {
    pub number: u8,
    pub line: usize,
    pub length: usize,
}

/// "the value matched by two or more patterns (11, 12), or by none (13, 14)".
#[derive(Debug, PartialEq, Eq, Clone, Copy)]
pub enum Fault {
    Twice,
    Never,
}

/// A side of an iso, and the fault that is looked for.
pub struct Side<'a> {
    pub fault: Fault,
    pub ty: &'a Type,
    pub patterns: Vec<&'a Pattern>,
}

impl<'a> Side<'a> {
    /// "for the iso and side refused": 11 and 13 left, 12 and 14 right.
    pub fn refused(iso: &'a Iso, number: u8) -> Side<'a> {
        let clauses = iso.clauses.iter();
        let (ty, patterns) = match number {
            11 | 13 => (&iso.from, clauses.map(|clause| &*clause.left).collect()),
            _ => (&iso.to, clauses.map(|clause| &*clause.right).collect()),
        };
        let fault = if number < 13 {
            Fault::Twice
        } else {
            Fault::Never
        };
        Side {
            fault,
            ty,
            patterns,
        }
    }

    pub fn has_few_values(&self) -> bool {
        numbering::values(self.ty) <= FEW
    }

    /// Whether a value shows the fault.
    pub fn shown_by(&self, value: &Value) -> bool {
        let matching = |pattern: &&&Pattern| matches(pattern, value);
        let count = self.patterns.iter().filter(matching).count();
        match self.fault {
            Fault::Twice => count >= 2,
            Fault::Never => count == 0,
        }
    }

    /// The least value that shows the fault, by trying each value.
    pub fn by_force(&self) -> Option<Vec<u8>> {
        let shown = closed(self.ty)
            .into_iter()
            .filter(|value| self.shown_by(value));
        shown.map(|value| value.letters()).min_by(sooner)
    }

    /// All that show the fault, by sets of patterns.
    pub fn by_sets(&self) -> Option<Shown> {
        let mut search = Search::new(self);
        search.least(Some(0), (0..self.patterns.len()).collect())
    }

    /// The least value that shows the fault, by columns: of any type.
    pub fn by_columns(&self) -> Option<Vec<u8>> {
        columns::least_of(self)
    }

    /// The letters of the least value that shows the fault.
    pub fn least(&self) -> Option<Vec<u8>> {
        if self.has_few_values() {
            self.by_force()
        } else if self.ty.holds_list() {
            self.by_columns()
        } else {
            self.by_sets().map(|shown| shown.letters)
        }
    }
}

/// "with the fewest letters, the first in byte order among those".
fn sooner(one: &Vec<u8>, two: &Vec<u8>) -> std::cmp::Ordering {
    (one.len(), one).cmp(&(two.len(), two))
}

/// "A clause matches a closed value when some choice of closed values for the
/// variables of its left pattern turns that pattern into the value."
pub fn matches(pattern: &Pattern, value: &Value) -> bool {
    match (pattern, value) {
        (Pattern::Variable(_), _) | (Pattern::Unit, Value::Unit) => true,
        (Pattern::Left(a), Value::Left(b)) | (Pattern::Right(a), Value::Right(b)) => matches(a, b),
        (Pattern::Pair(a, b), Value::Pair(c, d)) => matches(a, c) && matches(b, d),
        (_, Value::List(elements)) => matches_list(pattern, elements),
        _ => false,
    }
}

fn matches_list(pattern: &Pattern, elements: &[Rc<Value>]) -> bool {
    match (pattern, elements) {
        (Pattern::Variable(_), _) | (Pattern::Empty, []) => true,
        (Pattern::Element(a, b), [first, rest @ ..]) => matches(a, first) && matches_list(b, rest),
        _ => false,
    }
}

/// Every closed value of a type that has few.
pub fn closed(ty: &Type) -> Vec<Value> {
    let below = |ty: &Type| closed(ty).into_iter().map(Rc::new);
    match ty {
        Type::Unit => vec![Value::Unit],
        Type::Sum(a, b) => {
            let lefts = below(a).map(Value::Left);
            lefts.chain(below(b).map(Value::Right)).collect()
        }
        Type::Product(a, b) => {
            let seconds: Vec<Rc<Value>> = below(b).collect();
            let with = |one: Rc<Value>| {
                let pair = move |two: &Rc<Value>| Value::Pair(Rc::clone(&one), Rc::clone(two));
                seconds.iter().map(pair).collect::<Vec<Value>>()
            };
            below(a).flat_map(with).collect()
        }
        Type::List(_) => unreachable!("a type of few values holds no list"),
    }
}

/// The letters of every closed value of any type that has at most so many.
pub fn written(ty: &Type, most: usize) -> Vec<Vec<u8>> {
    let below = |letter: u8, part: &Type| {
        let all = written(part, most.saturating_sub(1)).into_iter();
        all.map(move |value| [&[letter], &value[..]].concat())
    };
    let pairs = |letter: u8, [a, b]: [&Type; 2]| {
        let with = |first: Vec<u8>| {
            let seconds = written(b, most.saturating_sub(first.len())).into_iter();
            seconds.map(move |second| [&first[..], &second[..]].concat())
        };
        below(letter, a).flat_map(with).collect::<Vec<_>>()
    };
    match ty {
        _ if most == 0 => Vec::new(),
        Type::Unit => vec![b"U".to_vec()],
        Type::Sum(a, b) => below(b'L', a).chain(below(b'R', b)).collect(),
        Type::Product(a, b) => pairs(b'P', [a, b]),
        Type::List(a) => [pairs(b'K', [a, ty]), vec![b"N".to_vec()]].concat(),
    }
}

/// The ways in which letters may go on that show the fault: the least one, how
/// many are as short, how many there are, and the first of all in byte order.
#[derive(Debug, PartialEq, Eq, Clone, Default)]
pub struct Shown {
    pub letters: Vec<u8>,
    pub as_short: u64,
    pub all: u64,
    pub first: Vec<u8>,
}

impl Shown {
    /// The end of a value, which has nothing behind it.
    fn end() -> Shown {
        Shown {
            as_short: 1,
            all: 1,
            ..Shown::default()
        }
    }

    /// The same behind one more letter.
    fn behind(&self, letter: u8) -> Shown {
        let with = |letters: &[u8]| [&[letter], letters].concat();
        Shown {
            letters: with(&self.letters),
            first: with(&self.first),
            ..*self
        }
    }

    /// These and others, all of which come later in byte order.
    fn and(self, others: Shown) -> Shown {
        let all = self.all + others.all;
        let as_short = match self.letters.len().cmp(&others.letters.len()) {
            std::cmp::Ordering::Less => self.as_short,
            std::cmp::Ordering::Equal => self.as_short + others.as_short,
            std::cmp::Ordering::Greater => others.as_short,
        };
        let first = self.first;
        let least = [self.letters, others.letters].into_iter().min_by(sooner);
        let letters = least.expect("one of two");
        Shown {
            letters,
            as_short,
            all,
            first,
        }
    }
}

/// A node of the unfolded type, by what it has below it.
enum Kind {
    Unit,
    Sum([usize; 2]),
    Product([usize; 2]),
}

/// A node, and the one that is due behind all that is below it.
struct Node {
    kind: Kind,
    next: Option<usize>,
}

/// Lists the nodes of a type in prefix order.
fn unfold(ty: &Type, next: Option<usize>, nodes: &mut Vec<Node>) {
    let below = |a: &Type| [nodes.len() + 1, nodes.len() + 1 + a.nodes()];
    match ty {
        Type::Unit => nodes.push(Node {
            kind: Kind::Unit,
            next,
        }),
        Type::Sum(a, b) => {
            let kind = Kind::Sum(below(a));
            nodes.push(Node { kind, next });
            unfold(a, next, nodes);
            unfold(b, next, nodes);
        }
        Type::Product(a, b) => {
            let places = below(a);
            let kind = Kind::Product(places);
            nodes.push(Node { kind, next });
            unfold(a, Some(places[1]), nodes);
            unfold(b, next, nodes);
        }
        Type::List(_) => unreachable!("a type that holds lists goes by columns"),
    }
}

/// Which side a pattern has at the sums that it looks into: `true` for right.
fn asked(pattern: &Pattern, nodes: &[Node], place: usize, sides: &mut Vec<(usize, bool)>) {
    match (pattern, &nodes[place].kind) {
        (Pattern::Left(a), Kind::Sum([left, _])) => {
            sides.push((place, false));
            asked(a, nodes, *left, sides);
        }
        (Pattern::Right(a), Kind::Sum([_, right])) => {
            sides.push((place, true));
            asked(a, nodes, *right, sides);
        }
        (Pattern::Pair(a, b), Kind::Product([first, second])) => {
            asked(a, nodes, *first, sides);
            asked(b, nodes, *second, sides);
        }
        _ => {}
    }
}

/// The node that is due, and the patterns that can still match.
type Due = (Option<usize>, Vec<usize>);

struct Search {
    fault: Fault,
    nodes: Vec<Node>,
    /// For each pattern the sums that it looks into, in prefix order.
    sides: Vec<Vec<(usize, bool)>>,
    found: HashMap<Due, Option<Shown>>,
}

impl Search {
    fn new(side: &Side) -> Search {
        let mut nodes = Vec::new();
        unfold(side.ty, None, &mut nodes);
        let sides = |pattern: &&Pattern| {
            let mut sides = Vec::new();
            asked(pattern, &nodes, 0, &mut sides);
            sides
        };
        Search {
            fault: side.fault,
            sides: side.patterns.iter().map(sides).collect(),
            nodes,
            found: HashMap::new(),
        }
    }

    /// Whether a pattern that can still match does so whatever follows.
    fn settled(&self, pattern: usize, due: Option<usize>) -> bool {
        let last = self.sides[pattern].last();
        last.is_none_or(|(place, _)| due.is_none_or(|due| *place < due))
    }

    /// The patterns that can still match behind a letter of a sum.
    fn on_side(&self, patterns: &[usize], place: usize, right: bool) -> Vec<usize> {
        let stands = |pattern: &&usize| !self.sides[**pattern].contains(&(place, !right));
        patterns.iter().filter(stands).copied().collect()
    }

    /// What may follow and show the fault.
    fn least(&mut self, due: Option<usize>, mut patterns: Vec<usize>) -> Option<Shown> {
        let settled = patterns.iter().filter(|one| self.settled(**one, due));
        let (settled, open) = (settled.count(), patterns.len());
        match self.fault {
            Fault::Never if settled > 0 => return None,
            Fault::Twice if open < 2 => return None,
            // Two match, whatever the others do.
            Fault::Twice if settled >= 2 => patterns.retain(|one| self.settled(*one, due)),
            _ => {}
        }
        let Some(place) = due else {
            return Some(Shown::end());
        };
        let key = (due, patterns);
        if let Some(found) = self.found.get(&key) {
            return found.clone();
        }
        let found = self.at(place, &key.1);
        self.found.insert(key, found.clone());
        found
    }

    fn at(&mut self, place: usize, patterns: &[usize]) -> Option<Shown> {
        let next = self.nodes[place].next;
        match self.nodes[place].kind {
            Kind::Unit => Some(self.least(next, patterns.to_vec())?.behind(b'U')),
            Kind::Product([first, _]) => {
                Some(self.least(Some(first), patterns.to_vec())?.behind(b'P'))
            }
            Kind::Sum([left, right]) => {
                let lefts = self.on_side(patterns, place, false);
                let rights = self.on_side(patterns, place, true);
                let one = self.least(Some(left), lefts);
                let two = self.least(Some(right), rights);
                match (one, two) {
                    (Some(one), Some(two)) => Some(one.behind(b'L').and(two.behind(b'R'))),
                    (Some(one), None) => Some(one.behind(b'L')),
                    (None, two) => two.map(|two| two.behind(b'R')),
                }
            }
        }
    }
}

/// The iso that a refusal of 11 to 14 names.
pub fn refused_iso(file: &[u8], refusal: Refusal) -> Option<Iso> {
    // A file that no other line is refused in is read alike with them.
    let mut isos = lines::read_with(file, true).ok()?.isos.into_iter();
    let wanted = matches!(refusal.number, 11..=14);
    isos.find(|iso| wanted && iso.line == refusal.line)
}

/// The witness of a refusal of 11 to 14; "for other answers no value is given".
pub fn witness_of(file: &[u8], refusal: Refusal) -> Option<Vec<u8>> {
    let iso = refused_iso(file, refusal)?;
    Side::refused(&iso, refusal.number).least()
}

/// The refusal that is answered: Check's, or 24 "when the smallest value is over
/// 127 letters" (request 14); and the letters.
pub fn answered(file: &[u8], refusal: Refusal) -> (Refusal, Vec<u8>) {
    let letters = witness_of(file, refusal).unwrap_or_default();
    let large = Refusal {
        number: 24,
        line: 0,
    };
    match letters.len() > RESULT {
        true => (large, Vec::new()),
        false => (refusal, letters),
    }
}

/// The witness with lent areas: "it goes into 127 lent bytes".
pub fn witness(known: &Known, table: &mut [u16], work: &mut [u8], result: &mut [u8]) -> Witnessed {
    let Err(refusal) = known.enter(result.len() < RESULT, table, work) else {
        return Witnessed {
            number: 0,
            line: 0,
            length: 0,
        };
    };
    let (refusal, letters) = answered(known.file, refusal);
    result[..letters.len()].copy_from_slice(&letters);
    Witnessed {
        number: refusal.number,
        line: refusal.line,
        length: letters.len(),
    }
}
