//! The trees that unfolded T and P lines give, and closed values.

use std::rc::Rc;

/// "kind, a, b: 0 unit (a = b = 0); 1 sum; 2 product of types a and b"; request
/// 14: "kind 3 (a the element, b 0)".
///
/// "Two types are the same when their trees are equal, under any line numbers":
/// the derived equality compares trees.
#[derive(Debug, PartialEq, Eq, Clone)]
pub enum Type {
    Unit,
    Sum(Rc<Type>, Rc<Type>),
    Product(Rc<Type>, Rc<Type>),
    List(Rc<Type>),
}

/// "kind, a, b: 0 unit (a = b = 0); 1 variable number a, 0 to 31 (b = 0);
/// 2 left of a (b = 0); 3 right of a (b = 0); 4 pair a, b"; request 14: "P kinds
/// 5 empty (a = b = 0) and 6 an element before a list".
#[derive(Debug, PartialEq, Eq, Clone)]
pub enum Pattern {
    Unit,
    Variable(u16),
    Left(Rc<Pattern>),
    Right(Rc<Pattern>),
    Pair(Rc<Pattern>, Rc<Pattern>),
    Empty,
    Element(Rc<Pattern>, Rc<Pattern>),
}

/// "A closed value has no variable". A list is all its elements in their order.
#[derive(Debug, PartialEq, Eq, Clone)]
pub enum Value {
    Unit,
    Left(Rc<Value>),
    Right(Rc<Value>),
    Pair(Rc<Value>, Rc<Value>),
    List(Vec<Rc<Value>>),
}

impl Type {
    /// Nodes of the unfolded tree, a shared line as often as it is reached.
    pub fn nodes(&self) -> usize {
        match self {
            Type::Unit => 1,
            Type::Sum(a, b) | Type::Product(a, b) => 1 + a.nodes() + b.nodes(),
            Type::List(a) => 1 + a.nodes(),
        }
    }

    /// Whether some node of the tree is a list.
    pub fn holds_list(&self) -> bool {
        match self {
            Type::Unit => false,
            Type::Sum(a, b) | Type::Product(a, b) => a.holds_list() || b.holds_list(),
            Type::List(_) => true,
        }
    }
}

impl Pattern {
    /// Nodes of the unfolded tree, a shared line as often as it is reached.
    pub fn nodes(&self) -> usize {
        match self {
            Pattern::Unit | Pattern::Variable(_) | Pattern::Empty => 1,
            Pattern::Left(a) | Pattern::Right(a) => 1 + a.nodes(),
            Pattern::Pair(a, b) | Pattern::Element(a, b) => 1 + a.nodes() + b.nodes(),
        }
    }

    /// Left and right nodes together in the unfolded tree; request 14: "Both P
    /// kinds count towards the 40", those of lists too.
    pub fn sides(&self) -> usize {
        match self {
            Pattern::Unit | Pattern::Variable(_) => 0,
            Pattern::Left(a) | Pattern::Right(a) => 1 + a.sides(),
            Pattern::Pair(a, b) => a.sides() + b.sides(),
            Pattern::Empty => 1,
            Pattern::Element(a, b) => 1 + a.sides() + b.sides(),
        }
    }

    /// Every variable of the unfolded tree, from left to right, with repeats.
    pub fn variables(&self) -> Vec<u16> {
        match self {
            Pattern::Unit | Pattern::Empty => Vec::new(),
            Pattern::Variable(number) => vec![*number],
            Pattern::Left(a) | Pattern::Right(a) => a.variables(),
            Pattern::Pair(a, b) | Pattern::Element(a, b) => [a.variables(), b.variables()].concat(),
        }
    }

    /// The pattern with each variable, from left to right, given the number
    /// that `name` says; `None` as soon as it says none.
    pub fn renamed(&self, name: &mut dyn FnMut(u16) -> Option<u16>) -> Option<Rc<Pattern>> {
        Some(Rc::new(match self {
            Pattern::Unit => Pattern::Unit,
            Pattern::Variable(number) => Pattern::Variable(name(*number)?),
            Pattern::Left(a) => Pattern::Left(a.renamed(name)?),
            Pattern::Right(a) => Pattern::Right(a.renamed(name)?),
            Pattern::Pair(a, b) => Pattern::Pair(a.renamed(name)?, b.renamed(name)?),
            Pattern::Empty => Pattern::Empty,
            Pattern::Element(a, b) => Pattern::Element(a.renamed(name)?, b.renamed(name)?),
        }))
    }
}

impl Value {
    /// The number of its letters.
    pub fn length(&self) -> usize {
        match self {
            Value::Unit => 1,
            Value::Left(a) | Value::Right(a) => 1 + a.length(),
            Value::Pair(a, b) => 1 + a.length() + b.length(),
            Value::List(elements) => {
                let lengths = elements.iter().map(|element| 1 + element.length());
                1 + lengths.sum::<usize>()
            }
        }
    }

    /// "A value is written in prefix order with the letters U (unit), L, R, P
    /// (pair)"; request 14: "value letters N and K", K before an element and the
    /// list behind it.
    pub fn letters(&self) -> Vec<u8> {
        let mut written = Vec::new();
        self.write(&mut written);
        written
    }

    fn write(&self, written: &mut Vec<u8>) {
        match self {
            Value::Unit => written.push(b'U'),
            Value::Left(a) => {
                written.push(b'L');
                a.write(written);
            }
            Value::Right(a) => {
                written.push(b'R');
                a.write(written);
            }
            Value::Pair(a, b) => {
                written.push(b'P');
                a.write(written);
                b.write(written);
            }
            Value::List(elements) => {
                for element in elements {
                    written.push(b'K');
                    element.write(written);
                }
                written.push(b'N');
            }
        }
    }

    /// "not exactly one closed value of the starting type": `None` when the
    /// letters are anything else than one closed value of `ty`.
    pub fn read(letters: &[u8], ty: &Type) -> Option<Value> {
        match Value::take(letters, ty) {
            Some((value, [])) => Some(value),
            _ => None,
        }
    }

    /// "U for the unit type; L or R before a closed value of the left or right
    /// type for a sum; P before one of each part for a product": takes one
    /// value from the front of the letters and hands back the others.
    fn take<'a>(letters: &'a [u8], ty: &Type) -> Option<(Value, &'a [u8])> {
        let (first, others) = letters.split_first()?;
        match (ty, first) {
            (Type::Unit, b'U') => Some((Value::Unit, others)),
            (Type::Sum(a, _), b'L') => {
                let (value, others) = Value::take(others, a)?;
                Some((Value::Left(Rc::new(value)), others))
            }
            (Type::Sum(_, b), b'R') => {
                let (value, others) = Value::take(others, b)?;
                Some((Value::Right(Rc::new(value)), others))
            }
            (Type::Product(a, b), b'P') => {
                let (one, others) = Value::take(others, a)?;
                let (two, others) = Value::take(others, b)?;
                Some((Value::Pair(Rc::new(one), Rc::new(two)), others))
            }
            (Type::List(a), _) => Value::take_list(letters, a),
            _ => None,
        }
    }

    /// N for an empty list; K before an element and a list.
    fn take_list<'a>(mut letters: &'a [u8], ty: &Type) -> Option<(Value, &'a [u8])> {
        let mut elements = Vec::new();
        while let [b'K', others @ ..] = letters {
            let (element, others) = Value::take(others, ty)?;
            elements.push(Rc::new(element));
            letters = others;
        }
        let others = letters.strip_prefix(b"N")?;
        Some((Value::List(elements), others))
    }
}
