//! The lines of the file: refusals 2 to 7, and the trees they stand for.

use crate::tree::{Pattern, Type};
use crate::Refusal;
use std::rc::Rc;

/// "Ceilings: 65,536 bytes; 4,096 lines; 256 T; 1,024 P; 32 I; 32 C in an iso; 8
/// L in a clause; 127 nodes in an unfolded T or P; 40 left and right nodes in an
/// unfolded P." Request 13: "128 clauses an iso instead of 32".
pub const BYTES: usize = 65_536;
pub const LINES: usize = 4_096;
pub const TYPES: usize = 256;
pub const PATTERNS: usize = 1_024;
pub const ISOS: usize = 32;
pub const CLAUSES: usize = 128;
pub const LETS: usize = 8;
pub const NODES: usize = 127;
pub const SIDES: usize = 40;

/// Whether the lines of request 14 are taken: T kind 3, P kinds 5 and 6, and an
/// L line that names its own iso.
pub const LISTS: bool = true;

/// "Five line forms exist": the letter and the number of fields after it.
pub const FORMS: [(u8, usize); 5] = [(b'T', 3), (b'P', 3), (b'I', 2), (b'C', 2), (b'L', 3)];

/// One line: the letter and its fields, "padded with 0".
#[derive(Debug, PartialEq, Eq, Clone, Copy)]
pub struct Row {
    pub letter: u8,
    pub fields: [u16; 3],
}

/// "p, i, q: a let step of the clause above, p = iso i applied to q".
#[derive(Debug, PartialEq, Eq, Clone)]
pub struct Let {
    pub p: Rc<Pattern>,
    pub iso: usize,
    pub q: Rc<Pattern>,
}

/// "left pattern, right pattern: a clause of the iso above".
#[derive(Debug, PartialEq, Eq, Clone)]
pub struct Clause {
    pub line: usize,
    pub left: Rc<Pattern>,
    pub right: Rc<Pattern>,
    pub lets: Vec<Let>,
}

/// "from-type, to-type: starts an iso".
#[derive(Debug, PartialEq, Eq, Clone)]
pub struct Iso {
    pub line: usize,
    pub from: Rc<Type>,
    pub to: Rc<Type>,
    pub clauses: Vec<Clause>,
}

/// What the lines read so far have given.
#[derive(Default)]
pub struct Reader {
    /// Whether it takes the lines of request 14.
    lists: bool,
    pub rows: Vec<Row>,
    pub types: Vec<Rc<Type>>,
    pub patterns: Vec<Rc<Pattern>>,
    pub isos: Vec<Iso>,
}

/// "Every line ends in one line feed (byte 10)"; "a last line without a line
/// feed counts as a line". Each piece keeps its line feed.
pub fn split(file: &[u8]) -> Vec<&[u8]> {
    file.split_inclusive(|byte| *byte == b'\n').collect()
}

/// Request 06: "lines with carriage return and line feed (bytes 13, 10). The
/// line reader takes either ending on each line". What stands before the ending.
pub fn text(line: &[u8]) -> Option<&[u8]> {
    let fed = line.strip_suffix(b"\n")?;
    Some(fed.strip_suffix(b"\r").unwrap_or(fed))
}

/// "Order: 1, then 2. Then all lines from the first, on each the lowest of 3
/// to 7."
pub fn read(file: &[u8]) -> Result<Reader, Refusal> {
    read_with(file, LISTS)
}

/// The same, with the lines of request 14 or without them.
pub fn read_with(file: &[u8], lists: bool) -> Result<Reader, Refusal> {
    let lines = split(file);
    // 2: "over 65,536 bytes or 4,096 lines", line 0.
    if file.len() > BYTES || lines.len() > LINES {
        return Err(Refusal { number: 2, line: 0 });
    }
    let mut reader = Reader {
        lists,
        ..Reader::default()
    };
    for (above, bytes) in lines.iter().enumerate() {
        let line = above + 1;
        reader
            .take(bytes, line)
            .map_err(|number| Refusal { number, line })?;
    }
    Ok(reader)
}

/// "decimal numbers 0 to 65,535 without leading zeros", the highest one given.
pub fn numeral(digits: &[u8], highest: u64) -> Option<u64> {
    if digits.is_empty() || digits.len() > 10 || !digits.iter().all(u8::is_ascii_digit) {
        return None;
    }
    if digits.len() > 1 && digits[0] == b'0' {
        return None;
    }
    let number = digits
        .iter()
        .fold(0, |sum, digit| sum * 10 + u64::from(digit - b'0'));
    (number <= highest).then_some(number)
}

/// 3: "not one of the five forms, or no line feed at the end" gives `None`.
/// "Its first field is a letter; ... commas part them; there is no quoting and
/// no blank."
pub fn parse(line: &[u8]) -> Option<Row> {
    let mut parts = text(line)?.split(|byte| *byte == b',');
    let letter = match parts.next() {
        Some([letter]) => *letter,
        _ => return None,
    };
    let (_, wanted) = FORMS.iter().find(|form| form.0 == letter)?;
    let parts: Vec<&[u8]> = parts.collect();
    if parts.len() != *wanted {
        return None;
    }
    let mut fields = [0; 3];
    for (field, part) in fields.iter_mut().zip(parts) {
        *field = numeral(part, 65_535)? as u16;
    }
    Some(Row { letter, fields })
}

/// 5: "kind not listed, idle field not 0, variable above 31". Request 14: "T
/// kind 3 (a the element, b 0), P kinds 5 empty (a = b = 0) and 6".
fn bad_field(row: &Row, lists: bool) -> bool {
    let [kind, a, b] = row.fields;
    match (row.letter, kind) {
        (b'T', 0) => a != 0 || b != 0,
        (b'T', 3) if lists => b != 0,
        (b'P', 5) if lists => a != 0 || b != 0,
        (b'P', 6) if lists => false,
        (b'T', kind) => kind > 2,
        (b'P', 0) => a != 0 || b != 0,
        (b'P', 1) => a > 31 || b != 0,
        (b'P', 2) | (b'P', 3) => b != 0,
        (b'P', kind) => kind > 4,
        _ => false,
    }
}

impl Reader {
    /// The lowest of 3 to 7 of one line, or the line entered.
    fn take(&mut self, bytes: &[u8], line: usize) -> Result<(), u8> {
        let row = parse(bytes).ok_or(3)?;
        if self.misplaced(row.letter) {
            return Err(4);
        }
        if bad_field(&row, self.lists) {
            return Err(5);
        }
        if self.bad_name(&row) {
            return Err(6);
        }
        self.enter(row, line).ok_or(7)
    }

    /// 4: "a line against the stated order". "All T lines come first, then all
    /// P lines, then the isos, each an I line, its C lines, and under each C
    /// line its L lines in order."
    fn misplaced(&self, letter: u8) -> bool {
        let above = |letters: &[u8]| self.rows.iter().any(|row| letters.contains(&row.letter));
        match letter {
            b'T' => above(b"PICL"),
            b'P' => above(b"ICL"),
            b'C' => !above(b"I"),
            b'L' => !matches!(self.rows.last(), Some(row) if b"CL".contains(&row.letter)),
            _ => false,
        }
    }

    /// 6: "a named T, P or I line does not stand earlier in the file, or an L
    /// line names its own iso". "T, P and I lines are each numbered from 0".
    fn bad_name(&self, row: &Row) -> bool {
        let [x, y, z] = row.fields.map(usize::from);
        let types = self.types.len();
        let patterns = self.patterns.len();
        match (row.letter, x) {
            // "A T or P line names only earlier lines of its own letter."
            (b'T', 1) | (b'T', 2) => y >= types || z >= types,
            (b'T', 3) => y >= types,
            (b'P', 2) | (b'P', 3) => y >= patterns,
            (b'P', 4) | (b'P', 6) => y >= patterns || z >= patterns,
            (b'I', _) => x >= types || y >= types,
            (b'C', _) => x >= patterns || y >= patterns,
            // "An L line names an iso earlier than its own"; request 14: "An L
            // line may name its own iso".
            (b'L', _) => {
                let named = self.isos.len() - usize::from(!self.lists);
                x >= patterns || z >= patterns || y >= named
            }
            _ => false,
        }
    }

    /// Enters a line that has passed 3 to 6; `None` is 7: "any other ceiling
    /// passed".
    fn enter(&mut self, row: Row, line: usize) -> Option<()> {
        match row.letter {
            b'T' => self.enter_type(row.fields)?,
            b'P' => self.enter_pattern(row.fields)?,
            b'I' => self.enter_iso(row.fields, line)?,
            b'C' => self.enter_clause(row.fields, line)?,
            _ => self.enter_let(row.fields)?,
        }
        self.rows.push(row);
        Some(())
    }

    /// "256 T", "127 nodes in an unfolded T or P".
    fn enter_type(&mut self, [kind, a, b]: [u16; 3]) -> Option<()> {
        let part = |name: u16| Rc::clone(&self.types[usize::from(name)]);
        let ty = match kind {
            0 => Type::Unit,
            1 => Type::Sum(part(a), part(b)),
            2 => Type::Product(part(a), part(b)),
            _ => Type::List(part(a)),
        };
        if self.types.len() == TYPES || ty.nodes() > NODES {
            return None;
        }
        self.types.push(Rc::new(ty));
        Some(())
    }

    /// "1,024 P", "127 nodes in an unfolded T or P; 40 left and right nodes in
    /// an unfolded P".
    fn enter_pattern(&mut self, [kind, a, b]: [u16; 3]) -> Option<()> {
        let part = |name: u16| Rc::clone(&self.patterns[usize::from(name)]);
        let pattern = match kind {
            0 => Pattern::Unit,
            1 => Pattern::Variable(a),
            2 => Pattern::Left(part(a)),
            3 => Pattern::Right(part(a)),
            4 => Pattern::Pair(part(a), part(b)),
            5 => Pattern::Empty,
            _ => Pattern::Element(part(a), part(b)),
        };
        if self.patterns.len() == PATTERNS || pattern.nodes() > NODES || pattern.sides() > SIDES {
            return None;
        }
        self.patterns.push(Rc::new(pattern));
        Some(())
    }

    /// "32 I".
    fn enter_iso(&mut self, [from, to, _]: [u16; 3], line: usize) -> Option<()> {
        if self.isos.len() == ISOS {
            return None;
        }
        self.isos.push(Iso {
            line,
            from: Rc::clone(&self.types[usize::from(from)]),
            to: Rc::clone(&self.types[usize::from(to)]),
            clauses: Vec::new(),
        });
        Some(())
    }

    /// Request 13: "128 clauses an iso instead of 32".
    fn enter_clause(&mut self, [left, right, _]: [u16; 3], line: usize) -> Option<()> {
        let iso = self.isos.last_mut()?;
        if iso.clauses.len() == CLAUSES {
            return None;
        }
        iso.clauses.push(Clause {
            line,
            left: Rc::clone(&self.patterns[usize::from(left)]),
            right: Rc::clone(&self.patterns[usize::from(right)]),
            lets: Vec::new(),
        });
        Some(())
    }

    /// "8 L in a clause".
    fn enter_let(&mut self, [p, iso, q]: [u16; 3]) -> Option<()> {
        let clause = self.isos.last_mut()?.clauses.last_mut()?;
        if clause.lets.len() == LETS {
            return None;
        }
        clause.lets.push(Let {
            p: Rc::clone(&self.patterns[usize::from(p)]),
            iso: usize::from(iso),
            q: Rc::clone(&self.patterns[usize::from(q)]),
        });
        Some(())
    }
}
