//! Request 07, "Pair lists in and out": an iso as lines `from,to` of setting
//! numbers, and a file with one iso from such lines.
//!
//! A number is a place among all settings of a type in byte order, since
//! "numbers of one type rise exactly as the letters do in byte order"; none is
//! reckoned, and none is read from a list: its lines are compared with those
//! that it may have. A tree is its letters in prefix order, and a part of it a
//! piece of these, so that "parts before wholes" is the order in which the
//! pieces end. What the written file passes, Check says.

use crate::areas::Known;
use crate::lines::{split, text, CLAUSES};
use crate::numbering::values;
use crate::recursion::has_lists;
use crate::tree::Type;
use crate::{check, run_rules, Refusal, Rules};
use std::cmp::Reverse;
use std::collections::BTreeMap;

/// "Over 4,096 values is 18".
pub const VALUES: u64 = 4_096;
/// "into an area of 40,960 bytes".
pub const LIST: usize = 40_960;
/// "writes a file with one iso into an area of 65,536 bytes".
pub const FILE: usize = 65_536;

/// What export and import give.
#[derive(Debug, PartialEq, Eq, Clone, Copy)]
pub struct Written {
    pub number: u8,
    pub line: usize,
    pub length: usize,
}

fn refused(number: u8) -> Refusal {
    Refusal { number, line: 0 }
}

/// What stands at a place, 15 where nothing does.
fn named<T>(things: &[T], place: u32) -> Result<&T, Refusal> {
    let place = usize::try_from(place).map_err(|_| refused(15))?;
    things.get(place).ok_or(refused(15))
}

/// 18 where a type has over 4,096 values.
fn few(ty: &Type) -> Result<(), Refusal> {
    (values(ty) <= VALUES).then_some(()).ok_or(refused(18))
}

/// All settings of a type, in byte order.
pub fn settings(ty: &Type) -> Vec<Vec<u8>> {
    let mut all = unsorted(ty);
    all.sort();
    all
}

fn unsorted(ty: &Type) -> Vec<Vec<u8>> {
    match ty {
        Type::Unit => vec![b"U".to_vec()],
        Type::Sum(a, b) => {
            let side = |letter: &'static [u8], part| {
                let under = unsorted(part).into_iter();
                under.map(move |value| [letter, &value].concat())
            };
            side(b"L", a).chain(side(b"R", b)).collect()
        }
        Type::Product(a, b) => {
            let (firsts, seconds) = (unsorted(a), unsorted(b));
            let pair = |one: &Vec<u8>| {
                let with = |two: &Vec<u8>| [b"P", &one[..], two].concat();
                seconds.iter().map(with).collect::<Vec<_>>()
            };
            firsts.iter().flat_map(pair).collect()
        }
        Type::List(_) => unreachable!("a type of few values holds no list"),
    }
}

/// "Export one iso, from 0 upwards, ... with one budget for each pair."
pub fn export_rules(rules: &Rules, iso: u32, budget: u32) -> Result<Vec<u8>, Refusal> {
    let wanted = named(&rules.isos, iso)?;
    few(&wanted.from)?;
    // Request 14: "where ... a type of the iso or of one it calls, holds a list".
    if has_lists(&rules.isos, iso as usize) {
        return Err(refused(18));
    }
    let tos = settings(&wanted.to);
    let mut list = String::new();
    for (from, letters) in settings(&wanted.from).iter().enumerate() {
        let (_, given) = run_rules(rules, iso as u16, false, budget, letters)?;
        let to = tos.binary_search(&given).expect("a setting of the to-type");
        list += &format!("{from},{to}\n");
    }
    Ok(list.into_bytes())
}

/// "Import takes an accepted file's two T lines and a list, and writes a file
/// with one iso".
pub fn import_rules(rules: &Rules, from: u32, to: u32, list: &[u8]) -> Result<Vec<u8>, Refusal> {
    let file = unjudged(rules, from, to, list)?;
    // "another ceiling passed in the writing is 7 at line 0 too, tested last".
    match check(&file) {
        Ok(_) => Ok(file),
        Err(Refusal { number: 2 | 7, .. }) => Err(refused(7)),
        Err(other) => unreachable!("a written file is refused with {other:?}"),
    }
}

/// The file that import writes where no ceiling is passed by it.
pub fn unjudged(rules: &Rules, from: u32, to: u32, list: &[u8]) -> Result<Vec<u8>, Refusal> {
    let (from, to) = (named(&rules.types, from)?, named(&rules.types, to)?);
    few(from).and_then(|()| few(to))?;
    // "Over 32 lines in the list is 7 at line 0, tested after 15 and 18"; request
    // 13: "import takes 128 pairs".
    if split(list).len() > CLAUSES {
        return Err(refused(7));
    }
    let tos = tos(list, [from, to].map(|ty| values(ty))).ok_or(refused(20))?;
    let (lefts, rights) = (settings(from), settings(to));
    let rights: Vec<&[u8]> = tos.iter().map(|to| &rights[*to][..]).collect();
    Ok(written([from, to], &lefts, &rights))
}

/// The tos of a list, in its order. `None` where it is 20: "when a line is of
/// another form, the froms are not 0, 1, 2 and so on up to the counts of both
/// types, or a to is repeated or too high". So line k has to be `k,` and one of
/// the numbers below the count, written as the file's numbers are.
fn tos(list: &[u8], counts: [u64; 2]) -> Option<Vec<usize>> {
    let lines = split(list);
    if counts != [lines.len() as u64; 2] {
        return None;
    }
    let mut free: Vec<_> = (0..lines.len()).map(|to| Some(to.to_string())).collect();
    let mut tos = Vec::new();
    for (from, line) in lines.into_iter().enumerate() {
        let to = text(line)?.strip_prefix(format!("{from},").as_bytes())?;
        let is = |numeral: &Option<String>| numeral.as_deref().map(str::as_bytes) == Some(to);
        let place = free.iter().position(is)?;
        free[place] = None;
        tos.push(place);
    }
    Some(tos)
}

/// The file of an iso with one clause for each pair of settings: "T lines for
/// from-type then to-type, P lines clause by clause, left before right".
fn written(types: [&Type; 2], lefts: &[Vec<u8>], rights: &[&[u8]]) -> Vec<u8> {
    let mut trees = Lines::new('T');
    let [from, to] = types.map(|ty| trees.enter(&letters(ty)));
    let mut values = Lines::new('P');
    let mut iso = format!("I,{from},{to}\n");
    for (left, right) in lefts.iter().zip(rights) {
        let left = values.enter(left);
        let right = values.enter(right);
        iso += &format!("C,{left},{right}\n");
    }
    (trees.text + &values.text + &iso).into_bytes()
}

/// A type's letters in prefix order: U, + before both parts of a sum, * before
/// those of a product.
fn letters(ty: &Type) -> Vec<u8> {
    match ty {
        Type::Unit => b"U".to_vec(),
        Type::Sum(a, b) => [b"+".to_vec(), letters(a), letters(b)].concat(),
        Type::Product(a, b) => [b"*".to_vec(), letters(a), letters(b)].concat(),
        Type::List(_) => unreachable!("a type of few values holds no list"),
    }
}

/// The kind of a T or P line, and how many lines it names, by the letter.
fn form(letter: u8) -> (usize, usize) {
    match letter {
        b'U' => (0, 0),
        b'+' => (1, 2),
        b'*' => (2, 2),
        b'L' => (2, 1),
        b'R' => (3, 1),
        _ => (4, 2),
    }
}

/// Where the tree that begins at a place ends.
fn end(letters: &[u8], start: usize) -> usize {
    let mut due = 1;
    let mut place = start;
    while due > 0 {
        due += form(letters[place]).1;
        due -= 1;
        place += 1;
    }
    place
}

/// The trees in a tree: "first part before second, parts before wholes".
fn pieces(letters: &[u8]) -> Vec<&[u8]> {
    let piece = |start| (end(letters, start), Reverse(start));
    let mut pieces: Vec<_> = (0..letters.len()).map(piece).collect();
    pieces.sort_unstable();
    let cut = |(end, Reverse(start)): (usize, Reverse<usize>)| &letters[start..end];
    pieces.into_iter().map(cut).collect()
}

/// The lines of one letter, and the number of the line of each tree.
struct Lines {
    letter: char,
    text: String,
    numbers: BTreeMap<Vec<u8>, usize>,
}

impl Lines {
    fn new(letter: char) -> Lines {
        Lines {
            letter,
            text: String::new(),
            numbers: BTreeMap::new(),
        }
    }

    /// Writes the lines of a tree, "no equal line twice": equal trees have equal
    /// lines, since they name the same ones. Gives the number of the whole.
    fn enter(&mut self, letters: &[u8]) -> usize {
        for piece in pieces(letters) {
            if !self.numbers.contains_key(piece) {
                self.write(piece);
            }
        }
        self.numbers[letters]
    }

    fn write(&mut self, piece: &[u8]) {
        let (kind, parts) = form(piece[0]);
        let mut names = [0; 2];
        let mut place = 1;
        for name in names.iter_mut().take(parts) {
            let behind = end(piece, place);
            *name = self.numbers[&piece[place..behind]];
            place = behind;
        }
        let [a, b] = names;
        self.text += &format!("{},{kind},{a},{b}\n", self.letter);
        self.numbers.insert(piece.to_vec(), self.numbers.len());
    }
}

/// What is put into the output: nothing on refusal.
fn answer(given: Result<Vec<u8>, Refusal>, output: &mut [u8]) -> Written {
    match given {
        Ok(bytes) => {
            output[..bytes.len()].copy_from_slice(&bytes);
            Written {
                number: 0,
                line: 0,
                length: bytes.len(),
            }
        }
        Err(Refusal { number, line }) => Written {
            number,
            line,
            length: 0,
        },
    }
}

/// Export with lent areas.
pub fn export(
    known: &Known,
    table: &mut [u16],
    work: &mut [u8],
    (iso, budget): (u32, u32),
    output: &mut [u8],
) -> Written {
    let entered = known.enter(output.len() < LIST, table, work);
    answer(
        entered.and_then(|rules| export_rules(rules, iso, budget)),
        output,
    )
}

/// Import with lent areas.
pub fn import(
    known: &Known,
    table: &mut [u16],
    work: &mut [u8],
    (from, to, list): (u32, u32, &[u8]),
    output: &mut [u8],
) -> Written {
    let entered = known.enter(output.len() < FILE, table, work);
    answer(
        entered.and_then(|rules| import_rules(rules, from, to, list)),
        output,
    )
}
