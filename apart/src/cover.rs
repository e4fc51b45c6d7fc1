//! What an iso must satisfy: refusals 11 to 14.

use crate::lines::Iso;
use crate::tree::{Pattern, Type};

/// "then the iso, lowest of 11 to 14": `None` when the iso stands.
pub fn fault(iso: &Iso) -> Option<u8> {
    let lefts: Vec<&Pattern> = iso.clauses.iter().map(|clause| &*clause.left).collect();
    let rights: Vec<&Pattern> = iso.clauses.iter().map(|clause| &*clause.right).collect();
    if !all_orthogonal(&lefts) {
        Some(11)
    } else if !all_orthogonal(&rights) {
        Some(12)
    } else if !covers(&iso.from, &lefts) {
        Some(13)
    } else if !covers(&iso.to, &rights) {
        Some(14)
    } else {
        None
    }
}

/// 11 and 12: "two left patterns are not orthogonal"; "the same, right
/// patterns".
fn all_orthogonal(patterns: &[&Pattern]) -> bool {
    patterns
        .iter()
        .enumerate()
        .all(|(place, one)| patterns[..place].iter().all(|two| orthogonal(one, two)))
}

/// "Orthogonality is that of section 2.2": left against right, below the same
/// side, or in some part of two pairs. Request 14: "empty against an element
/// clashes like left against right".
pub fn orthogonal(one: &Pattern, two: &Pattern) -> bool {
    match (one, two) {
        (Pattern::Left(_), Pattern::Right(_)) | (Pattern::Right(_), Pattern::Left(_)) => true,
        (Pattern::Empty, Pattern::Element(..)) | (Pattern::Element(..), Pattern::Empty) => true,
        (Pattern::Left(a), Pattern::Left(b)) | (Pattern::Right(a), Pattern::Right(b)) => {
            orthogonal(a, b)
        }
        (Pattern::Pair(a, b), Pattern::Pair(c, d))
        | (Pattern::Element(a, b), Pattern::Element(c, d)) => orthogonal(a, c) || orthogonal(b, d),
        _ => false,
    }
}

/// 13 and 14: "every closed value of the type is matched by some pattern of
/// that side", for patterns that fit the type and hold no variable twice.
pub fn covers(ty: &Type, patterns: &[&Pattern]) -> bool {
    let rows = patterns.iter().map(|pattern| vec![Some(*pattern)]);
    case_covered(vec![ty], rows.collect())
}

/// A cell is the pattern that a part of the value still has to match; `None`
/// where every value matches.
pub(crate) type Cell<'a> = Option<&'a Pattern>;

/// What a value has at its root.
#[derive(Debug, PartialEq, Eq, Clone, Copy)]
pub(crate) enum Root {
    Unit,
    Left,
    Right,
    Pair,
    Empty,
    Element,
}

/// What values of a type can have at their roots, each with the types of the
/// parts below it.
pub(crate) fn roots(ty: &Type) -> Vec<(Root, Vec<&Type>)> {
    match ty {
        Type::Unit => vec![(Root::Unit, Vec::new())],
        Type::Sum(a, b) => vec![(Root::Left, vec![a]), (Root::Right, vec![b])],
        Type::Product(a, b) => vec![(Root::Pair, vec![a, b])],
        Type::List(a) => vec![(Root::Element, vec![a, ty]), (Root::Empty, Vec::new())],
    }
}

/// One case of the split type: the parts of the value not yet looked into,
/// with their types, and for each pattern still possible its cells for these
/// parts. True when each choice of values for the parts matches some row.
///
/// Each call takes a node off the leading row and none is put in, so that the
/// calls come to an end. The row with the fewest left and right nodes leads, and
/// those of lists with them: in a covered case of n orthogonal rows it has at
/// most log2(n) of them, so few cases are opened before a row covers or no row
/// fits.
fn case_covered(types: Vec<&Type>, rows: Vec<Vec<Cell>>) -> bool {
    let Some(lead) = rows.iter().min_by_key(|row| row_sides(row)) else {
        // No row fits, and every type has a closed value: a gap.
        return false;
    };
    if row_sides(lead) == 0 {
        // A row without left and right matches every value of this case.
        return true;
    }
    let column = best_column(lead, &rows);
    let roots = roots(types[column]).into_iter();
    let mut cases: Vec<_> = roots
        .map(|root| case(&types, &rows, column, root))
        .collect();
    cases.sort_by_key(|case| case.1.len());
    cases
        .into_iter()
        .all(|(types, rows)| case_covered(types, rows))
}

fn row_sides(row: &[Cell]) -> usize {
    row.iter().flatten().map(|pattern| pattern.sides()).sum()
}

/// A column where the leading row still has left or right nodes, the one that
/// the most rows look into.
fn best_column(lead: &[Cell], rows: &[Vec<Cell>]) -> usize {
    let looked = |column: usize| {
        rows.iter()
            .filter(|row| row[column].is_some_and(|pattern| pattern.sides() > 0))
            .count()
    };
    (0..lead.len())
        .filter(|column| lead[*column].is_some_and(|pattern| pattern.sides() > 0))
        .max_by_key(|column| looked(*column))
        .expect("the leading row has a left or right node")
}

/// The case that comes of looking into one column: the values that have this at
/// their roots there.
fn case<'a>(
    types: &[&'a Type],
    rows: &[Vec<Cell<'a>>],
    column: usize,
    (root, parts): (Root, Vec<&'a Type>),
) -> (Vec<&'a Type>, Vec<Vec<Cell<'a>>>) {
    let replace = |row: &Vec<Cell<'a>>| {
        let cells = opened(row[column], root, parts.len())?;
        Some([&row[..column], &cells, &row[column + 1..]].concat())
    };
    let rows = rows.iter().filter_map(replace).collect();
    let types = [&types[..column], &parts, &types[column + 1..]].concat();
    (types, rows)
}

/// What one cell becomes when its column is looked into; `None` when the cell
/// has something else at its root.
pub(crate) fn opened(cell: Cell<'_>, root: Root, parts: usize) -> Option<Vec<Cell<'_>>> {
    let (own, below) = match cell {
        None | Some(Pattern::Variable(_)) => return Some(vec![None; parts]),
        Some(Pattern::Unit) => (Root::Unit, Vec::new()),
        Some(Pattern::Left(a)) => (Root::Left, vec![&**a]),
        Some(Pattern::Right(a)) => (Root::Right, vec![&**a]),
        Some(Pattern::Pair(a, b)) => (Root::Pair, vec![&**a, &**b]),
        Some(Pattern::Empty) => (Root::Empty, Vec::new()),
        Some(Pattern::Element(a, b)) => (Root::Element, vec![&**a, &**b]),
    };
    (own == root).then(|| below.into_iter().map(Some).collect())
}
