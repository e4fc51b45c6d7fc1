//! The overlap of two P lines: what is asked, what is hit, and the law of the
//! two orders.

use crate::calls::{fit, input, otherwise, short, Calls};
use crate::grid::Grid;
use crate::service::{Answer, Call, Services};
use crate::settings::{GIVEN, HERE, SHORT, THERE};
use crate::tally::{file_number, names, number_rows, Tally, NUMBERS};
use apart::areas::Known;
use apart::generate::draft::Draft;
use apart::generate::idle::pruned;
use apart::generate::random::Random;
use apart::lines::{LISTS, NODES};
use apart::overlap::{clash, compared, laid};
use apart::tree::Pattern;
use apart::Rules;

/// Files of no more P lines are asked for every pair of them, those of more for
/// so many pairs.
const FEW: usize = 6;
const PAIRS: usize = 6;

/// What was hit.
pub struct Grids {
    /// The numbers given to two P lines.
    pub numbers: Grid,
    pub nodes: Grid,
    pub likeness: Grid,
}

impl Default for Grids {
    fn default() -> Grids {
        Grids {
            numbers: numbers(),
            nodes: nodes(),
            likeness: likeness(),
        }
    }
}

impl Grids {
    pub fn add(&mut self, other: &Grids) {
        self.numbers.add(&other.numbers);
        self.nodes.add(&other.nodes);
        self.likeness.add(&other.likeness);
    }

    pub fn all(&self) -> [&Grid; 3] {
        [&self.numbers, &self.nodes, &self.likeness]
    }
}

/// The numbers that a file can be given, and 15.
fn numbers() -> Grid {
    let rows = number_rows();
    let needed =
        |number, column| (file_number(number) || number == 15) && (number, column) != (1, SHORT);
    Grid::new("rulefile_overlap", rows, GIVEN, needed)
}

const KINDS: &[&str] = &[
    "unit", "variable", "left", "right", "pair", "empty", "element",
];

/// Rows and columns: the kinds of the two nodes of a pair that is compared.
fn nodes() -> Grid {
    let kinds = if LISTS { KINDS } else { &KINDS[..5] };
    Grid::new("node pairs compared", names(kinds), kinds, |_, _| true)
}

fn kind(pattern: &Pattern) -> usize {
    match pattern {
        Pattern::Unit => 0,
        Pattern::Variable(_) => 1,
        Pattern::Left(_) => 2,
        Pattern::Right(_) => 3,
        Pattern::Pair(..) => 4,
        Pattern::Empty => 5,
        Pattern::Element(..) => 6,
    }
}

/// Columns of the table of overlaps.
const NO_CLASH: usize = 0;
const CLASH: usize = 1;

/// Rows of the table of overlaps.
const ONE_PAIR: usize = 0;
const OVER_40: usize = 1;
const ALL_127: usize = 2;
const SAME_LINE: usize = 3;
const EXCHANGED: usize = 4;
const LAST_LINE: usize = 5;
const STOPPED: usize = 6;
const SHAPES: usize = 7;
const BELOW_VARIABLE: usize = 8;
const LEFT_ABSENT: usize = 9;
const RIGHT_ABSENT: usize = 10;
const BOTH_ABSENT: usize = 11;
const ABOVE_65535: usize = 12;

/// A line does not clash with itself; what clashes has a node below it, so that
/// the 127th pair does not; only a clash stops a comparison.
fn needed(row: usize, column: usize) -> bool {
    match row {
        ALL_127 | SAME_LINE => column == NO_CLASH,
        STOPPED => column == CLASH,
        LAST_LINE | LEFT_ABSENT..=ABOVE_65535 => column == NO_CLASH,
        _ => true,
    }
}

fn likeness() -> Grid {
    let rows = names(&[
        "1 pair",
        "over 40 pairs",
        "127 pairs",
        "the same line",
        "lines exchanged",
        "P line 1,023",
        "nodes laid behind the clash",
        "other shapes, and more behind",
        "nodes below a variable",
        "left line absent",
        "right line absent",
        "both lines absent",
        "P line above 65,535",
    ]);
    Grid::new("overlap of P lines", rows, &["no clash", "clash"], needed)
}

/// The patterns that a call asks for, where the file has both.
fn asked(rules: &Rules, left: u32, right: u32) -> Option<[&Pattern; 2]> {
    let line = |place: u32| rules.patterns.get(place as usize).map(|line| &**line);
    Some([line(left)?, line(right)?])
}

/// Counts what a call is given, on both sides, and what it is like.
pub fn count(tally: &mut Tally, known: &Known, call: Call, ours: &Answer, theirs: &Answer) {
    let Call::Overlap(left, right) = call else {
        return;
    };
    tally.overlaps.numbers.hit(ours.number as usize, HERE);
    if (theirs.number as usize) < NUMBERS {
        tally.overlaps.numbers.hit(theirs.number as usize, THERE);
    }
    if ours.number == 1 {
        tally.overlaps.numbers.hit(otherwise(known, call), SHORT);
    }
    let (Ok(rules), true) = (&known.checked, matches!(ours.number, 0 | 15)) else {
        return;
    };
    match asked(rules, left, right) {
        Some(patterns) => count_pair(tally, patterns, [left, right], ours),
        None => count_absent(tally, rules, [left, right]),
    }
}

fn count_absent(tally: &mut Tally, rules: &Rules, lines: [u32; 2]) {
    let there = lines.map(|line| (line as usize) < rules.patterns.len());
    let row = match there {
        [false, true] => LEFT_ABSENT,
        [true, false] => RIGHT_ABSENT,
        _ => BOTH_ABSENT,
    };
    tally.overlaps.likeness.hit(row, NO_CLASH);
    if lines.iter().any(|line| *line > 65_535) {
        tally.overlaps.likeness.hit(ABOVE_65535, NO_CLASH);
    }
}

/// What two patterns are like, by the nodes that are compared.
fn count_pair(tally: &mut Tally, [one, two]: [&Pattern; 2], lines: [u32; 2], ours: &Answer) {
    let pairs = compared(one, two);
    for [one, two] in &pairs {
        tally.overlaps.nodes.hit(kind(one), kind(two));
    }
    let column = usize::from(ours.clash);
    let leaf = |node: &Pattern| node.nodes() == 1;
    let variable = |node: &Pattern| matches!(node, Pattern::Variable(_));
    let hidden =
        |[one, two]: &[&Pattern; 2]| (variable(one) && !leaf(two)) || (variable(two) && !leaf(one));
    let shapes = |[one, two]: &[&Pattern; 2]| {
        let other = kind(one) != kind(two);
        other && !variable(one) && !variable(two) && !clash(one, two)
    };
    let behind = pairs.iter().rev().skip(1);
    for (row, is) in [
        (ONE_PAIR, ours.pairs == 1),
        (OVER_40, ours.pairs > 40),
        (ALL_127, ours.pairs == 127),
        (SAME_LINE, lines[0] == lines[1]),
        (LAST_LINE, lines.contains(&1_023)),
        (STOPPED, laid(one, two).len() > pairs.len()),
        (SHAPES, behind.clone().any(shapes)),
        (BELOW_VARIABLE, pairs.iter().any(hidden)),
    ] {
        if is {
            tally.overlaps.likeness.hit(row, column);
        }
    }
}

/// A P line that may be far above all.
fn any_line(random: &mut Random, lines: usize) -> u32 {
    let near = random.below(lines + 1) as u32;
    let above = [near + 1_024, near + 65_536, near + (1 << 31), u32::MAX];
    match random.below(10) {
        0..=5 => near,
        6 => lines as u32,
        _ => *random.pick(&above),
    }
}

/// Pairs of P lines to ask for: all of a few, else some, of which one is of two
/// clauses' patterns, one of the last line and one of a line with itself.
fn pairs(random: &mut Random, rules: &Rules) -> Vec<(u32, u32)> {
    let lines = rules.patterns.len();
    if lines <= FEW {
        let all = 0..lines as u32;
        return all
            .clone()
            .flat_map(|one| all.clone().map(move |two| (one, two)))
            .collect();
    }
    let mut pairs: Vec<(u32, u32)> = (0..PAIRS)
        .map(|_| [0; 2].map(|_| random.below(lines) as u32))
        .map(|[one, two]| (one, two))
        .collect();
    let most = (0..lines).max_by_key(|line| rules.patterns[*line].nodes());
    let most = most.expect("there are lines") as u32;
    let last = lines as u32 - 1;
    pairs[0] = (most, most);
    pairs[1].0 = *random.pick(&[last, most]);
    if let Some(two) = of_clauses(random, rules) {
        pairs[2] = two;
    }
    pairs
}

/// The P lines of two clauses of an iso, of one side.
fn of_clauses(random: &mut Random, rules: &Rules) -> Option<(u32, u32)> {
    let starts = |at: usize| rules.rows[at].letter == b'C';
    let clauses: Vec<usize> = (0..rules.rows.len()).filter(|at| starts(*at)).collect();
    if clauses.is_empty() {
        return None;
    }
    let at = random.below(clauses.len());
    let other = (at + 1).min(clauses.len() - 1);
    let side = random.below(2);
    let [one, two] = [at, other].map(|at| rules.rows[clauses[at]].fields[side]);
    Some((one.into(), two.into()))
}

/// A file whose last two P lines have the same nodes but one: below pairs with
/// trees before and behind it, a left in one and a right in the other. They have
/// up to 127 nodes; in place of one tree the first may have a variable.
fn late_file(random: &mut Random) -> Vec<u8> {
    let mut draft = Draft(Vec::new());
    let (unit, leaf) = (draft.unit(b'T'), draft.unit(b'P'));
    // Trees of 1, 3, 7, 15, 31 and 63 nodes, each with its type.
    let mut trees = vec![(unit, leaf)];
    for below in 0..5 {
        let (ty, tree) = trees[below];
        let ty = draft.add(b'T', [2, ty, ty]);
        trees.push((ty, draft.add(b'P', [4, tree, tree])));
    }
    let variable = draft.add(b'P', [1, 0, 0]);
    let mut whole = draft.add(b'T', [1, unit, unit]);
    let mut ends = [2, 3].map(|kind| draft.add(b'P', [kind, leaf, 0]));
    let (mut nodes, hidden) = (2, random.below(6));
    for step in 0..20 {
        let place = random.below(trees.len());
        if nodes + (2 << place) > NODES {
            continue;
        }
        nodes += 2 << place;
        let behind = random.chance(10);
        let joined = |kind, one, two| {
            if behind {
                [kind, two, one]
            } else {
                [kind, one, two]
            }
        };
        let (ty, tree) = trees[place];
        let first = if step == hidden { variable } else { tree };
        whole = draft.add(b'T', joined(2, ty, whole));
        let both = [(first, ends[0]), (tree, ends[1])];
        ends = both.map(|(tree, end)| draft.add(b'P', joined(4, tree, end)));
    }
    draft.push(b'I', &[whole, whole]);
    for end in ends {
        draft.push(b'C', &[end, end]);
    }
    pruned(&draft.bytes(), LISTS)
}

impl<S: Services> Calls<S> {
    /// Two P lines with a late clash.
    pub fn late_clash(&mut self, random: &mut Random, tally: &mut Tally) {
        let file = late_file(random);
        let known = Known::of(&file);
        let lines = known
            .checked
            .as_ref()
            .map_or(0, |rules| rules.patterns.len());
        let last = lines.saturating_sub(1) as u32;
        self.both_orders(random, tally, &known, last, last.saturating_sub(1));
    }

    /// Pairs of P lines that the file has, others that it has not, and with areas
    /// that are short.
    pub fn overlaps(&mut self, random: &mut Random, tally: &mut Tally, known: &Known) {
        let lines = match &known.checked {
            Ok(rules) => {
                for (left, right) in pairs(random, rules) {
                    self.both_orders(random, tally, known, left, right);
                }
                rules.patterns.len()
            }
            Err(_) => 1,
        };
        let (left, right) = (any_line(random, lines), any_line(random, lines));
        let call = Call::Overlap(left, right);
        let kinds = fit(random);
        self.call(random, tally, known, call, kinds);
        let kinds = short(random, call);
        self.call(random, tally, known, call, kinds);
    }

    /// Two lines that the file has, also exchanged: the answers are the same.
    fn both_orders(
        &mut self,
        random: &mut Random,
        tally: &mut Tally,
        known: &Known,
        left: u32,
        right: u32,
    ) {
        let [one, two] = [(left, right), (right, left)].map(|(left, right)| {
            let kinds = fit(random);
            self.call(random, tally, known, Call::Overlap(left, right), kinds)
        });
        if let Some(what) = broken(&one, &two) {
            let call = Call::Overlap(left, right);
            tally.mismatch(what, input(known.file, call));
        }
        if left != right {
            let column = usize::from(one.clash);
            tally.overlaps.likeness.hit(EXCHANGED, column);
        }
    }
}

/// How two answers for the same lines in either order break the law.
pub fn broken(one: &Answer, two: &Answer) -> Option<String> {
    if one != two {
        return Some(format!("{one:?}, and with the lines exchanged {two:?}"));
    }
    None
}
