//! Files that cost Check much, each in its own way, within every ceiling.

use crate::call::Call;
use crate::draft::{Draft, LEFT, PAIR, PRODUCT, RIGHT, SUM, VARIABLE};
use std::collections::BTreeMap;

const LINES: usize = 4_096;
const NODES: usize = 127;
const ISOS: usize = 32;
/// The most clauses of an iso before request 13.
const FEW: usize = 32;

pub struct Candidate {
    pub label: &'static str,
    pub call: fn() -> Call,
}

impl Candidate {
    /// Whether an iso has more clauses than request 13 found.
    pub fn has_many_clauses(&self) -> bool {
        let call = (self.call)();
        most_clauses(call.file()) > FEW
    }
}

/// The clauses of the iso that has most.
fn most_clauses(file: &[u8]) -> usize {
    let mut most = 0;
    let mut here = 0;
    for line in file.split(|byte| *byte == b'\n') {
        match line.first() {
            Some(b'I') => here = 0,
            Some(b'C') => here += 1,
            _ => (),
        }
        most = most.max(here);
    }
    most
}

/// All have as many isos as the lines allow, up to 32. In a late clash, the clauses of an iso differ only in the last
/// nodes of patterns that fill a type of 127 nodes. The let steps, as many as there is room for, have patterns of 127
/// nodes. Where no number of clauses is named, an iso has 32; where no shape is named, trees are deep to the left.
pub const CANDIDATES: [Candidate; 31] = [
    Candidate {
        label: "late clash, even trees",
        call: || {
            Call::check(late(Late {
                steps: false,
                ..EVEN
            }))
        },
    },
    Candidate {
        label: "late clash and let steps, even trees",
        call: || Call::check(late(EVEN)),
    },
    Candidate {
        label: "late clash and let steps, trees deep to the left",
        call: || Call::check(late(DEEP)),
    },
    Candidate {
        label: "late clash and let steps, trees deep to the right",
        call: || {
            Call::check(late(Late {
                shape: Shape::Rightward,
                ..EVEN
            }))
        },
    },
    Candidate {
        label: "late clash and let steps, trees deep to both sides",
        call: || {
            Call::check(late(Late {
                shape: Shape::Zigzag,
                ..EVEN
            }))
        },
    },
    Candidate {
        label: "late clash and let steps, P lines of each clause's own",
        call: || {
            Call::check(late(Late {
                shape: Shape::Triples,
                own: true,
                ..EVEN
            }))
        },
    },
    Candidate {
        label: "late clash and let steps, 1,024 P lines",
        call: || {
            Call::check(late(Late {
                patterns: 1_024,
                ..DEEP
            }))
        },
    },
    Candidate {
        label: "late clash and more let steps, 16 clauses an iso",
        call: || Call::check(late(Late { bits: 4, ..DEEP })),
    },
    Candidate {
        label: "let steps over variables of 107 nodes",
        call: || Call::check(threaded(5)),
    },
    Candidate {
        label: "clash in a nested sum, and let steps",
        call: || Call::check(nested(0, true)),
    },
    Candidate {
        label: "late clash and let steps, refused at the last iso",
        call: || refused(late(DEEP)),
    },
    Candidate {
        label: "let steps over trees around a variable",
        call: || Call::check(around(5)),
    },
    Candidate {
        label: "let steps over trees around a variable, 16 clauses an iso",
        call: || Call::check(around(4)),
    },
    Candidate {
        label: "late clash, 128 clauses",
        call: || {
            Call::check(late(Late {
                steps: false,
                ..MANY
            }))
        },
    },
    Candidate {
        label: "late clash and let steps, 128 clauses",
        call: || Call::check(late(MANY)),
    },
    Candidate {
        label: "late clash and let steps, 128 clauses, even trees",
        call: || {
            Call::check(late(Late {
                shape: Shape::Even,
                ..MANY
            }))
        },
    },
    Candidate {
        label: "late clash and let steps, 128 clauses, 1,024 P lines",
        call: || {
            Call::check(late(Late {
                patterns: 1_024,
                ..MANY
            }))
        },
    },
    Candidate {
        label: "clash in a nested sum behind two bits, 128 clauses",
        call: || Call::check(nested(2, false)),
    },
    Candidate {
        label: "clash in a nested sum behind two bits, and let steps, 128 clauses",
        call: || Call::check(nested(2, true)),
    },
    Candidate {
        label: "let steps over variables of 99 nodes, 128 clauses",
        call: || Call::check(threaded(7)),
    },
    Candidate {
        label: "let steps over trees around a variable, 128 clauses",
        call: || Call::check(around(7)),
    },
    Candidate {
        label: "late clash and let steps, 128 clauses, refused at the last iso",
        call: || refused(late(MANY)),
    },
    Candidate {
        label: "let steps over trees around a variable, two T lines by turns",
        call: || Call::check(turned(Turned { types: 2, ..AROUND })),
    },
    Candidate {
        label: "let steps over trees around a variable, 16 T lines by turns",
        call: || {
            Call::check(turned(Turned {
                types: 16,
                ..AROUND
            }))
        },
    },
    Candidate {
        label: "let steps over trees around 32 variables",
        call: || {
            Call::check(turned(Turned {
                variables: 32,
                ..AROUND
            }))
        },
    },
    Candidate {
        label: "let steps over 800 trees around a variable",
        call: || {
            Call::check(turned(Turned {
                lines: 800,
                ..AROUND
            }))
        },
    },
    Candidate {
        label: "let steps over 128 trees around a variable, 16 T lines by turns",
        call: || {
            Call::check(turned(Turned {
                types: 16,
                lines: 128,
                ..AROUND
            }))
        },
    },
    Candidate {
        label: "let steps over trees around 32 variables, 128 clauses",
        call: || {
            Call::check(turned(Turned {
                bits: 7,
                variables: 32,
                ..AROUND
            }))
        },
    },
    Candidate {
        label: "let steps over 132 trees around a variable, a T line for each iso",
        call: || {
            Call::check(crossed(Crossed {
                types: 12,
                variables: 1,
                free: 12,
            }))
        },
    },
    Candidate {
        label: "let steps over 420 trees around a variable, a T line for each iso",
        call: || {
            Call::check(crossed(Crossed {
                types: 11,
                variables: 1,
                free: 21,
            }))
        },
    },
    Candidate {
        label: "let steps over 132 trees around 17 variables, a T line for each iso",
        call: || {
            Call::check(crossed(Crossed {
                types: 12,
                variables: 17,
                free: 12,
            }))
        },
    },
];

/// How a tree of units is put together: parts of about the same size, or one small part at each node.
#[derive(Clone, Copy)]
enum Shape {
    Even,
    Leftward,
    Rightward,
    Zigzag,
    Triples,
}

impl Shape {
    /// The nodes of the left part of a tree.
    fn left(self, nodes: usize) -> usize {
        match self {
            Shape::Leftward => nodes - 2,
            Shape::Rightward => 1,
            Shape::Zigzag if nodes % 4 == 3 => nodes - 2,
            Shape::Zigzag => 1,
            Shape::Triples if nodes > 4 => nodes - 4,
            // both parts have to be odd
            Shape::Even | Shape::Triples => (nodes / 2 - 1) | 1,
        }
    }

    /// A tree of units with an odd number of nodes; `node` enters a unit or a node above two parts.
    fn tree(self, nodes: usize, node: &mut impl FnMut(Option<(usize, usize)>) -> usize) -> usize {
        if nodes == 1 {
            return node(None);
        }
        let left = self.left(nodes);
        let one = self.tree(left, node);
        let two = self.tree(nodes - 1 - left, node);
        node(Some((one, two)))
    }

    fn of_types(self, draft: &mut Draft, nodes: usize) -> usize {
        self.tree(nodes, &mut |parts| match parts {
            None => draft.type_of(0, 0, 0),
            Some((a, b)) => draft.type_of(PRODUCT, a, b),
        })
    }

    fn of_patterns(self, draft: &mut Draft, nodes: usize) -> usize {
        self.tree(nodes, &mut |parts| match parts {
            None => draft.pattern(0, 0, 0),
            Some((a, b)) => draft.pattern(PAIR, a, b),
        })
    }

    /// The same with another line for the whole.
    fn of_pattern_again(self, draft: &mut Draft, nodes: usize) -> usize {
        let left = self.left(nodes);
        let [one, two] = [left, nodes - 1 - left].map(|part| self.of_patterns(draft, part));
        draft.new_pattern(PAIR, one, two)
    }

    /// The same of P lines that no other tree has.
    fn of_own_patterns(self, draft: &mut Draft, nodes: usize) -> usize {
        let mut known = BTreeMap::new();
        self.tree(nodes, &mut |parts| {
            *known.entry(parts).or_insert_with(|| match parts {
                None => draft.new_pattern(0, 0, 0),
                Some((a, b)) => draft.new_pattern(PAIR, a, b),
            })
        })
    }
}

/// A file whose clauses part late: a tree of units in front of some bits.
#[derive(Clone, Copy)]
struct Late {
    shape: Shape,
    /// Bits behind the tree; an iso has 2^bits clauses.
    bits: usize,
    /// Whether let steps fill the file, on an iso of 127 units and products.
    steps: bool,
    /// Whether each clause has P lines of its own.
    own: bool,
    /// P lines at least.
    patterns: usize,
}

const EVEN: Late = Late {
    shape: Shape::Even,
    bits: 5,
    steps: true,
    own: false,
    patterns: 0,
};

const DEEP: Late = Late {
    shape: Shape::Leftward,
    ..EVEN
};

/// 128 clauses, with room for about as many let steps.
const MANY: Late = Late { bits: 7, ..DEEP };

fn late(plan: Late) -> Vec<u8> {
    let mut draft = Draft::default();
    let (front, back) = front_and_bits(&mut draft, plan.bits, plan.shape);
    let all = draft.type_of(PRODUCT, front, back);
    let mut named = Named::default();
    if plan.steps {
        let units = plan.shape.of_types(&mut draft, NODES);
        let tree = plan.shape.of_patterns(&mut draft, NODES);
        named = Named::new(units, tree);
    }
    let sides = late_sides(&mut draft, plan);
    while draft.patterns() < plan.patterns {
        let line = plan.shape.of_pattern_again(&mut draft, NODES);
        named.lines.push(line);
    }
    named.start(&mut draft);
    let least = usize::from(plan.steps);
    fill(
        &mut draft,
        all,
        sides.len(),
        least,
        |draft, place, steps| {
            draft.clause(sides[place], sides[place]);
            named.steps(draft, least * steps);
        },
    );
    draft.into_bytes()
}

/// P lines of one type for let steps, which name them by turns and call the first iso.
#[derive(Default)]
struct Named {
    ty: usize,
    lines: Vec<usize>,
    next: usize,
}

impl Named {
    fn new(ty: usize, line: usize) -> Self {
        let (lines, next) = (vec![line], 0);
        Named { ty, lines, next }
    }

    /// The first iso, where there are any.
    fn start(&self, draft: &mut Draft) {
        if let Some(line) = self.lines.first() {
            draft.iso(self.ty, self.ty);
            draft.clause(*line, *line);
        }
    }

    fn next(&mut self) -> usize {
        self.next += 1;
        self.lines[self.next % self.lines.len()]
    }

    fn steps(&mut self, draft: &mut Draft, count: usize) {
        for _ in 0..count {
            let (p, q) = (self.next(), self.next());
            draft.step(p, 0, q);
        }
    }
}

/// The sides of the clauses.
fn late_sides(draft: &mut Draft, plan: Late) -> Vec<usize> {
    let mut sides = Vec::new();
    let nodes = front_nodes(plan.bits);
    for bits in bit_patterns(draft, plan.bits) {
        let front = match plan.own {
            true => plan.shape.of_own_patterns(draft, nodes),
            false => plan.shape.of_patterns(draft, nodes),
        };
        sides.push(draft.pattern(PAIR, front, bits));
    }
    sides
}

/// What is left of 127 nodes for the tree, beside the bits and the product above both.
fn front_nodes(bits: usize) -> usize {
    NODES - 4 * bits
}

/// The types of the tree and of the bits.
fn front_and_bits(draft: &mut Draft, bits: usize, shape: Shape) -> (usize, usize) {
    let back = bit_types(draft, bits);
    (shape.of_types(draft, front_nodes(bits)), back)
}

fn bit_types(draft: &mut Draft, bits: usize) -> usize {
    let unit = draft.type_of(0, 0, 0);
    let bit = draft.type_of(SUM, unit, unit);
    (1..bits).fold(bit, |back, _| draft.type_of(PRODUCT, bit, back))
}

/// The 2^bits closed patterns of the bits.
fn bit_patterns(draft: &mut Draft, bits: usize) -> Vec<usize> {
    let unit = draft.pattern(0, 0, 0);
    let ends = [draft.pattern(LEFT, unit, 0), draft.pattern(RIGHT, unit, 0)];
    let mut all = ends.to_vec();
    for _ in 1..bits {
        let mut more = Vec::new();
        for end in ends {
            more.extend(all.iter().map(|back| draft.pattern(PAIR, end, *back)));
        }
        all = more;
    }
    all
}

/// The isos up to the 32nd, or as many as there are lines for with `least` let steps a clause; each has as many let
/// steps as fill the file. `clause` writes the clause at a place with a number of let steps.
fn fill(
    draft: &mut Draft,
    ty: usize,
    clauses: usize,
    least: usize,
    mut clause: impl FnMut(&mut Draft, usize, usize),
) {
    let room = LINES - draft.lines();
    let isos = (room / (1 + clauses * (1 + least))).min(ISOS - draft.isos());
    for left in (1..=isos).rev() {
        let lines = (LINES - draft.lines()) / left;
        let steps = (lines - 1 - clauses).min(8 * clauses);
        draft.iso(ty, ty);
        for place in 0..clauses {
            let more = usize::from(place < steps % clauses);
            clause(draft, place, steps / clauses + more);
        }
    }
}

/// The left side binds a variable of the tree's type, eight let steps hand it on, the right side uses it.
fn threaded(bits: usize) -> Vec<u8> {
    let mut draft = Draft::default();
    let (front, back) = front_and_bits(&mut draft, bits, Shape::Leftward);
    let all = draft.type_of(PRODUCT, front, back);
    let variables = [0, 1].map(|n| draft.pattern(VARIABLE, n, 0));
    let closed = bit_patterns(&mut draft, bits);
    let side = |bits: &usize| draft.pattern(PAIR, variables[0], *bits);
    let sides: Vec<usize> = closed.iter().map(side).collect();
    draft.iso(front, front);
    draft.clause(variables[0], variables[0]);
    fill(&mut draft, all, sides.len(), 8, |draft, place, _| {
        draft.clause(sides[place], sides[place]);
        there_and_back(draft, variables);
    });
    draft.into_bytes()
}

/// The same with a variable of a unit, innermost in a tree: on both sides, and in each let step one of 127 nodes.
fn around(bits: usize) -> Vec<u8> {
    let mut draft = Draft::default();
    let (front, back) = front_and_bits(&mut draft, bits, Shape::Leftward);
    let all = draft.type_of(PRODUCT, front, back);
    let units = Shape::Leftward.of_types(&mut draft, NODES);
    let closed = bit_patterns(&mut draft, bits);
    let unit = draft.pattern(0, 0, 0);
    let mut tree = |number: usize, nodes: usize| {
        let variable = draft.pattern(VARIABLE, number, 0);
        (0..nodes / 2).fold(variable, |tree, _| draft.pattern(PAIR, tree, unit))
    };
    let front = tree(0, front_nodes(bits));
    let trees = [0, 1].map(|number| tree(number, NODES));
    let side = |bits: &usize| draft.pattern(PAIR, front, *bits);
    let sides: Vec<usize> = closed.iter().map(side).collect();
    draft.iso(units, units);
    draft.clause(trees[0], trees[0]);
    fill(&mut draft, all, sides.len(), 8, |draft, place, _| {
        draft.clause(sides[place], sides[place]);
        there_and_back(draft, trees);
    });
    draft.into_bytes()
}

/// A file like the one above, whose let steps name their P lines by turns, and those all over again with each T line.
#[derive(Clone, Copy)]
struct Turned {
    /// Bits behind the tree; an iso has 2^bits clauses.
    bits: usize,
    /// T lines of 127 nodes, each with an iso of its own.
    types: usize,
    /// P lines of 127 nodes.
    lines: usize,
    /// Variables of each tree.
    variables: usize,
}

const AROUND: Turned = Turned {
    bits: 5,
    types: 1,
    lines: 1,
    variables: 1,
};

fn turned(plan: Turned) -> Vec<u8> {
    let mut draft = Draft::default();
    let shape = Shape::Leftward;
    let (front, back) = front_and_bits(&mut draft, plan.bits, shape);
    let all = draft.type_of(PRODUCT, front, back);
    let most = shape.of_types(&mut draft, NODES - 2);
    let unit = draft.type_of(0, 0, 0);
    let types: Vec<usize> = (0..plan.types)
        .map(|_| draft.new_type(PRODUCT, most, unit))
        .collect();
    let closed = bit_patterns(&mut draft, plan.bits);
    let front = tree_around(&mut draft, plan.variables, front_nodes(plan.bits));
    let sides: Vec<usize> = closed
        .iter()
        .map(|bits| draft.pattern(PAIR, front, *bits))
        .collect();
    let most = tree_around(&mut draft, plan.variables, NODES - 2);
    let unit = draft.pattern(0, 0, 0);
    let lines: Vec<usize> = (0..plan.lines)
        .map(|_| draft.new_pattern(PAIR, most, unit))
        .collect();
    for ty in &types {
        draft.iso(*ty, *ty);
        draft.clause(lines[0], lines[0]);
    }
    let mut named = 0;
    fill(&mut draft, all, sides.len(), 8, |draft, place, steps| {
        draft.clause(sides[place], sides[place]);
        for _ in 0..steps {
            let [p, q] = [named, named + 1].map(|number| lines[number % lines.len()]);
            draft.step(p, named / lines.len() % types.len(), q);
            named += 1;
        }
    });
    draft.into_bytes()
}

/// A tree of so many nodes, deep to the left, with variables innermost.
fn tree_around(draft: &mut Draft, variables: usize, nodes: usize) -> usize {
    let unit = draft.pattern(0, 0, 0);
    let first = draft.pattern(VARIABLE, 0, 0);
    (1..nodes.div_ceil(2)).fold(first, |tree, number| {
        let leaf = match number < variables {
            true => draft.pattern(VARIABLE, number, 0),
            false => unit,
        };
        draft.pattern(PAIR, tree, leaf)
    })
}

/// Trees of 127 nodes around variables, with two variables more at the top; each two of the free variables make a
/// tree. No two T lines are equal trees, and nearly no tree comes back on a T line.
#[derive(Clone, Copy)]
struct Crossed {
    /// T lines of 127 nodes, each with an iso of its own and one more whose let steps call it.
    types: usize,
    /// Variables within the tree.
    variables: usize,
    /// Variables that take the two at the top by turns.
    free: usize,
}

const BITS: usize = 5;

fn crossed(plan: Crossed) -> Vec<u8> {
    let mut draft = Draft::default();
    let back = bit_types(&mut draft, BITS);
    let chain = Shape::Leftward.of_types(&mut draft, NODES - 10);
    let unit = draft.type_of(0, 0, 0);
    let most = draft.type_of(PRODUCT, chain, unit);
    let within = Shape::Leftward.of_types(&mut draft, 2 * plan.variables + 1);
    let types: Vec<(usize, usize)> = (0..plan.types)
        .map(|number| {
            let ty = small_type(&mut draft, number);
            let whole = draft.type_of(PRODUCT, most, ty);
            let rest = draft.type_of(PRODUCT, ty, within);
            (whole, draft.type_of(PRODUCT, back, rest))
        })
        .collect();
    let trees = Trees::new(&mut draft, plan);
    let bits = bit_patterns(&mut draft, BITS);
    let sides: Vec<usize> = bits
        .iter()
        .map(|bits| draft.pattern(PAIR, *bits, trees.rest))
        .collect();
    for (whole, _) in &types {
        draft.iso(*whole, *whole);
        draft.clause(trees.first, trees.first);
    }
    let mut turn = 0;
    for (iso, (_, all)) in types.iter().enumerate() {
        draft.iso(*all, *all);
        for side in &sides {
            draft.clause(*side, *side);
            trees.steps(&mut draft, iso, &mut turn);
        }
    }
    draft.into_bytes()
}

/// One of sixteen types of seven nodes, each another tree.
fn small_type(draft: &mut Draft, number: usize) -> usize {
    let unit = draft.type_of(0, 0, 0);
    (0..3).fold(unit, |ty, place| {
        let kind = if number >> place & 1 == 0 {
            SUM
        } else {
            PRODUCT
        };
        match number < 8 {
            true => draft.type_of(kind, ty, unit),
            false => draft.type_of(kind, unit, ty),
        }
    })
}

/// The trees of a crossed file, and the variables of a side.
struct Trees {
    first: usize,
    others: Vec<usize>,
    rest: usize,
}

impl Trees {
    fn new(draft: &mut Draft, plan: Crossed) -> Self {
        let chain = tree_around(draft, plan.variables, NODES - 10);
        let mut tree = |one: usize, two: usize| {
            let [one, two] = [one, two].map(|number| draft.pattern(VARIABLE, number, 0));
            let most = draft.pattern(PAIR, chain, one);
            draft.pattern(PAIR, most, two)
        };
        let own = plan.variables;
        let first = tree(own, own + 1);
        let free = own + 2..own + 2 + plan.free;
        let mut others = Vec::new();
        for one in free.clone() {
            others.extend(
                free.clone()
                    .filter(|two| *two != one)
                    .map(|two| tree(one, two)),
            );
        }
        let within = tree_around(draft, own + 1, 2 * own + 1);
        let last = draft.pattern(VARIABLE, own + 1, 0);
        let rest = draft.pattern(PAIR, last, within);
        Trees {
            first,
            others,
            rest,
        }
    }

    /// Eight let steps, from the first tree through seven others back to it.
    fn steps(&self, draft: &mut Draft, iso: usize, turn: &mut usize) {
        let mut here = self.first;
        for _ in 0..7 {
            // 31 has no common divisor with the number of trees
            let next = self.others[*turn * 31 % self.others.len()];
            *turn += 1;
            draft.step(next, iso, here);
            here = next;
        }
        draft.step(self.first, iso, here);
    }
}

/// Eight let steps, which send the first of two patterns to the second, and the second to the first.
fn there_and_back(draft: &mut Draft, [one, two]: [usize; 2]) {
    for _ in 0..4 {
        draft.step(two, 0, one);
        draft.step(one, 0, two);
    }
}

/// The clauses part at the sides of one sum of 32 units, nested to the right, behind some closed bits.
fn nested(bits: usize, steps: bool) -> Vec<u8> {
    let mut draft = Draft::default();
    let shape = Shape::Leftward;
    let nodes = NODES / 2 - 4 * bits;
    let unit = draft.type_of(0, 0, 0);
    let mut back = (1..32).fold(unit, |sum, _| draft.type_of(SUM, unit, sum));
    for _ in 0..bits {
        let bit = draft.type_of(SUM, unit, unit);
        back = draft.type_of(PRODUCT, bit, back);
    }
    let front = shape.of_types(&mut draft, nodes);
    let all = draft.type_of(PRODUCT, front, back);
    let mut named = Named::default();
    if steps {
        let units = shape.of_types(&mut draft, NODES);
        named = Named::new(units, shape.of_patterns(&mut draft, NODES));
    }
    let sides = nested_sides(&mut draft, bits, nodes);
    named.start(&mut draft);
    let least = usize::from(steps);
    fill(
        &mut draft,
        all,
        sides.len(),
        least,
        |draft, place, steps| {
            draft.clause(sides[place], sides[place]);
            named.steps(draft, least * steps);
        },
    );
    draft.into_bytes()
}

/// A tree of so many nodes, the bits and a side of the sum.
fn nested_sides(draft: &mut Draft, bits: usize, nodes: usize) -> Vec<usize> {
    let unit = draft.pattern(0, 0, 0);
    let mut sides = Vec::new();
    for depth in 0..32 {
        let last = match depth {
            31 => unit,
            _ => draft.pattern(LEFT, unit, 0),
        };
        sides.push((0..depth).fold(last, |side, _| draft.pattern(RIGHT, side, 0)));
    }
    for _ in 0..bits {
        let mut more = Vec::new();
        for end in bit_patterns(draft, 1) {
            more.extend(sides.iter().map(|side| draft.pattern(PAIR, end, *side)));
        }
        sides = more;
    }
    let front = Shape::Leftward.of_patterns(draft, nodes);
    let side = |side: &usize| draft.pattern(PAIR, front, *side);
    sides.iter().map(side).collect()
}

/// A file without its last clause: a gap on the left of the last iso.
fn refused(mut file: Vec<u8>) -> Call {
    let last = |letter: u8| {
        let here = |two: &[u8]| two == [b'\n', letter];
        file.windows(2)
            .rposition(here)
            .expect("a line of the letter")
            + 1
    };
    let (iso, clause) = (last(b'I'), last(b'C'));
    let line = 1 + file[..iso].iter().filter(|byte| **byte == b'\n').count();
    file.truncate(clause);
    Call::refused(file, 13, line)
}

#[cfg(test)]
mod tests {
    use super::*;

    #[test]
    fn candidates_are_judged_alike_by_both() {
        for candidate in &CANDIDATES {
            let call = (candidate.call)();
            assert!(call.lines() <= LINES, "{}", candidate.label);
            let many = candidate.label.contains("128 clauses");
            assert_eq!(candidate.has_many_clauses(), many, "{}", candidate.label);
            call.agree();
        }
    }

    #[test]
    fn trees_have_the_nodes_asked_for() {
        use Shape::*;
        for shape in [Even, Leftward, Rightward, Zigzag, Triples] {
            for nodes in [1, 3, 63, 107, 111, 127] {
                let mut count = 0;
                shape.tree(nodes, &mut |_| {
                    count += 1;
                    count
                });
                assert_eq!(count, nodes);
            }
        }
    }
}
