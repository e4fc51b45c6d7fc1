//! Types and clauses drawn.

use super::links::escaped;
use super::tree::{Shown, Tree};

/// The room for a leaf, and from a level to the next.
const LEAF: f64 = 30.0;
const LEVEL: f64 = 34.0;

/// The largest drawing that helps.
const WIDEST: f64 = 420.0;
const HIGHEST: f64 = 240.0;

/// A drawing as it stands on the page, and how wide it is.
pub struct Drawn {
    pub svg: String,
    pub width: usize,
}

/// A drawing: its lines and labels, and how large it is.
#[derive(Default)]
struct Drawing {
    edges: String,
    nodes: String,
    width: f64,
    height: f64,
}

impl Drawing {
    /// Draws a tree below a level, from this place to the right on; gives where its top stands.
    fn tree(&mut self, tree: &Tree, level: usize, x: f64) -> f64 {
        let y = LEVEL * level as f64 + LEVEL / 2.0;
        self.height = self.height.max(y + LEVEL / 2.0);
        let parts: Vec<&Tree> = match tree {
            Tree::One(_, part) => vec![part],
            Tree::Many(_, parts) => parts.iter().collect(),
            _ => Vec::new(),
        };
        let mut tops = Vec::new();
        for part in parts {
            let from = self.width.max(x);
            tops.push(self.tree(part, level + 1, from));
        }
        let at = match (tops.first(), tops.last()) {
            (Some(first), Some(last)) => (first + last) / 2.0,
            _ => {
                let room = LEAF.max(9.0 * tree.label().chars().count() as f64 + 14.0);
                let left = self.width.max(x);
                self.width = left + room;
                left + room / 2.0
            }
        };
        for top in tops {
            self.edges += &format!(
                "<line x1=\"{at:.0}\" y1=\"{y:.0}\" x2=\"{top:.0}\" y2=\"{:.0}\"/>",
                y + LEVEL
            );
        }
        self.node(tree, at, y);
        at
    }

    fn node(&mut self, tree: &Tree, x: f64, y: f64) {
        let label = tree.label();
        let class = match tree {
            Tree::Leaf(_) => "u".to_string(),
            Tree::Variable(number, _) => format!("v v{}", number % 6),
            Tree::Name(..) => "n".to_string(),
            Tree::One(..) => "o".to_string(),
            Tree::Many(..) => "t".to_string(),
        };
        let half = (4.5 * label.chars().count() as f64 + 5.0).max(11.0);
        let (left, top, wide) = (x - half, y - 11.0, 2.0 * half);
        let round = if matches!(tree, Tree::Name(..)) {
            3
        } else {
            11
        };
        self.nodes += &format!(
            "<g class=\"{class}\"><rect x=\"{left:.1}\" y=\"{top:.0}\" width=\"{wide:.1}\" height=\"22\" rx=\"{round}\"/>\
             <text x=\"{x:.0}\" y=\"{:.0}\">{}</text></g>",
            y + 4.0,
            escaped(&label)
        );
    }

    /// The arrow between the sides of a clause, with its let steps under it.
    fn arrow(&mut self, steps: &[String]) {
        let longest = steps.iter().map(|step| step.chars().count()).max();
        let room = (8.0 * longest.unwrap_or(0) as f64 + 24.0).max(60.0);
        let (from, to) = (self.width + 8.0, self.width + room - 8.0);
        let (y, tip) = (LEVEL / 2.0, to - 7.0);
        self.edges += &format!(
            "<path d=\"M{from:.0} {y} H{to:.0} M{tip:.0} {} L{to:.0} {y} L{tip:.0} {}\"/>",
            y - 5.0,
            y + 5.0
        );
        for (place, step) in steps.iter().enumerate() {
            let below = y + 26.0 * (place + 1) as f64;
            self.nodes += &format!(
                "<text class=\"s\" x=\"{:.0}\" y=\"{below:.0}\">{}</text>",
                (from + to) / 2.0,
                escaped(step)
            );
            self.height = self.height.max(below + 12.0);
        }
        self.width += room;
    }

    /// The drawing; nothing where it is so large that the text is easier to read.
    fn svg(&self, label: &str) -> Option<Drawn> {
        let (width, height) = (self.width.ceil(), self.height.ceil());
        if width > WIDEST || height > HIGHEST {
            return None;
        }
        let svg = format!(
            "<svg role=\"img\" aria-label=\"{}\" width=\"{width}\" height=\"{height}\" viewBox=\"0 0 {width} {height}\">{}{}</svg>",
            escaped(label),
            self.edges,
            self.nodes
        );
        Some(Drawn {
            svg,
            width: width as usize,
        })
    }
}

/// Whether there is anything to draw: parts that belong together.
fn has_parts(tree: &Tree) -> bool {
    matches!(tree, Tree::One(..) | Tree::Many(..))
}

/// Whether there is a part that is carried over.
fn carries(tree: &Tree) -> bool {
    match tree {
        Tree::Variable(..) => true,
        Tree::One(_, part) => carries(part),
        Tree::Many(_, parts) => parts.iter().any(carries),
        Tree::Leaf(_) | Tree::Name(..) => false,
    }
}

/// A tree, drawn where that helps.
pub fn tree(tree: &Tree) -> Option<Drawn> {
    if !has_parts(tree) {
        return None;
    }
    let mut drawing = Drawing::default();
    drawing.tree(tree, 0, 0.0);
    drawing.svg(&tree.text())
}

/// A clause, drawn where that helps, since it carries parts over: its left pattern, its let steps, its right pattern.
pub fn clause(shown: &Shown) -> Option<Drawn> {
    let parts = has_parts(&shown.left) || has_parts(&shown.right);
    if !parts || !carries(&shown.left) {
        return None;
    }
    let mut drawing = Drawing::default();
    drawing.tree(&shown.left, 0, 0.0);
    drawing.arrow(&shown.steps());
    let from = drawing.width;
    drawing.tree(&shown.right, 0, from);
    let label = format!("{} ↦ {}", shown.left.text(), shown.outcome());
    drawing.svg(&label)
}
