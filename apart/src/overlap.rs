//! Request 04, "Stop at the first clash": the nodes of two P lines compared.
//!
//! Each pattern is written out as the list of its nodes in prefix order, each
//! with the way that leads to it from the root. Two nodes are laid on each other
//! where the same way leads to both; the list of the first pattern's nodes of
//! which that is so, cut off behind the first clash, is what was
//! compared. No tree is walked beside the other.

use crate::areas::Known;
use crate::tree::Pattern;
use crate::{Refusal, Rules};
use std::collections::BTreeMap;

/// What the service gives: with a refusal false and 0.
#[derive(Debug, PartialEq, Eq, Clone, Copy)]
pub struct Overlapped {
    pub number: u8,
    pub line: usize,
    pub clash: bool,
    pub pairs: u32,
}

/// A step of a way. Those below a pair are not the one below a left or a right,
/// nor those below an element, so that nothing below nodes of different shape
/// has the same way.
#[derive(Debug, PartialEq, Eq, PartialOrd, Ord, Clone, Copy)]
enum Step {
    Below,
    First,
    Second,
    Head,
    Tail,
}

type Way = Vec<Step>;

/// The nodes of a pattern in prefix order, each with the way that leads to it.
fn nodes<'a>(pattern: &'a Pattern, way: Way, listed: &mut Vec<(Way, &'a Pattern)>) {
    let below: Vec<(Step, &Pattern)> = match pattern {
        Pattern::Unit | Pattern::Variable(_) | Pattern::Empty => Vec::new(),
        Pattern::Left(a) | Pattern::Right(a) => vec![(Step::Below, a)],
        Pattern::Pair(a, b) => vec![(Step::First, a), (Step::Second, b)],
        Pattern::Element(a, b) => vec![(Step::Head, a), (Step::Tail, b)],
    };
    listed.push((way.clone(), pattern));
    for (step, part) in below {
        nodes(part, [&way[..], &[step]].concat(), listed);
    }
}

fn listed(pattern: &Pattern) -> Vec<(Way, &Pattern)> {
    let mut list = Vec::new();
    nodes(pattern, Way::new(), &mut list);
    list
}

/// "a left against a right"; request 14: "empty against an element clashes like
/// left against right".
pub fn clash(one: &Pattern, two: &Pattern) -> bool {
    matches!(
        (one, two),
        (Pattern::Left(_), Pattern::Right(_))
            | (Pattern::Right(_), Pattern::Left(_))
            | (Pattern::Empty, Pattern::Element(..))
            | (Pattern::Element(..), Pattern::Empty)
    )
}

/// The nodes laid on each other, in prefix order, whether they clash or not.
pub fn laid<'a>(one: &'a Pattern, two: &'a Pattern) -> Vec<[&'a Pattern; 2]> {
    let others: BTreeMap<Way, &Pattern> = listed(two).into_iter().collect();
    listed(one)
        .into_iter()
        .filter_map(|(way, node)| others.get(&way).map(|other| [node, *other]))
        .collect()
}

/// The node pairs compared: it "stops at the first clash", "the clash included".
pub fn compared<'a>(one: &'a Pattern, two: &'a Pattern) -> Vec<[&'a Pattern; 2]> {
    let mut pairs = laid(one, two);
    if let Some(place) = pairs.iter().position(|[one, two]| clash(one, two)) {
        pairs.truncate(place + 1);
    }
    pairs
}

/// Two P lines of an accepted file: whether they clash, and "the number of node
/// pairs compared". 15 where one is absent.
pub fn overlap_rules(rules: &Rules, left: u32, right: u32) -> Result<(bool, u32), Refusal> {
    let line = |place: u32| {
        let place = usize::try_from(place).ok()?;
        rules.patterns.get(place)
    };
    let (Some(left), Some(right)) = (line(left), line(right)) else {
        return Err(Refusal {
            number: 15,
            line: 0,
        });
    };
    let pairs = compared(left, right);
    let clashes = pairs.iter().any(|[one, two]| clash(one, two));
    Ok((
        clashes,
        u32::try_from(pairs.len()).expect("at most 127 nodes"),
    ))
}

/// The overlap of two P lines with lent areas.
pub fn overlap(
    known: &Known,
    table: &mut [u16],
    work: &mut [u8],
    left: u32,
    right: u32,
) -> Overlapped {
    let given = known
        .enter(false, table, work)
        .and_then(|rules| overlap_rules(rules, left, right));
    match given {
        Ok((clash, pairs)) => Overlapped {
            number: 0,
            line: 0,
            clash,
            pairs,
        },
        Err(Refusal { number, line }) => Overlapped {
            number,
            line,
            clash: false,
            pairs: 0,
        },
    }
}
