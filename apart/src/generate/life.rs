//! What becomes of the variable numbers of a clause: how often they are bound
//! again, and which of the ways to break rule 8 are taken. Each number is
//! followed alone, from pattern to pattern.

use crate::lines::{Clause, Iso};
use crate::tree::{Pattern, Type};
use std::collections::BTreeMap;
use std::rc::Rc;

/// Ways to break rule 8. Each but the last has its image in the turned clause.
#[derive(Debug, Clone, Copy, PartialEq, Eq, PartialOrd, Ord)]
pub enum Slip {
    /// Bound by a p while live from the left pattern.
    BoundByLeftAndLet,
    /// Bound by a p while live from an earlier p.
    BoundByTwoLets,
    BoundTwiceInLeft,
    BoundTwiceInLet,
    LiveFromLeft,
    LiveFromLet,
    /// Used by the right pattern after a q has used it up.
    UsedByLetAndRight,
    /// Used by a q after an earlier one has used it up.
    UsedByTwoLets,
    UsedTwiceInRight,
    UsedTwiceInLet,
    /// Used by the right pattern, and never bound.
    UnboundInRight,
    /// Used by a q, and never bound.
    UnboundInLet,
    /// Used by a q, and bound by its p or a later one for the first time.
    UsedBeforeBound,
}

pub const SLIPS: [Slip; 13] = [
    Slip::BoundByLeftAndLet,
    Slip::BoundByTwoLets,
    Slip::BoundTwiceInLeft,
    Slip::BoundTwiceInLet,
    Slip::LiveFromLeft,
    Slip::LiveFromLet,
    Slip::UsedByLetAndRight,
    Slip::UsedByTwoLets,
    Slip::UsedTwiceInRight,
    Slip::UsedTwiceInLet,
    Slip::UnboundInRight,
    Slip::UnboundInLet,
    Slip::UsedBeforeBound,
];

/// Ways in which a number is bound again after its use.
#[derive(Debug, Clone, Copy, PartialEq, Eq, PartialOrd, Ord)]
pub enum Again {
    /// By the p of the L line whose q has used it.
    InOneLet,
    /// By the p of a later L line.
    InLaterLet,
    /// With another type.
    OtherType,
    /// Bound three times or more.
    Thrice,
    /// While all the other 31 numbers are live.
    NoneFree,
    /// More than 32 bindings in the clause.
    Over32,
}

pub const AGAINS: [Again; 6] = [
    Again::InOneLet,
    Again::InLaterLet,
    Again::OtherType,
    Again::Thrice,
    Again::NoneFree,
    Again::Over32,
];

/// Where a number stands: the pattern, counted from 0 over the left one, then
/// q and p of each L line, then the right one; and whether the pattern binds.
#[derive(Clone, Copy)]
struct Event {
    place: usize,
    binds: bool,
}

/// The patterns of a clause in order.
fn patterns(clause: &Clause) -> Vec<(bool, &Rc<Pattern>)> {
    let lets = clause.lets.iter();
    let steps = lets.flat_map(|step| [(false, &step.q), (true, &step.p)]);
    let left = std::iter::once((true, &clause.left));
    left.chain(steps).chain([(false, &clause.right)]).collect()
}

/// For each number that the clause holds all places where it stands.
fn events(clause: &Clause) -> BTreeMap<u16, Vec<Event>> {
    let mut events: BTreeMap<u16, Vec<Event>> = BTreeMap::new();
    for (place, (binds, pattern)) in patterns(clause).into_iter().enumerate() {
        for number in pattern.variables() {
            let own = events.entry(number).or_default();
            own.push(Event { place, binds });
        }
    }
    events
}

/// All slips of a clause, each once; none where rule 8 holds.
pub fn slips(clause: &Clause) -> Vec<Slip> {
    let last = patterns(clause).len() - 1;
    let all = events(clause);
    let mut slips: Vec<Slip> = all.values().flat_map(|own| of_number(own, last)).collect();
    slips.sort();
    slips.dedup();
    slips
}

/// The slips of one number. `last` is the place of the right pattern.
fn of_number(events: &[Event], last: usize) -> Vec<Slip> {
    let mut slips = Vec::new();
    for (at, event) in events.iter().enumerate() {
        let above = at.checked_sub(1).map(|at| events[at]);
        let slip = if event.binds {
            bound(above, event.place)
        } else {
            let later = events[at..].iter().any(|other| other.binds);
            used(above, event.place == last, event.place, later)
        };
        slips.extend(slip);
    }
    if let Some(Event { place, binds: true }) = events.last() {
        slips.push(if *place == 0 {
            Slip::LiveFromLeft
        } else {
            Slip::LiveFromLet
        });
    }
    slips
}

/// A binding is a slip where the number was bound above and not used since.
fn bound(above: Option<Event>, place: usize) -> Option<Slip> {
    match above {
        Some(above) if above.binds => Some(match (above.place, place) {
            (0, 0) => Slip::BoundTwiceInLeft,
            (0, _) => Slip::BoundByLeftAndLet,
            (one, two) if one == two => Slip::BoundTwiceInLet,
            _ => Slip::BoundByTwoLets,
        }),
        _ => None,
    }
}

/// A use is a slip where the number was used above and not bound since, or not
/// bound at all.
fn used(above: Option<Event>, right: bool, place: usize, later: bool) -> Option<Slip> {
    match above {
        Some(above) if above.binds => None,
        Some(above) => Some(match (above.place == place, right) {
            (true, true) => Slip::UsedTwiceInRight,
            (true, false) => Slip::UsedTwiceInLet,
            (false, true) => Slip::UsedByLetAndRight,
            (false, false) => Slip::UsedByTwoLets,
        }),
        None if later => Some(Slip::UsedBeforeBound),
        None if right => Some(Slip::UnboundInRight),
        None => Some(Slip::UnboundInLet),
    }
}

/// All the ways in which a clause that keeps rule 8 binds numbers again.
pub fn agains(clause: &Clause, iso: &Iso, isos: &[Iso]) -> Vec<Again> {
    let mut found = Vec::new();
    let all = events(clause);
    let bindings = |own: &[Event]| own.iter().filter(|event| event.binds).count();
    for own in all.values() {
        for two in own.windows(2).filter(|two| two[1].binds) {
            let near = two[1].place == two[0].place + 1;
            let way = [Again::InLaterLet, Again::InOneLet];
            found.push(way[usize::from(near)]);
            if live(&all, two[1].place) == 32 {
                found.push(Again::NoneFree);
            }
        }
        if bindings(own) > 2 {
            found.push(Again::Thrice);
        }
    }
    if all.values().map(|own| bindings(own)).sum::<usize>() > 32 {
        found.push(Again::Over32);
    }
    let types = bound_types(clause, iso, isos).unwrap_or_default();
    if types.values().any(|own| own.iter().any(|ty| *ty != own[0])) {
        found.push(Again::OtherType);
    }
    found.sort();
    found.dedup();
    found
}

/// How many numbers are live behind a pattern.
fn live(all: &BTreeMap<u16, Vec<Event>>, place: usize) -> usize {
    let live = |own: &&Vec<Event>| {
        let last = own.iter().rev().find(|event| event.place <= place);
        last.is_some_and(|event| event.binds)
    };
    all.values().filter(live).count()
}

/// The types that variables meet.
type Met<'a> = BTreeMap<u16, Vec<&'a Rc<Type>>>;

/// The types of each number's bindings; `None` where a pattern does not fit.
fn bound_types<'a>(clause: &Clause, iso: &'a Iso, isos: &'a [Iso]) -> Option<Met<'a>> {
    let mut types = Met::new();
    let mut fit = collect(&clause.left, &iso.from, &mut types);
    for step in &clause.lets {
        fit = fit && collect(&step.p, &isos[step.iso].to, &mut types);
    }
    fit.then_some(types)
}

/// Whether all patterns fit and each number is used with the type of one of its
/// bindings, be it the live one or another.
pub fn used_with_some_type(clause: &Clause, iso: &Iso, isos: &[Iso]) -> bool {
    let mut used = Met::new();
    let mut fit = collect(&clause.right, &iso.to, &mut used);
    for step in &clause.lets {
        fit = fit && collect(&step.q, &isos[step.iso].from, &mut used);
    }
    let Some(bound) = bound_types(clause, iso, isos).filter(|_| fit) else {
        return false;
    };
    let known = |number: &u16, ty| bound.get(number).is_some_and(|own| own.contains(ty));
    used.iter()
        .all(|(number, types)| types.iter().all(|ty| known(number, ty)))
}

/// False where the pattern does not fit.
fn collect<'a>(pattern: &Pattern, ty: &'a Rc<Type>, types: &mut Met<'a>) -> bool {
    match (pattern, &**ty) {
        (Pattern::Variable(number), _) => {
            types.entry(*number).or_default().push(ty);
            true
        }
        (Pattern::Unit, Type::Unit) => true,
        (Pattern::Left(a), Type::Sum(b, _)) | (Pattern::Right(a), Type::Sum(_, b)) => {
            collect(a, b, types)
        }
        (Pattern::Pair(a, b), Type::Product(c, d)) => collect(a, c, types) && collect(b, d, types),
        (Pattern::Empty, Type::List(_)) => true,
        (Pattern::Element(a, b), Type::List(c)) => collect(a, c, types) && collect(b, ty, types),
        _ => false,
    }
}
