//! Request 14: files refused with 23, one for each part of the rule. Neither as
//! written nor as turned does the last iso meet it; but for 23 most of them would
//! be accepted.

use super::plan::two;
use super::random::Random;
use super::scribe;
use super::zoned::{
    clause, conversion, element, empty, iso, list, pair, parted, product, rearranged, small_type,
    step, unit, variables,
};
use crate::lines::{read_with, Clause, Iso};
use crate::tree::{Pattern, Type};
use std::rc::Rc;

#[derive(Debug, Clone, Copy, PartialEq, Eq)]
pub enum Breach {
    /// "its from-type is a list, or a product whose first part is one".
    FromType,
    /// The to-type is one, the from-type is not.
    FromTypeAlone,
    /// "each left pattern shows empty or an element there": a variable.
    NotShown,
    /// The same in a clause without a call.
    NotShownNoCall,
    /// A variable for the whole pair, or for its first part.
    PairNotShown,
    /// "a clause with empty makes no such call".
    EmptyCalls,
    /// "another makes at most one".
    TwoCalls,
    /// "on that element's whole tail": on another list.
    OtherList,
    /// On a part of the tail.
    PartOfTail,
    /// "as the left pattern bound it": a let step has used the tail.
    Used,
    /// The same, and bound its number again.
    Rebound,
    /// On the pair of tail and value that a let step has put together.
    Joined,
    /// "as the first part of a pair": it is the second.
    SecondPart,
}

pub const BREACHES: [Breach; 13] = [
    Breach::FromType,
    Breach::FromTypeAlone,
    Breach::NotShown,
    Breach::NotShownNoCall,
    Breach::PairNotShown,
    Breach::EmptyCalls,
    Breach::TwoCalls,
    Breach::OtherList,
    Breach::PartOfTail,
    Breach::Used,
    Breach::Rebound,
    Breach::Joined,
    Breach::SecondPart,
];

/// The isos before the one in question, that one, and of its clauses the first
/// that breaks the rule; none where the from-type does.
struct Broken {
    earlier: Vec<Iso>,
    from: Rc<Type>,
    to: Rc<Type>,
    clauses: Vec<Clause>,
    broken: Option<usize>,
}

/// A file that is refused with 23 for this, and the line.
pub fn file(random: &mut Random, breach: Breach) -> (Vec<u8>, usize) {
    loop {
        let made = made(random, breach);
        let Broken {
            earlier,
            from,
            to,
            clauses,
            broken,
        } = made;
        let mut isos = earlier;
        isos.push(iso(&from, &to, clauses));
        let file = scribe::file(random, &isos);
        let Ok(reader) = read_with(&file, true) else {
            continue;
        };
        let last = &reader.isos[isos.len() - 1];
        let line = broken.map_or(last.line, |place| last.clauses[place].line);
        return (file, line);
    }
}

fn made(random: &mut Random, breach: Breach) -> Broken {
    match breach {
        Breach::FromType => from_type(random),
        Breach::FromTypeAlone => from_type_alone(random),
        Breach::NotShown => not_shown(random, true),
        Breach::NotShownNoCall => not_shown(random, false),
        Breach::PairNotShown => pair_not_shown(random),
        Breach::EmptyCalls => empty_calls(random),
        Breach::TwoCalls => two_calls(random),
        Breach::OtherList => other_list(random),
        Breach::PartOfTail => part_of_tail(random),
        Breach::Used => used(random, false),
        Breach::Rebound => used(random, true),
        Breach::Joined => joined(random),
        Breach::SecondPart => second_part(random),
    }
}

/// The clauses in any order, the last of them the one that breaks the rule.
fn mixed(
    random: &mut Random,
    earlier: Vec<Iso>,
    [from, to]: [&Rc<Type>; 2],
    clauses: Vec<Clause>,
) -> Broken {
    let last = clauses.len() - 1;
    let mut places: Vec<usize> = (0..clauses.len()).collect();
    random.shuffle(&mut places);
    Broken {
        earlier,
        from: Rc::clone(from),
        to: Rc::clone(to),
        clauses: places.iter().map(|place| clauses[*place].clone()).collect(),
        broken: places.iter().position(|place| *place == last),
    }
}

fn no_list(random: &mut Random) -> Rc<Type> {
    let all = [unit(), two(), product(&two(), &unit())];
    Rc::clone(random.pick(&all))
}

/// A value, or a list that stands elsewhere, through the iso itself.
fn from_type(random: &mut Random) -> Broken {
    let (ty, other) = (small_type(random), no_list(random));
    let lists = list(&ty);
    let deep = product(&product(&lists, &other), &other);
    let sum = Rc::new(Type::Sum(Rc::clone(&lists), unit()));
    let all = [unit(), sum, product(&other, &lists), deep, other];
    let from = random.pick(&all);
    let [value, given] = variables(random, &[]);
    let lets = vec![step(&given, 0, &value)];
    let clauses = vec![clause(value, given, lets)];
    let mut broken = mixed(random, Vec::new(), [from, from], clauses);
    broken.broken = None;
    broken
}

/// To lists first, but the tail goes through another iso behind the call.
fn from_type_alone(random: &mut Random) -> Broken {
    let (ty, other) = (small_type(random), no_list(random));
    let lists = list(&ty);
    let after = rearranged(random, &ty);
    let [head, tail, value, given, rest, last] = variables(random, &[]);
    let lets = vec![
        step(&pair(&rest, &given), 1, &pair(&value, &tail)),
        step(&last, 0, &rest),
    ];
    let (left, right) = (
        pair(&value, &element(&head, &tail)),
        pair(&element(&head, &last), &given),
    );
    let none = clause(pair(&value, &empty()), pair(&empty(), &value), Vec::new());
    let clauses = vec![none, clause(left, right, lets)];
    let ends = [&product(&other, &lists), &product(&lists, &other)];
    let mut broken = mixed(random, vec![after], ends, clauses);
    broken.broken = None;
    broken
}

/// A variable in place of a list, with a call or beside a clause with one.
fn not_shown(random: &mut Random, calls: bool) -> Broken {
    let ty = small_type(random);
    let lists = list(&ty);
    let [value, given, head, tail] = variables(random, &[]);
    let clauses = if calls {
        vec![clause(
            Rc::clone(&value),
            Rc::clone(&given),
            vec![step(&given, 0, &value)],
        )]
    } else {
        // The two overlap, which is tested later.
        let call = step(&given, 0, &tail);
        vec![
            clause(element(&head, &tail), element(&head, &given), vec![call]),
            clause(Rc::clone(&value), value, Vec::new()),
        ]
    };
    mixed(random, Vec::new(), [&lists, &lists], clauses)
}

/// A variable for a pair, or for the list in it.
fn pair_not_shown(random: &mut Random) -> Broken {
    let (ty, other) = (small_type(random), no_list(random));
    let whole = product(&list(&ty), &other);
    let [one, two, three, four] = variables(random, &[]);
    let (value, given) = if random.chance(50) {
        (one, two)
    } else {
        (pair(&one, &two), pair(&three, &four))
    };
    let lets = vec![step(&given, 0, &value)];
    let clauses = vec![clause(value, given, lets)];
    mixed(random, Vec::new(), [&whole, &whole], clauses)
}

/// A list, and beside it nothing or one with marks: that is parted, and both parts
/// go through the iso itself.
fn empty_calls(random: &mut Random) -> Broken {
    let ty = no_list(random);
    let before = parted(random, 0, &ty);
    let whole = Rc::clone(&before.to);
    let [marked, ones, rest, given, head, tail, other] = variables(random, &[]);
    let right = Rc::new(Pattern::Right(Rc::clone(&marked)));
    let none = Rc::new(Pattern::Left(Rc::new(Pattern::Unit)));
    let lets = vec![
        step(&pair(&ones, &rest), 0, &marked),
        step(&given, 1, &pair(&ones, &rest)),
    ];
    let clauses = vec![
        clause(pair(&empty(), &none), pair(&empty(), &none), Vec::new()),
        clause(
            pair(&element(&head, &tail), &other),
            pair(&element(&head, &tail), &other),
            Vec::new(),
        ),
        clause(pair(&empty(), &right), given, lets),
    ];
    mixed(random, vec![before], [&whole, &whole], clauses)
}

/// Two calls one after the other.
fn two_calls(random: &mut Random) -> Broken {
    let ty = small_type(random);
    let lists = list(&ty);
    let [head, tail, given, last] = variables(random, &[]);
    let lets = vec![step(&given, 0, &tail), step(&last, 0, &given)];
    let clauses = vec![
        clause(empty(), empty(), Vec::new()),
        clause(element(&head, &tail), element(&head, &last), lets),
    ];
    mixed(random, Vec::new(), [&lists, &lists], clauses)
}

/// Two lists, and a call with the second one's tail first.
fn other_list(random: &mut Random) -> Broken {
    let ty = small_type(random);
    let lists = list(&ty);
    let whole = product(&lists, &lists);
    let [one, two, tail, other, three, four] = variables(random, &[]);
    let both = pair(&element(&one, &tail), &element(&two, &other));
    let given = pair(&element(&one, &four), &element(&two, &three));
    let lets = vec![step(&pair(&three, &four), 0, &pair(&other, &tail))];
    let same = |pattern: Rc<Pattern>| clause(Rc::clone(&pattern), pattern, Vec::new());
    let clauses = vec![
        same(pair(&empty(), &tail)),
        same(pair(&element(&one, &tail), &empty())),
        clause(both, given, lets),
    ];
    mixed(random, Vec::new(), [&whole, &whole], clauses)
}

/// Two elements off, and a call on what is behind them.
fn part_of_tail(random: &mut Random) -> Broken {
    let ty = small_type(random);
    let lists = list(&ty);
    let [one, two, tail, given] = variables(random, &[]);
    let alone = element(&one, &empty());
    let lets = vec![step(&given, 0, &tail)];
    let clauses = vec![
        clause(empty(), empty(), Vec::new()),
        clause(Rc::clone(&alone), alone, Vec::new()),
        clause(
            element(&one, &element(&two, &tail)),
            element(&one, &element(&two, &given)),
            lets,
        ),
    ];
    mixed(random, Vec::new(), [&lists, &lists], clauses)
}

/// The tail goes through another iso before the call and behind it, now and then
/// under its own number.
fn used(random: &mut Random, again: bool) -> Broken {
    let ty = small_type(random);
    let lists = list(&ty);
    let after = rearranged(random, &ty);
    let [head, tail, other, given, last] = variables(random, &[]);
    let before = if again { &tail } else { &other };
    let lets = vec![
        step(before, 0, &tail),
        step(&given, 1, before),
        step(&last, 0, &given),
    ];
    let clauses = vec![
        clause(empty(), empty(), Vec::new()),
        clause(element(&head, &tail), element(&head, &last), lets),
    ];
    mixed(random, vec![after], [&lists, &lists], clauses)
}

/// Tail and value as one variable, which the iso that gives pairs back has bound.
fn joined(random: &mut Random) -> Broken {
    let (ty, other) = (small_type(random), no_list(random));
    let whole = product(&list(&ty), &other);
    let [head, tail, value, all, given, rest, last] = variables(random, &[]);
    let same = iso(
        &whole,
        &whole,
        vec![clause(Rc::clone(&all), Rc::clone(&all), Vec::new())],
    );
    let lets = vec![
        step(&all, 0, &pair(&tail, &value)),
        step(&given, 1, &all),
        step(&pair(&rest, &last), 0, &given),
    ];
    let none = pair(&empty(), &value);
    let clauses = vec![
        clause(Rc::clone(&none), none, Vec::new()),
        clause(
            pair(&element(&head, &tail), &value),
            pair(&element(&head, &rest), &last),
            lets,
        ),
    ];
    mixed(random, vec![same], [&whole, &whole], clauses)
}

/// Two lists, and a call with the tail second.
fn second_part(random: &mut Random) -> Broken {
    let ty = small_type(random);
    let lists = list(&ty);
    let whole = product(&lists, &lists);
    let [head, tail, other, one, two] = variables(random, &[]);
    let lets = vec![step(&pair(&one, &two), 0, &pair(&other, &tail))];
    let none = pair(&empty(), &other);
    let clauses = vec![
        clause(Rc::clone(&none), none, Vec::new()),
        clause(
            pair(&element(&head, &tail), &other),
            pair(&element(&head, &two), &one),
            lets,
        ),
    ];
    mixed(random, Vec::new(), [&whole, &whole], clauses)
}

/// What else is at fault in a file whose last iso is refused with 23 otherwise:
/// 8 to 10 in a clause of it come first, 11 to 14 of it behind.
pub fn beside(random: &mut Random, number: u8) -> (Vec<u8>, u8, usize) {
    loop {
        let Broken {
            earlier,
            from,
            to,
            mut clauses,
            broken,
        } = two_calls(random);
        let [one] = variables(random, &[]);
        let same = conversion(random, &unit(), true);
        let (left, right) = (Rc::clone(&one), Rc::clone(&one));
        match number {
            8 => clauses.push(clause(left, empty(), Vec::new())),
            9 => clauses.push(clause(left, right, vec![step(&empty(), 0, &empty())])),
            10 => clauses.push(clause(Rc::new(Pattern::Unit), empty(), Vec::new())),
            11 | 12 => clauses.push(clause(empty(), empty(), Vec::new())),
            _ => clauses.retain(|clause| !clause.lets.is_empty()),
        }
        let mut isos = earlier;
        isos.push(iso(&from, &to, clauses));
        isos.push(same);
        let file = scribe::file(random, &isos);
        let Ok(reader) = read_with(&file, true) else {
            continue;
        };
        let own = &reader.isos[0].clauses;
        let first = number < 11;
        let place = match number {
            8..=10 => own.len() - 1,
            13 | 14 => 0,
            _ => broken.expect("a clause breaks the rule"),
        };
        return (file, if first { number } else { 23 }, own[place].line);
    }
}
