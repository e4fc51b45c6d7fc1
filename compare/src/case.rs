//! Which files are made.

use crate::{bounds, longer, pair_lists, settings, shuffle, witness, zoned};
use apart::generate::ceiling::{self, Ceiling, CEILINGS};
use apart::generate::idle::{self, IDLES};
use apart::generate::life::SLIPS;
use apart::generate::listed::{self, Limit};
use apart::generate::longer::{weighed, Weight};
use apart::generate::random::Random;
use apart::generate::shown::Form;
use apart::generate::zoned::Ending;
use apart::generate::{self, accepted, any_file, ending, miss, pair, query, thread, tower};
use apart::lines::LISTS;
use apart::{check, Rules};

#[derive(Debug, Clone, Copy, PartialEq, Eq)]
pub enum Case {
    /// Refused with the number.
    Aimed(u8),
    /// At the ceiling, or one over it.
    Ceiling(usize, bool),
    /// As many bytes as a file may have, or one more.
    Bytes(bool),
    /// A pair of faults by its place in `pair::all`: both, the first alone,
    /// the second alone.
    Pair(usize, usize),
    /// Accepted but for its idle lines, by where they stand.
    Idle(usize),
    /// Accepted but for one clause that breaks rule 8 in one way.
    Slip(usize),
    /// Accepted but for one clause that uses a variable with the type of
    /// another binding.
    Mistyped,
    /// Accepted, with a clause that binds a number again.
    Again,
    /// Thirty-two variables live at once, each of which can be bound again.
    Crowded,
    /// Counts around 65,535 and of a million.
    Long,
    /// Thirty-two isos open at once on the longest values.
    Stack,
    /// The longest value.
    Longest,
    /// An accepted file with a type of many values, by the place of their
    /// count.
    Counted(usize),
    /// File S with a carriage return before one byte.
    Return(usize),
    /// As many bytes as a file may have, or one more, with a carriage return in
    /// the last ending.
    ReturnBytes(bool),
    /// A file of which a chunk ends within an ending.
    Across,
    /// A near miss of a refusal with a carriage return in every ending.
    Returns(u8),
    /// An accepted file whose last iso needs a number around the limit, by its
    /// place, at the most alone or at the least too.
    Bounded(usize, bool),
    /// Eight calls of the iso below in each of 32 isos.
    Deep,
    /// An accepted file with isos on types around a limit of pair lists.
    Listed(Limit),
    /// An iso of so many clauses, for which the number is given.
    Longer(u8, usize),
    /// An iso of patterns of these weights, for which the number is given.
    Weighed(Weight, u8),
    /// Clauses of one iso at fault in different ways, 3 to 7 or 8 to 10.
    Several(bool),
    /// Refused with one of 11 to 14, by the values that show the fault.
    Shown(Form, u8),
    /// An accepted file with an iso that calls itself.
    Zoned(Ending),
    /// Refused with 23, by the place of what is broken.
    Breach(usize),
    /// An iso that 23 is of, with another fault.
    Beside(u8),
    /// A run that comes to a ceiling of 24, or to one below it: by the place of
    /// its cause, and the size.
    Large(usize, usize),
    /// An accepted file with as many queries as a sheet may have, or one more.
    Full(bool),
    Accepted,
    Any,
}

/// The cases that every run has, whatever its seed.
pub fn always() -> Vec<Case> {
    let mut cases = vec![Case::Long; 3];
    cases.extend(settings::cases());
    cases.extend(bounds::cases());
    cases.extend(witness::cases());
    cases.extend(pair_lists::cases());
    cases.extend(longer::cases());
    cases.extend(zoned::cases());
    for over in [false, true].repeat(5) {
        cases.extend([Case::Stack, Case::Longest, Case::Bytes(over)]);
        cases.extend([Case::Several(over); 3]);
        cases.extend([Case::Full(over), Case::Again, Case::Crowded, Case::Mistyped]);
        cases.extend((0..SLIPS.len()).map(Case::Slip));
        cases.extend((0..CEILINGS.len()).map(|ceiling| Case::Ceiling(ceiling, over)));
        cases.extend(
            (2..15)
                .chain([21])
                .chain(LISTS.then_some(23))
                .map(Case::Aimed),
        );
        cases.extend((0..IDLES.len()).map(Case::Idle));
    }
    cases.extend((0..=ending::S.len()).map(Case::Return));
    for over in [false, true] {
        cases.extend([Case::ReturnBytes(over), Case::Across]);
    }
    cases.extend(
        (3..15)
            .chain([21])
            .chain(LISTS.then_some(23))
            .map(Case::Returns),
    );
    for (place, pair) in pair::all().iter().enumerate() {
        let idle = [pair.first, pair.second].contains(&21);
        for _ in 0..if idle { 4 } else { 1 } {
            cases.extend((0..3).map(|file| Case::Pair(place, file)));
        }
    }
    cases
}

/// A file and, where the case says it beforehand, the number and line that
/// Check has to give.
pub fn file(random: &mut Random, case: Case) -> (Vec<u8>, Option<(u8, usize)>) {
    match case {
        Case::Aimed(number) => (miss::aimed(random, number), None),
        Case::Ceiling(place, over) => (at_ceiling(random, CEILINGS[place], over), None),
        Case::Bytes(over) => (ceiling::many_bytes(random, over), None),
        Case::Pair(place, which) => {
            let made = pair::make(random, pair::all()[place]);
            (made.files[which].clone(), Some(made.answers[which]))
        }
        Case::Idle(place) => {
            let (file, line) = idle::file(random, IDLES[place]);
            (file, Some((21, line)))
        }
        Case::Slip(place) => {
            let (file, line) = thread::slip(random, SLIPS[place]);
            (file, Some((8, line)))
        }
        Case::Mistyped => {
            let (file, line) = thread::mistyped(random);
            (file, Some((10, line)))
        }
        Case::Again => (thread::again(random), Some((0, 0))),
        Case::Crowded => (thread::crowded(random), Some((0, 0))),
        Case::Long => (tower::long(random), Some((0, 0))),
        Case::Stack => (tower::stack(random), Some((0, 0))),
        Case::Longest => (tower::longest_value(random), Some((0, 0))),
        Case::Counted(place) => (settings::file(random, place), Some((0, 0))),
        Case::Return(place) => (
            ending::with_return(ending::S, place),
            Some(ending::answer(place)),
        ),
        Case::ReturnBytes(over) => (ending::many_bytes(random, over), None),
        Case::Across => (ending::across(random), Some((0, 0))),
        Case::Returns(number) => (ending::all_resaved(&miss::aimed(random, number)), None),
        Case::Bounded(..) | Case::Deep => (bounds::file(random, case), Some((0, 0))),
        Case::Listed(limit) => (listed::file(random, limit), Some((0, 0))),
        Case::Longer(number, count) => (generate::longer::file(random, number, count), None),
        Case::Weighed(weight, number) => (weighed(random, weight, number), None),
        Case::Several(form) => (shuffle::several(random, form), None),
        Case::Shown(..) => (witness::file(random, case), None),
        Case::Zoned(_) | Case::Breach(_) | Case::Beside(_) | Case::Large(..) => {
            zoned::file(random, case)
        }
        Case::Accepted | Case::Full(_) => (accepted(random), Some((0, 0))),
        Case::Any => (any_file(random), None),
    }
}

/// The number that a file at the ceiling, or one over it, is given.
pub fn ceiling_number(ceiling: Ceiling, over: bool) -> u8 {
    match (over, ceiling) {
        (false, _) => 0,
        (true, Ceiling::Lines) => 2,
        (true, _) => 7,
    }
}

/// A file that passes another ceiling is thrown away.
fn at_ceiling(random: &mut Random, ceiling: Ceiling, over: bool) -> Vec<u8> {
    loop {
        let file = ceiling::at(random, ceiling, over);
        let number = check(&file).err().map_or(0, |refusal| refusal.number);
        if number == ceiling_number(ceiling, over) {
            return file;
        }
    }
}

/// The isos to send a value through, there and back, and the highest count.
pub fn routes(random: &mut Random, case: Case, rules: &Rules) -> Vec<(u16, u32)> {
    if case == Case::Long {
        return tower::LONG_ISOS.map(|iso| (iso, 2_000_000)).to_vec();
    }
    if rules.isos.is_empty() {
        return Vec::new();
    }
    let last = rules.isos.len() as u16 - 1;
    match case {
        Case::Stack => return vec![(last, 3_000)],
        // The clause in question is one of the last iso.
        Case::Again | Case::Crowded | Case::Longer(..) | Case::Weighed(..) | Case::Zoned(_) => {
            return vec![(last, 3_000); 4]
        }
        _ => {}
    }
    let count = 1 + usize::from(random.chance(30));
    let route = |_| {
        let iso = random.below(rules.isos.len()) as u16;
        (iso, query::longest(random))
    };
    (0..count).map(route).collect()
}
