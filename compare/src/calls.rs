//! One call on both sides, with areas alike, and the comparison of the answers
//! and of every element of the areas.

use crate::areas::{Areas, Kind, Noise, Shape};
use crate::bounds;
use crate::overlaps;
use crate::pair_lists;
use crate::service::{expected, query, Answer, Ask, Call, Services};
use crate::settings;
use crate::sheets::{self, Given};
use crate::sizes;
use crate::tally::{Tally, BY_SHEET, CHECK, ISO_ABOVE_65535, LETTERS, LIBRARY, RUN, SHORT, TURN};
use crate::witness;
use crate::zoned;
use apart::areas::{Known, RESULT};
use apart::bounds::bounds_rules;
use apart::generate::query::line;
use apart::generate::random::Random;
use apart::lines::split;
use apart::numbering::{number_of_rules, setting_of_rules};
use apart::overlap::overlap_rules;
use apart::pair_lists::{export_rules, import_rules};
use apart::run_rules;
use apart::sheet::{NUMBERS, QUERIES};
use apart::witness::answered;

pub struct Calls<S> {
    pub(crate) services: S,
    ours: Areas,
    theirs: Areas,
    pub(crate) noise: Noise,
}

/// Kinds of areas that are long enough.
pub fn fit(random: &mut Random) -> [Kind; 4] {
    [0; 4].map(|_| *random.pick(&[Kind::Exact, Kind::Longer]))
}

/// Kinds of areas of which one is short, now and then more than one.
pub fn short(random: &mut Random, call: Call) -> [Kind; 4] {
    let mut kinds = fit(random);
    let more = usize::from(random.chance(10));
    for _ in 0..1 + more {
        kinds[random.below(call.areas())] = too_short(random);
    }
    kinds
}

/// A kind of area that is not long enough, most often by one.
pub fn too_short(random: &mut Random) -> Kind {
    *random.pick(&[
        Kind::Short,
        Kind::Short,
        Kind::Short,
        Kind::Fewer,
        Kind::Empty,
    ])
}

impl<S: Services> Calls<S> {
    pub fn new(services: S, random: &mut Random) -> Calls<S> {
        Calls {
            services,
            ours: Areas::default(),
            theirs: Areas::default(),
            noise: Noise::new(random),
        }
    }

    /// Makes the call on both sides and gives the answer of the services.
    pub fn call(
        &mut self,
        random: &mut Random,
        tally: &mut Tally,
        known: &Known,
        call: Call,
        kinds: [Kind; 4],
    ) -> Answer {
        let least = call.least(known.file);
        let shapes = [0, 1, 2, 3].map(|area| Shape::new(random, least[area], kinds[area]));
        self.ours.fill(&shapes, &self.noise);
        self.theirs.fill(&shapes, &self.noise);
        let ours = expected(known, call, self.ours.lend());
        let theirs = self.services.call(known.file, call, self.theirs.lend());
        let lengths = shapes.map(|shape| shape.length);
        count(tally, known, call, lengths, &ours);
        sizes::count(
            tally,
            sizes::column(call),
            self.ours.table.lent(),
            ours.number,
        );
        settings::count(tally, known, call, &ours, &theirs);
        overlaps::count(tally, known, call, &ours, &theirs);
        bounds::count(tally, known, call, &ours, &theirs);
        witness::count(tally, known, call, &ours, &theirs);
        pair_lists::count(tally, known, call, &ours, &theirs);
        zoned::count_run(tally, known, call, &ours);
        if let Call::Sheet(list) = call {
            let numbers = &self.ours.numbers.lent()[..ours.queries * NUMBERS];
            sheets::count(tally, list, ours.number, numbers);
        }
        if let Some(what) = difference(&ours, &theirs, &self.ours, &self.theirs) {
            let text = format!("{}, areas of {lengths:?}: {what}", name(call));
            tally.mismatch(text, input(known.file, call));
        }
        theirs
    }

    /// What the services have written to the last call's output or result.
    pub fn written(&mut self, length: usize) -> &[u8] {
        let out = self.theirs.out.lent();
        &out[..length.min(out.len())]
    }

    /// What the services have left in the numbers and letters of the last call.
    pub fn given(&mut self) -> Given {
        Given {
            numbers: self.theirs.numbers.lent().to_vec(),
            letters: self.theirs.out.lent().to_vec(),
        }
    }
}

/// The first thing in which two answers or their areas differ.
pub fn difference(ours: &Answer, theirs: &Answer, own: &Areas, other: &Areas) -> Option<String> {
    if ours != theirs {
        return Some(format!("here {ours:?}, there {theirs:?}"));
    }
    own.difference(other)
}

fn name(call: Call) -> String {
    match call {
        Call::Check => "Check".to_string(),
        Call::Turn => "Turn".to_string(),
        Call::Run(Ask {
            iso, back, budget, ..
        }) => format!("Run of iso {iso}, back {back}, budget {budget}"),
        Call::Sheet(list) => format!("Sheet, the last {} bytes its queries", list.len()),
        Call::NumberOf(ty, _) => format!("number of a setting of T line {ty}"),
        Call::SettingOf(ty, number) => format!("setting {number} of T line {ty}"),
        Call::Overlap(left, right) => format!("overlap of P lines {left} and {right}"),
        Call::Bounds(iso) => format!("bounds of iso {iso}"),
        Call::Witness => "Witness".to_string(),
        Call::Export(iso, budget) => format!("iso {iso} as a list, budget {budget}"),
        Call::Import(from, to, list) => {
            let bytes = list.len();
            format!("T lines {from} and {to}, the last {bytes} bytes the list")
        }
    }
}

/// The file and the queries of a call in the form of the desk program; the
/// calls of settings as numbers in that of the stored examples, one for an
/// overlap as `O,left,right`, one for bounds as `B,iso`; of pair lists
/// `E,iso,budget`, and `M,from,to` with the list behind it.
pub fn input(file: &[u8], call: Call) -> Vec<u8> {
    let mut input = file.to_vec();
    match call {
        Call::Check | Call::Turn | Call::Witness => {}
        Call::Run(ask) => input.extend(line(ask.iso as usize, ask.back, ask.budget, ask.letters)),
        Call::Sheet(list) => input.extend(list),
        Call::NumberOf(ty, letters) => {
            input.extend(format!("N,{ty},").into_bytes());
            input.extend(letters);
            input.push(b'\n');
        }
        Call::SettingOf(ty, number) => input.extend(format!("S,{ty},{number}\n").into_bytes()),
        Call::Overlap(left, right) => input.extend(format!("O,{left},{right}\n").into_bytes()),
        Call::Bounds(iso) => input.extend(format!("B,{iso}\n").into_bytes()),
        Call::Export(iso, budget) => input.extend(format!("E,{iso},{budget}\n").into_bytes()),
        Call::Import(from, to, list) => {
            input.extend(format!("M,{from},{to}\n").into_bytes());
            input.extend(list);
        }
    }
    input
}

/// Counts the number given and the kinds of the areas. Numbers that are given
/// for settings, overlaps, bounds, pair lists and witnesses have tables of
/// their own.
fn count(tally: &mut Tally, known: &Known, call: Call, lengths: [usize; 4], ours: &Answer) {
    tally.calls += 1;
    let (column, rows) = match call {
        Call::Check => (Some(CHECK), &[0, 1][..]),
        Call::Turn => (Some(TURN), &[0, 1, 2][..]),
        Call::Run(_) => (Some(RUN), &[0, 1, 3][..]),
        Call::Sheet(_) => (Some(BY_SHEET), &[4, 5, 6, 7][..]),
        Call::NumberOf(..) => (None, &[8, 9][..]),
        Call::SettingOf(..) => (None, &[10, 11, 12][..]),
        Call::Overlap(..) => (None, &[13, 14][..]),
        Call::Bounds(_) => (None, &[15, 16][..]),
        Call::Witness => (None, &[17, 18, 19][..]),
        Call::Export(..) => (None, &[20, 21, 22][..]),
        Call::Import(..) => (None, &[23, 24, 25][..]),
    };
    if let Some(column) = column {
        tally.numbers.hit(ours.number as usize, column);
        if ours.number == 1 {
            tally.numbers.hit(otherwise(known, call), SHORT);
        }
    }
    if matches!(call, Call::Run(ask) if ask.iso > 65_535) {
        tally.laws.hit(ISO_ABOVE_65535, LIBRARY);
    }
    if column == Some(RUN) && ours.length == RESULT {
        tally.ceilings.hit(LETTERS, 0);
    }
    if matches!(call, Call::Run(ask) if ask.letters.len() == RESULT + 1) && ours.number == 24 {
        tally.ceilings.hit(LETTERS, 1);
    }
    tally.count(ours.count, LIBRARY);
    let least = call.least(known.file);
    let lacks = |area: &usize| lengths[*area] < least[*area];
    let lacking: Vec<usize> = (0..least.len()).filter(lacks).collect();
    for (area, row) in rows.iter().enumerate() {
        // An area counts as short where it is the only one.
        if lacking.is_empty() || lacking == [area] {
            let kind = Kind::of(lengths[area], least[area]);
            tally.areas.hit(*row, kind as usize);
        }
    }
}

/// The number that the call would be given if its areas were long enough.
pub fn otherwise(known: &Known, call: Call) -> usize {
    if matches!(call, Call::Sheet(list) if split(list).len() > QUERIES) {
        return 2;
    }
    let rules = match &known.checked {
        Ok(rules) => rules,
        Err(refusal) if call == Call::Witness => {
            return answered(known.file, *refusal).0.number.into();
        }
        Err(refusal) => return refusal.number.into(),
    };
    let refused = match call {
        Call::Check | Call::Turn | Call::Sheet(_) | Call::Witness => None,
        Call::Run(ask) => {
            let query = query(ask);
            run_rules(rules, query.iso, query.back, query.budget, query.value).err()
        }
        Call::NumberOf(ty, letters) => number_of_rules(rules, ty, letters).err(),
        Call::SettingOf(ty, setting) => setting_of_rules(rules, ty, setting).err(),
        Call::Overlap(left, right) => overlap_rules(rules, left, right).err(),
        Call::Bounds(iso) => bounds_rules(rules, iso).err(),
        Call::Export(iso, budget) => export_rules(rules, iso, budget).err(),
        Call::Import(from, to, list) => import_rules(rules, from, to, list).err(),
    };
    refused.map_or(0, |refusal| refusal.number.into())
}
