//! Cases one after the other, each through the desk program and through the
//! services with lent areas.

use crate::calls::{fit, short, Calls};
use crate::case::{self, Case};
use crate::ceilings;
use crate::desk::{difference, numbers, Program};
use crate::endings;
use crate::idle;
use crate::input::{self, Input};
use crate::list;
use crate::longer;
use crate::service::{Ask, Call, Services};
use crate::tally::{
    Tally, FILE, LIBRARY, QUERY, RULES, THERE_AND_BACK, TURNED_ACCEPTED, TURNED_TWICE,
};
use crate::trip::{Step, Trip};
use crate::variables;
use crate::zoned;
use apart::areas::Known;
use apart::desk::desk;
use apart::generate::pair;
use apart::generate::random::Random;
use apart::{before, turn_rules, Rules};
use std::io;

pub struct Block<P, S> {
    pub(crate) program: P,
    pub(crate) calls: Calls<S>,
    /// What the desk program has printed for the case.
    pub(crate) printed: Vec<u8>,
    pub tally: Tally,
}

impl<P: Program, S: Services> Block<P, S> {
    pub fn new(program: P, services: S, random: &mut Random) -> Block<P, S> {
        Block {
            program,
            calls: Calls::new(services, random),
            printed: Vec::new(),
            tally: Tally::default(),
        }
    }

    /// Makes the file of a case with so many queries and compares all. Gives
    /// the number of queries that were answered.
    pub fn case(&mut self, random: &mut Random, case: Case, due: usize) -> io::Result<usize> {
        let (file, wanted) = case::file(random, case);
        let known = Known::of(&file);
        self.promised(case, &known, wanted);
        ceilings::count(&mut self.tally, case, &known);
        endings::count_file(&mut self.tally, &known);
        let trips = match &known.checked {
            Ok(rules) => trips(random, case, rules),
            Err(_) => Vec::new(),
        };
        let input = input::make(random, &known, &trips, due);
        let answered = self.desk(&input)?;
        self.tally.files += 1;
        variables::count(&mut self.tally, &known, variables::RULES);
        idle::count(&mut self.tally, &known, idle::RULES);
        zoned::count(&mut self.tally, &known, zoned::RULES);
        zoned::count_refused(&mut self.tally, case, &known);
        zoned::hold_before(&mut self.tally, &known);
        self.before(&known, &trips, &input);
        self.services(random, &known, &trips);
        variables::count(&mut self.tally, &known, variables::LIBRARY);
        idle::count(&mut self.tally, &known, idle::LIBRARY);
        zoned::count(&mut self.tally, &known, zoned::LIBRARY);
        longer::count_file(&mut self.tally, &known);
        let list = list::make(random, case, &known, &input.bytes[file.len()..]);
        self.calls.sheet(random, &mut self.tally, &known, &list);
        zoned::count(&mut self.tally, &known, zoned::SHEET);
        self.requests(random, case, &known);
        endings::count_queries(&mut self.tally, &known, &input.bytes, &list);
        if random.chance(20) {
            self.other_endings(random, &known, &input.bytes, &list)?;
        }
        self.shuffled(random, &known, &input, &trips, &list)?;
        if let Ok(rules) = &known.checked {
            for ask in input.asks() {
                self.run(random, &known, ask);
            }
            self.turned(random, &known, &turn_rules(rules), &trips)?;
        }
        Ok(answered)
    }

    /// The services of later requests on a file.
    fn requests(&mut self, random: &mut Random, case: Case, known: &Known) {
        self.calls.settings(random, &mut self.tally, case, known);
        self.calls.overlaps(random, &mut self.tally, known);
        if case == Case::Longest {
            self.calls.late_clash(random, &mut self.tally);
        }
        self.calls.bounds(random, &mut self.tally, case, known);
        self.calls.witness(random, &mut self.tally, known);
        if matches!(case, Case::Counted(_)) {
            self.calls.faults(random, &mut self.tally);
        }
        self.calls.pair_lists(random, &mut self.tally, case, known);
        self.calls.plays(random, &mut self.tally, case, known);
        self.calls.zoned(random, &mut self.tally, case, known);
    }

    /// Compares the check of the file with what the case says beforehand.
    pub fn promised(&mut self, case: Case, known: &Known, wanted: Option<(u8, usize)>) {
        let given = match &known.checked {
            Ok(_) => (0, 0),
            Err(refusal) => (refusal.number, refusal.line),
        };
        match (wanted, case) {
            (Some(wanted), _) if wanted != given => {
                let text = format!("{case:?} has to give {wanted:?}, here {given:?}");
                self.tally.mismatch(text, known.file.to_vec());
            }
            (_, Case::Pair(pair, 0)) => {
                self.tally.pairs[pair] += 1;
                idle::count_pair(&mut self.tally, pair::all()[pair]);
            }
            _ => {}
        }
    }

    /// Holds the check, and the runs of an accepted file, to what they gave
    /// before request 03.
    pub fn before(&mut self, known: &Known, trips: &[Trip], input: &Input) {
        let steps = trips.iter().flat_map(|trip| trip.steps(false));
        let asks = steps.map(|step| step.ask).chain(input.asks());
        match variables::law(&before::check(known.file), known, &asks.collect::<Vec<_>>()) {
            Ok(row) => self.tally.variables.hit(row, variables::RULES),
            Err(text) => self.tally.mismatch(text, input.bytes.clone()),
        }
    }

    /// Compares what the desk program prints. Gives the number of queries that
    /// were answered.
    fn desk(&mut self, input: &Input) -> io::Result<usize> {
        let ours = desk(&input.bytes);
        let theirs = self.program.printed(&input.bytes)?;
        let law = &theirs[..input.law.len().min(theirs.len())];
        let mut numbers = numbers(&ours).into_iter();
        if let Some((number, _)) = numbers.next() {
            self.tally.numbers.hit(number, FILE);
        }
        let mut answered = 0;
        for (number, count) in numbers {
            answered += 1;
            self.tally.numbers.hit(number, QUERY);
            self.tally.count(count, RULES);
        }
        for (row, column) in &input.budgets {
            self.tally.budgets.hit(*row, *column);
        }
        self.tally.queries += answered;
        let differs = difference(&ours, &theirs).or_else(|| difference(&input.law, law));
        if let Some(what) = differs {
            self.tally.mismatch(what, input.bytes.clone());
        }
        self.printed = theirs;
        Ok(answered)
    }

    /// Check and Turn with areas long enough and with short ones, and runs
    /// that `rules` cannot be asked for.
    fn services(&mut self, random: &mut Random, known: &Known, trips: &[Trip]) {
        for call in [Call::Check, Call::Turn] {
            let kinds = fit(random);
            self.calls.call(random, &mut self.tally, known, call, kinds);
            let kinds = short(random, call);
            self.calls.call(random, &mut self.tally, known, call, kinds);
        }
        let letters = input::letters(random);
        let odd = input::odd(random, known, &letters);
        self.run(random, known, odd);
        let steps = trips.iter().flat_map(|trip| trip.steps(false));
        let mut asks: Vec<Ask> = steps.map(|step| step.ask).collect();
        asks.retain(|ask| ask.budget < 4_000);
        asks.push(odd);
        let call = Call::Run(*random.pick(&asks));
        let kinds = short(random, call);
        self.calls.call(random, &mut self.tally, known, call, kinds);
    }

    fn run(&mut self, random: &mut Random, known: &Known, ask: Ask) {
        let kinds = fit(random);
        let call = Call::Run(ask);
        self.calls.call(random, &mut self.tally, known, call, kinds);
    }

    /// The turned file is accepted, turning it gives the first file with its
    /// carriage returns taken out, and runs of both undo each other.
    fn turned(
        &mut self,
        random: &mut Random,
        known: &Known,
        turned: &[u8],
        trips: &[Trip],
    ) -> io::Result<()> {
        let other = Known::of(turned);
        self.turned_twice(random, known, &other);
        self.calls
            .turned_alike(random, &mut self.tally, known, &other);
        let input = input::turned(turned, trips);
        self.desk(&input)?;
        self.tally.turned += 1;
        self.tally.laws.hit(TURNED_ACCEPTED, RULES);
        variables::count(&mut self.tally, &other, variables::TURNED);
        zoned::count(&mut self.tally, known, zoned::TURNED);
        for trip in trips {
            variables::count_trip(&mut self.tally, known, trip);
            zoned::count_trip(&mut self.tally, known, trip);
            for (turned, known) in [(false, known), (true, &other)] {
                for step in trip.steps(turned) {
                    self.step(random, known, &step);
                }
            }
            self.tally.laws.hit(THERE_AND_BACK, RULES);
            self.tally.laws.hit(THERE_AND_BACK, LIBRARY);
        }
        Ok(())
    }

    fn turned_twice(&mut self, random: &mut Random, known: &Known, other: &Known) {
        let kinds = fit(random);
        let checked = self
            .calls
            .call(random, &mut self.tally, other, Call::Check, kinds);
        let kinds = fit(random);
        let answer = self
            .calls
            .call(random, &mut self.tally, other, Call::Turn, kinds);
        let plain = known.file.iter().filter(|byte| **byte != b'\r');
        let same = self.calls.written(answer.length).iter().eq(plain);
        if checked.number != 0 || !same {
            let text = format!("the turned file gives {checked:?}, turned twice the same: {same}");
            self.tally.mismatch(text, known.file.to_vec());
        }
        self.tally.laws.hit(TURNED_ACCEPTED, LIBRARY);
        self.tally.laws.hit(TURNED_TWICE, LIBRARY);
    }

    /// One run of a trip through the services, held to what it has to give.
    fn step(&mut self, random: &mut Random, known: &Known, step: &Step) {
        let kinds = fit(random);
        let call = Call::Run(step.ask);
        let answer = self.calls.call(random, &mut self.tally, known, call, kinds);
        let (row, column) = step.place;
        self.tally.budgets.hit(row, column + 3);
        let written = self.calls.written(answer.length);
        if let Some(what) = step.difference(&answer, written) {
            let input = [known.file, &step.query()].concat();
            self.tally.mismatch(what, input);
        }
    }
}

/// Trips there and back for an accepted file.
fn trips(random: &mut Random, case: Case, rules: &Rules) -> Vec<Trip> {
    let routes = case::routes(random, case, rules);
    let trips = routes
        .into_iter()
        .filter_map(|(iso, longest)| Trip::new(random, rules, iso, longest));
    trips.collect()
}
