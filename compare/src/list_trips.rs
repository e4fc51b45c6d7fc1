//! Trips through export and import, held to what they have to give.

use crate::calls::{fit, input, Calls};
use crate::pair_lists::{
    enough, EXPORT_IMPORT_EXPORT, IMPORTED_AGAIN, IMPORT_EXPORT, RUNS_ALIKE, TURNED,
};
use crate::service::{Answer, Ask, Call, Services};
use crate::tally::Tally;
use apart::areas::Known;
use apart::generate::ending::resaved;
use apart::generate::query::sample;
use apart::generate::random::Random;
use apart::lines::{parse, split, CLAUSES};
use apart::numbering::values;
use apart::{turn_rules, Rules};

/// "the list without its carriage returns".
pub fn without_returns(list: &[u8]) -> Vec<u8> {
    let kept = list.iter().filter(|byte| **byte != b'\r');
    kept.copied().collect()
}

/// The tos of a list that was exported; `None` where it is not `0,to`, `1,to`
/// and so on.
pub fn tos(list: &[u8]) -> Option<Vec<usize>> {
    let line = |(from, line): (usize, &str)| {
        let to = line.strip_prefix(&format!("{from},"))?;
        to.parse().ok()
    };
    let text = std::str::from_utf8(list).ok()?;
    text.split_terminator('\n').enumerate().map(line).collect()
}

/// The list of pairs exchanged, in the order of their new froms; `None` where
/// some to is missing or there twice.
pub fn exchanged(list: &[u8]) -> Option<Vec<u8>> {
    let tos = tos(list)?;
    let mut froms = vec![None; tos.len()];
    for (from, to) in tos.into_iter().enumerate() {
        let place = froms.get_mut(to)?;
        if place.replace(from).is_some() {
            return None;
        }
    }
    let line = |(to, from): (usize, Option<usize>)| from.map(|from| format!("{to},{from}\n"));
    let lines: Option<Vec<String>> = froms.into_iter().enumerate().map(line).collect();
    lines.map(|lines| lines.concat().into_bytes())
}

/// The T lines that an I line names, by its place among them.
fn types_of(rules: &Rules, iso: usize) -> [u32; 2] {
    let rows = rules.rows.iter().filter(|row| row.letter == b'I');
    let row = rows.clone().nth(iso).expect("the iso is there");
    [row.fields[0].into(), row.fields[1].into()]
}

/// How a file that was imported breaks its form: "no equal line twice".
fn repeats(file: &[u8]) -> bool {
    let mut lines = split(file);
    lines.sort_unstable();
    lines.windows(2).any(|two| two[0] == two[1])
}

/// An iso of at most 128 values, if there is one.
fn short_iso(random: &mut Random, rules: &Rules) -> Option<u32> {
    let few = |iso: &usize| values(&rules.isos[*iso].from) <= CLAUSES as u64;
    let isos: Vec<usize> = (0..rules.isos.len()).filter(few).collect();
    (!isos.is_empty()).then(|| *random.pick(&isos) as u32)
}

impl<S: Services> Calls<S> {
    /// The answer to a call with areas long enough, and what was written.
    fn made(
        &mut self,
        random: &mut Random,
        tally: &mut Tally,
        known: &Known,
        call: Call,
    ) -> (Answer, Vec<u8>) {
        let kinds = fit(random);
        let answer = self.call(random, tally, known, call, kinds);
        (answer, self.written(answer.length).to_vec())
    }

    /// "Exporting an imported list with a budget of 1 or more gives the list
    /// without its carriage returns."
    pub fn exported(&mut self, random: &mut Random, tally: &mut Tally, file: &[u8], list: &[u8]) {
        let known = Known::of(file);
        let call = Call::Export(0, *random.pick(&[1, 2, u32::MAX]));
        let (answer, written) = self.made(random, tally, &known, call);
        if answer.number != 0 || written != without_returns(list) || repeats(file) {
            let text = format!("an imported list gives {answer:?}, not the list again");
            tally.mismatch(text, input(file, call));
        }
        tally.pair_lists.laws.hit(IMPORT_EXPORT, 0);
    }

    /// An iso of at most 128 values exported, the list imported over the same T
    /// lines, and that exported: the list again.
    pub fn list_trip(&mut self, random: &mut Random, tally: &mut Tally, known: &Known) {
        let Ok(rules) = &known.checked else { return };
        let Some(iso) = short_iso(random, rules) else {
            return;
        };
        let budget = enough(rules, iso);
        let (answer, list) = self.made(random, tally, known, Call::Export(iso, budget));
        if answer.number != 0 {
            return;
        }
        if random.chance(25) {
            self.turned_list(random, tally, known, (iso, budget), &list);
        }
        let saved = resaved(random, &list);
        let [from, to] = types_of(rules, iso as usize);
        let call = Call::Import(from, to, &saved);
        let (answer, file) = self.made(random, tally, known, call);
        if answer.number != 0 {
            if answer.number != 7 {
                let text = format!("an exported list is imported with {answer:?}");
                tally.mismatch(text, input(known.file, call));
            }
            return;
        }
        self.exported(random, tally, &file, &saved);
        tally.pair_lists.laws.hit(EXPORT_IMPORT_EXPORT, 0);
        if random.chance(25) {
            self.runs_alike(random, tally, (known, iso, budget), &file);
            self.imported_again(random, tally, &file, &list);
        }
    }

    /// The turned file gives the list with its pairs exchanged: every to is
    /// there once.
    fn turned_list(
        &mut self,
        random: &mut Random,
        tally: &mut Tally,
        known: &Known,
        (iso, budget): (u32, u32),
        list: &[u8],
    ) {
        let Ok(rules) = &known.checked else { return };
        let turned = turn_rules(rules);
        let call = Call::Export(iso, budget);
        let (answer, written) = self.made(random, tally, &Known::of(&turned), call);
        if answer.number != 0 || Some(written) != exchanged(list) {
            let text = format!("turned, {answer:?}, not the pairs exchanged");
            tally.mismatch(text, input(&turned, call));
        }
        tally.pair_lists.laws.hit(TURNED, 0);
    }

    /// A run of the iso and one of the imported file give the same letters, the
    /// latter with a count of 1.
    fn runs_alike(
        &mut self,
        random: &mut Random,
        tally: &mut Tally,
        (known, iso, budget): (&Known, u32, u32),
        file: &[u8],
    ) {
        let Ok(rules) = &known.checked else { return };
        let mut letters = Vec::new();
        sample(random, &rules.isos[iso as usize].from, &mut letters);
        let ask = Ask {
            iso,
            back: false,
            budget,
            letters: &letters,
        };
        let (_, given) = self.made(random, tally, known, Call::Run(ask));
        let again = Call::Run(Ask {
            iso: 0,
            budget: 1,
            ..ask
        });
        let (ran, other) = self.made(random, tally, &Known::of(file), again);
        if (ran.number, ran.count) != (0, 1) || given != other {
            let text = format!("imported, a run gives {ran:?}, and other letters");
            tally.mismatch(text, input(file, again));
        }
        tally.pair_lists.laws.hit(RUNS_ALIKE, 0);
    }

    /// The list imported over the T lines of its own file gives that file.
    fn imported_again(&mut self, random: &mut Random, tally: &mut Tally, file: &[u8], list: &[u8]) {
        let rows = split(file).into_iter().filter_map(parse);
        let mut isos = rows.filter(|row| row.letter == b'I');
        let Some([from, to, _]) = isos.next().map(|row| row.fields) else {
            return;
        };
        let call = Call::Import(from.into(), to.into(), list);
        let (answer, again) = self.made(random, tally, &Known::of(file), call);
        if answer.number != 0 || again != file {
            let text = format!("imported again, {answer:?} and another file");
            tally.mismatch(text, input(file, call));
        }
        tally.pair_lists.laws.hit(IMPORTED_AGAIN, 0);
    }
}
