//! `compare`: what differs between two releases of a file. The same bytes, other endings and another order of clauses
//! are told by looking at the lines, and that they are harmless is proved; anything else is told by conversions.

use crate::arguments::Given;
use crate::explain::{entry, wrapped};
use crate::input::{self, Input};
use crate::rules::{Iso, Rules, ENDLESS};
use crate::run::{counted, in_words};
use crate::settings::MOST_LETTERS;
use crate::show::tree;
use crate::{check, names, output, progress, settings, Failure, Outcome, Status};
use rulefile::{Bounds, Desk, Direction, Query, Refusal, Refused, Value, MAX_QUERIES};
use std::collections::BTreeSet;

/// The most settings of an iso that are all compared: as many as there are pair lists of.
const ALL: u128 = 4_096;

/// How many settings of a larger one are tried.
const TRIED: usize = MAX_QUERIES;

/// The most steps that a setting gets.
const BUDGET: u32 = 10_000;

/// What is said where it is not enough.
const OVER: &str = "not compared: a setting takes over 10000 steps";

/// What is said where none of the lists that were tried is given a result.
const NONE: &str = "not compared: no setting that was tried is given a result within 10000 steps";

/// How many settings that differ are shown of an iso.
const SHOWN: usize = 3;

const ENDINGS: &str = "request 06, files from the other editor: a line ends with a line feed, or with a carriage return and \
    a line feed; files that differ in nothing else get the same verdict and answer everything alike. That is proved \
    (crates/law_endings: verdict-alike, run-alike and one for each service)";

const ORDER: &str = "request 08, clauses in any order: two files that differ only in the order of clauses within isos, let \
    steps moving with their clause, are both accepted or both refused, and if accepted answer every query alike. That is \
    proved (crates/law_reordering)";

const NUMBERS: &str = "lists of units (`rulefile play`) and the commands `number`, `setting` and `import` name T lines by \
    number: they would mean something else with the new file";

/// A file, and its lines.
struct Side {
    file: Input,
    rules: Rules,
}

/// What came of the comparison of an iso.
enum Found {
    /// The same, and how that is known.
    Same(String),
    /// Something differs for certain; what, in lines.
    Differs(Vec<String>),
    /// Nothing was found that differs; what was tried.
    Tried(String),
}

/// The lines of a file, each with its ending.
fn lines(file: &[u8]) -> Vec<&[u8]> {
    file.split_inclusive(|byte| *byte == b'\n').collect()
}

/// A line without its ending; a last line without a line feed has none.
fn cut(line: &[u8]) -> &[u8] {
    match line.strip_suffix(b"\n") {
        Some(line) => line.strip_suffix(b"\r").unwrap_or(line),
        None => line,
    }
}

/// The lines with the clauses of each iso, let steps with their clause, in an order of their own.
fn sorted<'a>(lines: &[&'a [u8]]) -> Vec<&'a [u8]> {
    let letter = |line: &[u8]| line.first().copied().unwrap_or_default();
    let mut sorted = Vec::new();
    let mut clauses: Vec<Vec<&[u8]>> = Vec::new();
    for line in lines {
        match (letter(line), clauses.last_mut()) {
            (b'C', _) => clauses.push(vec![line]),
            (b'L', Some(clause)) => clause.push(line),
            _ => {
                clauses.sort();
                sorted.extend(clauses.drain(..).flatten());
                sorted.push(*line);
            }
        }
    }
    clauses.sort();
    sorted.extend(clauses.into_iter().flatten());
    sorted
}

/// What two files that need no conversion to be compared have in common, and why what differs is harmless.
fn alike(old: &[u8], new: &[u8]) -> Option<(&'static str, Vec<&'static str>)> {
    if old == new {
        return Some(("have the same bytes", Vec::new()));
    }
    let [a, b] = [lines(old), lines(new)];
    let [x, y] = [&a, &b].map(|lines| lines.iter().map(|line| cut(line)).collect::<Vec<_>>());
    if x == y {
        Some(("differ in the endings of their lines alone", vec![ENDINGS]))
    } else if sorted(&a) == sorted(&b) {
        Some(("differ in the order of clauses alone", vec![ORDER]))
    } else if sorted(&x) == sorted(&y) {
        let both = "differ in the order of clauses and in the endings of their lines alone";
        Some((both, vec![ORDER, ENDINGS]))
    } else {
        None
    }
}

/// Whether two types are the same tree, under any line numbers.
fn same_type(old: &Rules, a: usize, new: &Rules, b: usize) -> bool {
    let (x, y) = (old.types[a], new.types[b]);
    let parts = || old.parts(a).into_iter().zip(new.parts(b));
    x.kind == y.kind && x.nodes == y.nodes && parts().all(|(x, y)| same_type(old, x, new, y))
}

/// A type as it reads.
fn reading(rules: &Rules, ty: usize) -> String {
    format!("T{ty} = {}", tree::ty(rules, ty).text())
}

/// The ends of an iso that are not the same type.
fn ends(old: &Side, new: &Side, [a, b]: [&Iso; 2]) -> Vec<String> {
    let mut said = Vec::new();
    for (way, x, y) in [("from", a.from, b.from), ("to", a.to, b.to)] {
        if !same_type(&old.rules, x, &new.rules, y) {
            let (x, y) = (reading(&old.rules, x), reading(&new.rules, y));
            said.push(format!("it leads {way} another type: {x} then, {y} now"));
        }
    }
    said
}

/// A setting with what becomes of it in both files.
fn differing(number: Option<usize>, from: &str, was: &str, is: &str) -> String {
    let number = number.map(|number| format!("number {number}, "));
    let number = number.unwrap_or_default();
    format!("{number}{from}: {was} then, {is} now")
}

/// The tos of a pair list.
fn tos(list: &[u8]) -> Vec<u32> {
    let text = String::from_utf8_lossy(list);
    let pairs = text.lines().filter_map(|line| line.split_once(','));
    pairs.filter_map(|pair| pair.1.parse().ok()).collect()
}

/// What is answered to a query, a setting of a T line, with its steps.
fn answered(rules: &Rules, ty: usize, answer: &Result<Value, Refusal>) -> String {
    match answer {
        Ok(value) => {
            let steps = counted(value.count.into(), "step");
            format!("{} in {steps}", tree::setting(rules, ty, &value.letters))
        }
        Err(refusal) => format!("refused with {refusal} under {BUDGET} steps"),
    }
}

/// Two files whose isos are compared.
struct Pair<'a> {
    desk: Desk,
    old: &'a Side,
    new: &'a Side,
    /// The lines of the first, with the names that people gave.
    named: &'a Rules,
}

impl Pair<'_> {
    /// An iso of both, with the same ends.
    fn iso(&mut self, place: usize) -> Result<Found, Refused> {
        let isos = [&self.old.rules.isos[place], &self.new.rules.isos[place]];
        let said = ends(self.old, self.new, isos);
        if !said.is_empty() {
            return Ok(Found::Differs(said));
        }
        let bounds = [self.bounds(self.old, place)?, self.bounds(self.new, place)?];
        let count = self.old.rules.settings[isos[0].from];
        let bounds = match bounds {
            [Some(was), Some(is)] => [was, is],
            // an iso that has to do with lists has no bounds
            _ => return self.some(place, count),
        };
        let [least, greatest] = bounds.map(|bounds| [bounds.least, bounds.greatest])[0];
        let settled = least == greatest && !bounds[0].greatest_over;
        let found = match count <= ALL {
            true => self.all(place, count, settled && bounds[0] == bounds[1])?,
            false => self.some(place, count)?,
        };
        if bounds[0] == bounds[1] {
            return Ok(found);
        }
        let [was, is] = bounds.map(in_words);
        let steps = format!("it takes {was} then, {is} now");
        Ok(match found {
            Found::Differs(mut said) => {
                said.insert(0, steps);
                Found::Differs(said)
            }
            Found::Same(how) | Found::Tried(how) => Found::Differs(vec![steps, how]),
        })
    }

    /// The bounds of an iso; none where it has to do with lists.
    fn bounds(&mut self, side: &Side, place: usize) -> Result<Option<Bounds>, Refused> {
        match self.desk.bounds(&side.file.bytes, place as u32) {
            Err(refused) if refused.refusal == Refusal::TooMany => Ok(None),
            bounds => bounds.map(Some),
        }
    }

    /// Every setting, by pair lists, and then the steps of each, unless they are settled.
    fn all(&mut self, place: usize, count: u128, settled: bool) -> Result<Found, Refused> {
        let mut lists = Vec::new();
        for side in [self.old, self.new] {
            match self.desk.export(&side.file.bytes, place as u32, BUDGET) {
                Ok(list) => lists.push(tos(&list)),
                Err(refused) if refused.refusal == Refusal::Spent => {
                    return Ok(Found::Tried(OVER.to_string()));
                }
                Err(refused) => return Err(refused),
            }
        }
        let pairs = lists[0].iter().zip(&lists[1]);
        let differ = pairs.enumerate().filter(|(_, (was, is))| was != is);
        let differ: Vec<usize> = differ.map(|(number, _)| number).collect();
        if !differ.is_empty() {
            return self.listed(place, &lists, &differ);
        }
        let numbers = 0..if settled { 0 } else { count };
        let from = self.old.rules.isos[place].from;
        let letters = |number| settings::of_number(&self.old.rules, from, number);
        let letters: Vec<Vec<u8>> = numbers.map(letters).collect();
        for part in letters.chunks(MAX_QUERIES) {
            match self.queried(place, part)? {
                Err(said) => return Ok(Found::Differs(said)),
                // nothing is called the same that was not answered
                Ok(some) if some < part.len() => return Ok(Found::Tried(OVER.to_string())),
                Ok(_) => {}
            }
        }
        let all = counted(count, "setting");
        Ok(Found::Same(format!("the same, every one of {all}")))
    }

    /// The first settings of a list that differ, by the library's letters.
    fn listed(
        &mut self,
        place: usize,
        lists: &[Vec<u32>],
        differ: &[usize],
    ) -> Result<Found, Refused> {
        let (file, rules) = (&self.old.file, self.named);
        let Iso { from, to, .. } = rules.isos[place];
        let (some, all) = (differ.len(), counted(lists[0].len() as u128, "setting"));
        let mut said = vec![format!("{some} of {all} become something else")];
        for number in differ.iter().take(SHOWN) {
            let mut shown = |ty: usize, number: u32| {
                let letters = self.desk.setting_of(&file.bytes, ty as u32, number)?;
                Ok(tree::setting(rules, ty, &letters))
            };
            let (was, is) = (lists[0][*number], lists[1][*number]);
            let (was, is) = (shown(to, was)?, shown(to, is)?);
            let given = shown(from, *number as u32)?;
            said.push(differing(Some(*number), &given, &was, &is));
        }
        said.extend((some > SHOWN).then(|| format!("and {} more", some - SHOWN)));
        Ok(Found::Differs(said))
    }

    /// How many of these settings both files answer; the first that they do not answer alike, with the same steps.
    fn queried(
        &mut self,
        place: usize,
        letters: &[Vec<u8>],
    ) -> Result<Result<usize, Vec<String>>, Refused> {
        let query = |letters| Query::new(place as u32, Direction::Forward, BUDGET, letters);
        let queries: Vec<Query> = letters.iter().map(|letters| query(letters)).collect();
        let was = self.desk.sheet_of(&self.old.file.bytes, &queries)?;
        let is = self.desk.sheet_of(&self.new.file.bytes, &queries)?;
        let answers = letters.iter().zip(was.iter().zip(&is));
        let differ = answers.filter(|(_, (was, is))| was != is);
        let rules = self.named;
        let Iso { from, to, .. } = rules.isos[place];
        let said = |(letters, (was, is)): (&Vec<u8>, (&_, &_))| {
            let [was, is] = [was, is].map(|answer| answered(rules, to, answer));
            differing(None, &tree::setting(rules, from, letters), &was, &is)
        };
        let differ: Vec<String> = differ.map(said).collect();
        let (some, all) = (differ.len(), letters.len());
        if some == 0 {
            return Ok(Ok(was.iter().filter(|was| was.is_ok()).count()));
        }
        let mut shown = vec![format!(
            "{some} of {all} settings that were tried are answered otherwise"
        )];
        shown.extend(differ.into_iter().take(SHOWN));
        shown.extend((some > SHOWN).then(|| format!("and {} more", some - SHOWN)));
        Ok(Err(shown))
    }

    /// A setting for each clause of both files, and others spread over all.
    fn samples(&self, place: usize, count: u128) -> Vec<Vec<u8>> {
        let mut samples = BTreeSet::new();
        for side in [self.old, self.new] {
            let iso = &side.rules.isos[place];
            let clauses = iso.clauses.iter();
            samples
                .extend(clauses.filter_map(|c| settings::matched(&side.rules, c.left, iso.from)));
        }
        let (rules, from) = (&self.old.rules, self.old.rules.isos[place].from);
        let free = (TRIED - samples.len().min(TRIED - 2)) as u128;
        for step in 0..free {
            samples.insert(match rules.endless(from) {
                true => settings::at(rules, from, (step, free)),
                false => settings::of_number(rules, from, (count - 1) * step / (free - 1)),
            });
        }
        // where two of them were the same
        for number in 1..TRIED as u128 {
            if samples.len() < TRIED {
                samples.insert(settings::of_number(rules, from, number));
            }
        }
        samples.retain(|letters| letters.len() <= MOST_LETTERS);
        let mut samples: Vec<Vec<u8>> = samples.into_iter().take(TRIED).collect();
        if rules.endless(from) {
            samples.sort_by_key(Vec::len);
        }
        samples
    }

    /// Some settings of many.
    fn some(&mut self, place: usize, count: u128) -> Result<Found, Refused> {
        let samples = self.samples(place, count);
        let endless = count == ENDLESS;
        let of = match endless {
            true => "settings without end".to_string(),
            false => format!("{count} settings"),
        };
        Ok(match self.queried(place, &samples)? {
            Err(said) => Found::Differs(said),
            Ok(0) if endless => Found::Tried(NONE.to_string()),
            Ok(0) => Found::Tried(OVER.to_string()),
            Ok(some) => Found::Tried(format!(
                "tried with {some} of {of}, and none differs; the others were not compared"
            )),
        })
    }
}

/// What the isos of both files come to, each in lines, and the isos that one of them has alone.
fn isos(old: &Side, new: &Side, named: &Rules) -> Result<Vec<(usize, Found)>, Refused> {
    let counts = [old.rules.isos.len(), new.rules.isos.len()];
    let mut pair = Pair {
        desk: Desk::new(),
        old,
        new,
        named,
    };
    let mut found = Vec::new();
    let all = counts[0].max(counts[1]);
    for place in 0..all {
        progress::tell(format!("{place} of {all} conversions"));
        let alone = match (place < counts[0], place < counts[1]) {
            (true, true) => None,
            (true, false) => Some("only the first file has it"),
            _ => Some("only the second file has it"),
        };
        found.push(match alone {
            Some(alone) => (place, Found::Differs(vec![alone.to_string()])),
            None => (place, pair.iso(place)?),
        });
    }
    Ok(found)
}

/// The first T line that is another type in the other file, in words.
fn types(old: &Rules, new: &Rules) -> Option<String> {
    let (a, b) = (old.types.len(), new.types.len());
    let other = |place: &usize| !same_type(old, *place, new, *place);
    match (0..a.min(b)).find(other) {
        Some(place) => {
            let (was, is) = (reading(old, place), reading(new, place));
            Some(format!("{was} then, {is} now; {NUMBERS}"))
        }
        None if a != b => Some(format!("there are {a} then, {b} now; {NUMBERS}")),
        None => None,
    }
}

/// The word of a comparison, and its sentence.
fn answer(found: &[(usize, Found)], types: bool) -> (&'static str, String) {
    let count = |of: fn(&Found) -> bool| found.iter().filter(|(_, one)| of(one)).count();
    let differ = count(|one| matches!(one, Found::Differs(_)));
    let tried = count(|one| matches!(one, Found::Tried(_)));
    let all = counted(found.len() as u128, "conversion");
    let (word, sentence) = match (differ, tried) {
        (0, 0) => (
            "same",
            format!("convert alike: {all}, every setting of each"),
        ),
        (0, _) => {
            let whole = format!("of {all}, {tried} could not be compared whole");
            ("tried", format!("may convert alike: {whole}"))
        }
        (1, _) => (
            "differ",
            format!("do not convert alike: of {all}, 1 differs"),
        ),
        _ => (
            "differ",
            format!("do not convert alike: of {all}, {differ} differ"),
        ),
    };
    match types && word != "differ" {
        false => (word, sentence),
        true => (
            "differ",
            format!("{sentence}; but T lines are numbered otherwise"),
        ),
    }
}

/// A text below a heading, its lines behind the first further in.
fn item(text: &str) -> String {
    let lines = wrapped("", text, 94);
    let lines: Vec<&str> = lines.lines().collect();
    format!("    {}\n", lines.join("\n      "))
}

/// The whole comparison of two accepted files, in words, and whether nothing differs for certain.
fn compared(old: &Side, new: &Side, named: &Rules) -> Result<(String, Status), Refused> {
    let names = format!("{} and {}", old.file.name, new.file.name);
    if let Some((common, laws)) = alike(&old.file.bytes, &new.file.bytes) {
        let mut text = format!("same\n{names} {common}.\n");
        for law in laws {
            text += &entry("why that is harmless", law);
        }
        return Ok((text, Status::Done));
    }
    let found = isos(old, new, named)?;
    let types = types(&old.rules, &new.rules);
    let (word, sentence) = answer(&found, types.is_some());
    let mut text = format!("{word}\n{names} {sentence}.\n");
    for (place, one) in &found {
        text += &match one {
            Found::Same(how) | Found::Tried(how) => entry(&format!("iso {place}"), how),
            Found::Differs(said) => {
                let said = said.iter().map(|said| item(said));
                format!("  iso {place}: differs\n{}", said.collect::<String>())
            }
        };
    }
    text += &types
        .map(|types| entry("T lines", &types))
        .unwrap_or_default();
    let status = match word {
        "same" => Status::Done,
        _ => Status::Refused,
    };
    Ok((text, status))
}

/// What is said where a file is refused: its verdict as `check` has it, and what is known of the other one.
fn refused(files: &[Input; 2], verdicts: [Result<(), Refused>; 2]) -> String {
    let mut text = String::new();
    for (file, verdict) in files.iter().zip(verdicts) {
        if verdict.is_err() {
            text += &format!("{}\n", check::verdict(file, verdict));
        }
    }
    let [old, new] = [&files[0].name, &files[1].name];
    match alike(&files[0].bytes, &files[1].bytes) {
        Some((common, _)) => text + &format!("{old} and {new} {common}.\n"),
        None => {
            let nothing = "are not compared: nothing of a refused file may be used";
            text + &format!("{old} and {new} {nothing}.\n")
        }
    }
}

/// Compares two files. Of one that is refused its verdict is all there is to say.
pub fn compare(given: &Given) -> Outcome {
    let paths = [given.word(0), given.word(1)];
    if paths == ["-", "-"] {
        let why = "OLD and NEW cannot both be standard input";
        return Err(Failure(why.to_string()));
    }
    let files = [input::read(paths[0])?, input::read(paths[1])?];
    let mut desk = Desk::new();
    let verdicts = [desk.check(&files[0].bytes), desk.check(&files[1].bytes)];
    if verdicts.iter().any(Result::is_err) {
        output::print(refused(&files, verdicts).as_bytes())?;
        return Ok(Status::Refused);
    }
    // T lines of the second file may have other numbers: settings of both are told as those of the first
    let named = names::rules(paths[0], &files[0].bytes);
    let [old, new] = files.map(|file| Side {
        rules: Rules::of(&file.bytes),
        file,
    });
    match compared(&old, &new, &named) {
        Ok((text, status)) => output::print(text.as_bytes()).map(|()| status),
        Err(refused) => Ok(check::say_refused(&refused.into())),
    }
}
