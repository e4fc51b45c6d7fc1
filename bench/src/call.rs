//! One call of a service, made by either implementation, and the answer it has to give.

use crate::answer::Answer;
use crate::service::{by_apart, by_proved, run_by_apart, run_by_proved, Asked, Service};
use crate::service::{Play, Unit, Visit};
use apart::bounds::bounds_rules;
use apart::numbering::setting_of_rules;
use apart::pair_lists;
use apart::units::play_rules;
use apart::witness::witness_of;
use rulefile::{Overlap, Tally, MAX_QUERIES, MAX_UNITS, NUMBERS_A_QUERY, RESULT_LENGTH};

#[derive(Clone, Copy, PartialEq, Eq, Debug)]
pub enum Implementation {
    Proved,
    Apart,
}

pub use Implementation::{Apart, Proved};

impl Implementation {
    pub fn name(self) -> &'static str {
        match self {
            Proved => "proved",
            Apart => "apart",
        }
    }

    pub fn named(name: &str) -> Option<Implementation> {
        [Proved, Apart].into_iter().find(|one| one.name() == name)
    }
}

const SOIL: u8 = 0xA5;

/// The lent areas. The output is as long as the letters of the largest sheet, longer than any file; the types and
/// settings are those of the most units.
#[derive(PartialEq, Eq)]
pub struct Areas {
    pub table: Vec<u16>,
    pub work: Vec<u8>,
    pub output: Vec<u8>,
    pub numbers: Vec<u32>,
    pub types: Vec<u32>,
    pub settings: Vec<u32>,
}

impl Areas {
    pub fn new() -> Self {
        let mut areas = Areas {
            table: vec![0; rulefile::TABLE_LENGTH],
            work: vec![0; rulefile::WORK_LENGTH],
            output: vec![0; MAX_QUERIES * RESULT_LENGTH],
            numbers: vec![0; MAX_QUERIES * NUMBERS_A_QUERY],
            types: vec![0; MAX_UNITS],
            settings: vec![0; MAX_UNITS],
        };
        areas.soil();
        areas
    }

    /// Puts units where a play finds them.
    fn lend(&mut self, units: &[Unit]) {
        let places = self.types.iter_mut().zip(&mut self.settings);
        for ((ty, setting), unit) in places.zip(units) {
            (*ty, *setting) = (unit.ty, unit.setting);
        }
    }

    /// Whether a play has left these units.
    fn hold(&self, units: &[Unit]) -> bool {
        let places = self.types.iter().zip(&self.settings);
        let mut held = places.zip(units);
        held.all(|((ty, setting), unit)| [*ty, *setting] == [unit.ty, unit.setting])
    }

    /// Fills the areas with what no call leaves there.
    pub fn soil(&mut self) {
        self.table.fill(u16::from_ne_bytes([SOIL; 2]));
        self.work.fill(SOIL);
        self.output.fill(SOIL);
        self.numbers.fill(u32::from_ne_bytes([SOIL; 4]));
        self.types.fill(u32::from_ne_bytes([SOIL; 4]));
        self.settings.fill(u32::from_ne_bytes([SOIL; 4]));
    }
}

/// A call, its answer, and what it writes to its output area and to its numbers.
pub struct Call {
    file: Vec<u8>,
    service: Service,
    answer: Answer,
    written: Vec<u8>,
    numbers: Vec<u32>,
}

impl Call {
    /// Check of a file that is accepted.
    pub fn check(file: Vec<u8>) -> Self {
        Call::refused(file, 0, 0)
    }

    /// Check of a file that is refused with a number at a line.
    pub fn refused(file: Vec<u8>, number: u32, line: usize) -> Self {
        Call::answered(file, Service::Check, Answer::refused(number, line))
    }

    /// A call that writes nothing.
    fn answered(file: Vec<u8>, service: Service, answer: Answer) -> Self {
        Call {
            file,
            service,
            answer,
            written: Vec::new(),
            numbers: Vec::new(),
        }
    }

    /// A call that writes these bytes and gives their length, with what else the answer has.
    fn writing(file: Vec<u8>, service: Service, written: Vec<u8>, answer: Answer) -> Self {
        let length = written.len();
        Call {
            written,
            ..Call::answered(file, service, Answer { length, ..answer })
        }
    }

    /// Turn of an accepted file; what is written has to turn back into it.
    pub fn turn(file: Vec<u8>) -> Self {
        let written = apart::turn(&file).expect("the file is accepted");
        assert_eq!(apart::turn(&written).as_ref(), Ok(&file), "turned twice");
        Call::writing(file, Service::Turn, written, Answer::default())
    }

    /// Run of an iso on a value, with a budget of just the applications that it takes.
    pub fn run(file: Vec<u8>, iso: u16, value: Vec<u8>, budget: u32, written: Vec<u8>) -> Self {
        let answer = Answer {
            count: u64::from(budget),
            ..Answer::default()
        };
        let service = Service::Run(Asked { iso, value, budget });
        Call::writing(file, service, written, answer)
    }

    /// The number of a setting of a T line of an accepted file.
    pub fn number(file: Vec<u8>, ty: u32, letters: Vec<u8>, setting: u32) -> Self {
        let service = Service::Number(ty, letters);
        Call::answered(file, service, Answer::of_setting(setting))
    }

    /// The setting of a number, the other way round.
    pub fn setting(file: Vec<u8>, ty: u32, letters: Vec<u8>, setting: u32) -> Self {
        let service = Service::Setting(ty, setting);
        Call::writing(file, service, letters, Answer::default())
    }

    /// Two P lines of an accepted file compared.
    pub fn overlap(file: Vec<u8>, left: u32, right: u32, overlap: Overlap) -> Self {
        let service = Service::Overlap(left, right);
        Call::answered(file, service, Answer::of_overlap(overlap))
    }

    /// The bounds of an iso of an accepted file.
    pub fn bounds(file: Vec<u8>, iso: u32) -> Self {
        let rules = apart::check(&file).expect("the file is accepted");
        let told = bounds_rules(&rules, iso).expect("the iso is there");
        Call::answered(file, Service::Bounds(iso), told.into())
    }

    /// The witness of a file that is refused with 11 to 14.
    pub fn witness(file: Vec<u8>) -> Self {
        let refusal = apart::check(&file).err().expect("the file is refused");
        let written = witness_of(&file, refusal).expect("a side is at fault");
        let answer = Answer::refused(refusal.number.into(), refusal.line);
        Call::writing(file, Service::Witness, written, answer)
    }

    /// An iso of an accepted file as a pair list.
    pub fn export(file: Vec<u8>, iso: u32, budget: u32) -> Self {
        let rules = apart::check(&file).expect("the file is accepted");
        let list = pair_lists::export_rules(&rules, iso, budget).expect("a list");
        Call::writing(file, Service::Export(iso, budget), list, Answer::default())
    }

    /// A file out of a pair list, between settings of the last T line of an accepted file.
    pub fn import(file: Vec<u8>, list: Vec<u8>) -> Self {
        let rules = apart::check(&file).expect("the file is accepted");
        let ty = rules.types.len() as u32 - 1;
        let written = pair_lists::import_rules(&rules, ty, ty, &list).expect("a file");
        Call::writing(file, Service::Import(ty, list), written, Answer::default())
    }

    /// Queries of an accepted file, none of them refused, in one sheet.
    pub fn sheet(file: Vec<u8>, asked: Vec<Asked>) -> Self {
        let lines: Vec<Vec<u8>> = asked.iter().map(Asked::line).collect();
        Call {
            service: Service::Sheet(lines.concat()),
            ..Call::runs(file, asked)
        }
    }

    /// The same queries, each in a call of its own; they leave the same in every area.
    pub fn runs(file: Vec<u8>, asked: Vec<Asked>) -> Self {
        let rules = apart::check(&file).expect("the file is accepted");
        let (mut written, mut numbers) = (Vec::new(), Vec::new());
        for Asked { iso, value, budget } in &asked {
            let ran = apart::run_rules(&rules, *iso, false, *budget, value);
            let (count, mut letters) = ran.expect("the query is not refused");
            numbers.extend([0, count as u32, letters.len() as u32]);
            letters.resize(RESULT_LENGTH, SOIL);
            written.extend(letters);
        }
        Call {
            file,
            answer: Answer::of_queries(asked.len()),
            service: Service::Runs(asked),
            written,
            numbers,
        }
    }

    /// A play of visits on as many units as there can be, none of them skipped or spent.
    pub fn play(file: Vec<u8>, before: Vec<Unit>, visits: &[Visit], budget: u32) -> Self {
        let rules = apart::check(&file).expect("the file is accepted");
        let script = visits.iter().map(Visit::line).collect::<String>();
        let script = script.into_bytes();
        let pairs: Vec<(u32, u32)> = before.iter().map(|one| (one.ty, one.setting)).collect();
        let played = play_rules(&rules, &pairs, &script, budget);
        let (after, _) = played.expect("the play is not refused");
        let after = after.into_iter().map(|(ty, setting)| Unit { ty, setting });
        let tally = Tally {
            done: visits.len() as u32,
            ..Tally::default()
        };
        let play = Play {
            script,
            budget,
            after: after.collect(),
            before,
        };
        Call::answered(file, Service::Play(play), Answer::of_tally(tally))
    }

    /// The runs of the same visits, each a query, in as few sheets as can be.
    pub fn sheets(file: Vec<u8>, before: Vec<Unit>, visits: &[Visit], budget: u32) -> Self {
        let rules = apart::check(&file).expect("the file is accepted");
        let letters = |unit: &Unit| setting_of_rules(&rules, unit.ty, unit.setting);
        let mut held: Vec<Vec<u8>> = before.iter().flat_map(letters).collect();
        let mut asked = Vec::new();
        for Visit { unit, iso } in visits {
            let ran = apart::run_rules(&rules, *iso, false, budget, &held[*unit]);
            let (_, given) = ran.expect("the run is not refused");
            let value = std::mem::replace(&mut held[*unit], given);
            asked.push(Asked {
                iso: *iso,
                value,
                budget,
            });
        }
        let sheets = asked.chunks(MAX_QUERIES);
        let sheets = sheets.map(|asked| Call::sheet(file.clone(), asked.to_vec()));
        let sheets = Service::Sheets(sheets.collect());
        Call::answered(file, sheets, Answer::of_queries(visits.len()))
    }

    /// Makes the call and holds its answer to the expected one.
    pub fn make(&self, implementation: Implementation, areas: &mut Areas) {
        if let Service::Play(play) = &self.service {
            areas.lend(&play.before);
        }
        let answer = match &self.service {
            Service::Runs(asked) => self.one_by_one(asked, implementation, areas),
            Service::Sheets(sheets) => {
                sheets
                    .iter()
                    .for_each(|sheet| sheet.make(implementation, areas));
                self.answer
            }
            _ => match implementation {
                Proved => by_proved(&self.file, &self.service, areas),
                Apart => by_apart(&self.file, &self.service, areas),
            },
        };
        assert_eq!(answer, self.answer, "{implementation:?}");
        if let Service::Play(play) = &self.service {
            let held = areas.hold(&play.after);
            assert!(held, "{implementation:?} leaves other units");
        }
        let written = &areas.output[..self.written.len()];
        assert!(
            written == self.written,
            "{implementation:?} writes other bytes"
        );
        let numbers = &areas.numbers[..self.numbers.len()];
        assert!(
            numbers == self.numbers,
            "{implementation:?} writes other numbers"
        );
    }

    /// Each query by a run of its own, its three numbers and its letters where a sheet has them.
    fn one_by_one(&self, asked: &[Asked], by: Implementation, areas: &mut Areas) -> Answer {
        let (table, work) = (&mut areas.table, &mut areas.work);
        let places = areas.output.chunks_mut(RESULT_LENGTH);
        let threes = areas.numbers.chunks_mut(NUMBERS_A_QUERY);
        for ((asked, place), three) in asked.iter().zip(places).zip(threes) {
            let ran = match by {
                Proved => run_by_proved(&self.file, asked, table, work, place),
                Apart => run_by_apart(&self.file, asked, table, work, place),
            };
            three.copy_from_slice(&[ran.number, ran.count as u32, ran.length as u32]);
        }
        Answer::of_queries(asked.len())
    }

    pub fn file(&self) -> &[u8] {
        &self.file
    }

    pub fn lines(&self) -> usize {
        self.file.iter().filter(|byte| **byte == b'\n').count()
    }

    pub fn bytes(&self) -> usize {
        self.file.len()
    }

    pub fn is_accepted(&self) -> bool {
        self.answer.number == 0
    }

    /// Holds both implementations to the answer, and to leaving the same in every area.
    pub fn agree(&self) {
        let (mut one, mut two) = (Areas::new(), Areas::new());
        self.make(Proved, &mut one);
        self.make(Apart, &mut two);
        assert!(one == two, "the areas differ");
    }
}

#[cfg(test)]
mod tests {
    use super::*;
    use crate::inputs;

    #[test]
    #[should_panic(expected = "Proved")]
    fn a_wrong_answer_of_the_proved_library_is_noticed() {
        Call::refused(inputs::s(), 13, 15).make(Proved, &mut Areas::new());
    }

    #[test]
    #[should_panic(expected = "Apart")]
    fn a_wrong_answer_of_the_checker_apart_is_noticed() {
        Call::refused(inputs::s(), 13, 15).make(Apart, &mut Areas::new());
    }

    #[test]
    #[should_panic(expected = "Proved")]
    fn wrong_bounds_are_noticed() {
        let mut call = Call::bounds(inputs::s(), 1);
        let bounds = call.answer.bounds.as_mut();
        bounds.expect("the iso is there").greatest_over = true;
        call.make(Proved, &mut Areas::new());
    }

    #[test]
    #[should_panic(expected = "Proved")]
    fn another_setting_is_noticed() {
        Call::number(inputs::s(), 2, b"PLURU".to_vec(), 2).make(Proved, &mut Areas::new());
    }

    #[test]
    #[should_panic(expected = "Apart writes other bytes")]
    fn other_letters_are_noticed() {
        Call::setting(inputs::s(), 2, b"PLULU".to_vec(), 1).make(Apart, &mut Areas::new());
    }

    #[test]
    #[should_panic(expected = "Proved")]
    fn one_pair_more_is_noticed() {
        let overlap = Overlap {
            clash: true,
            pairs: 3,
        };
        Call::overlap(inputs::s(), 5, 7, overlap).make(Proved, &mut Areas::new());
    }

    #[test]
    #[should_panic(expected = "Proved writes other bytes")]
    fn another_list_is_noticed() {
        let mut call = Call::export(inputs::s(), 1, 2);
        call.written.swap(2, 6);
        call.make(Proved, &mut Areas::new());
    }

    #[test]
    #[should_panic(expected = "writes other bytes")]
    fn a_wrong_witness_is_noticed() {
        let mut call = Call::witness(inputs::s_with_gap());
        call.written[1] = b'L';
        call.make(Proved, &mut Areas::new());
    }

    /// A play of file S whose expectation is changed.
    fn other_play(change: fn(&mut Call)) {
        let units = inputs::units(2, [0, 1]);
        let mut call = Call::play(inputs::s(), units, &inputs::visits(1, 5), 2);
        call.agree();
        change(&mut call);
        call.make(Proved, &mut Areas::new());
    }

    #[test]
    #[should_panic(expected = "Proved leaves other units")]
    fn another_unit_is_noticed() {
        other_play(|call| match &mut call.service {
            Service::Play(play) => play.after[7].setting ^= 1,
            _ => unreachable!("a play"),
        });
    }

    #[test]
    #[should_panic(expected = "Proved")]
    fn another_tally_is_noticed() {
        other_play(|call| {
            let tally = call.answer.tally.as_mut();
            tally.expect("a play").spent = 1;
        });
    }

    #[test]
    #[should_panic(expected = "writes other bytes")]
    fn wrong_bytes_are_noticed() {
        let value = b"PLURU".to_vec();
        Call::run(inputs::s(), 1, value.clone(), 2, value).make(Proved, &mut Areas::new());
    }

    /// Queries whose second has another number than is expected.
    fn other_number(call: fn(Vec<u8>, Vec<Asked>) -> Call, by: Implementation) {
        let mut call = call(inputs::s(), vec![inputs::asked_of_s(); 3]);
        call.numbers[4] += 1;
        call.make(by, &mut Areas::new());
    }

    #[test]
    #[should_panic(expected = "Proved writes other numbers")]
    fn a_wrong_number_in_a_sheet_of_the_proved_library_is_noticed() {
        other_number(Call::sheet, Proved);
    }

    #[test]
    #[should_panic(expected = "Apart writes other numbers")]
    fn a_wrong_number_in_a_sheet_of_the_checker_apart_is_noticed() {
        other_number(Call::sheet, Apart);
    }

    #[test]
    #[should_panic(expected = "Proved writes other numbers")]
    fn a_wrong_number_of_a_run_is_noticed() {
        other_number(Call::runs, Proved);
    }

    #[test]
    fn a_sheet_and_runs_of_their_own_leave_the_same() {
        let asked = vec![inputs::asked_of_s(), inputs::asked_of_s()];
        for by in [Proved, Apart] {
            let (mut one, mut two) = (Areas::new(), Areas::new());
            Call::sheet(inputs::s(), asked.clone()).make(by, &mut one);
            Call::runs(inputs::s(), asked.clone()).make(by, &mut two);
            assert!(one == two, "{by:?}");
        }
    }
}
