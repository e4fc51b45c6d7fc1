//! `play`: a script of visits tried out on units.

use crate::arguments::Given;
use crate::rules::Rules;
use crate::run::{budget, counted};
use crate::script::Play;
use crate::units::Units;
use crate::{check, explain, input, output, turn, Failure, Outcome, Status};
use rulefile::{Desk, Refused, Tally};

/// The head of the table, as CSV.
const HEAD: &str = "unit,type before,setting before,type after,setting after,done,skipped,spent\n";

/// Visits done, skipped and spent.
fn counts(visits: Tally) -> [u32; 3] {
    [visits.done, visits.skipped, visits.spent]
}

/// A unit: what it held before and after, and what came of its visits.
struct Row {
    before: (u32, u32),
    after: (u32, u32),
    visits: Tally,
}

/// What a play came to.
struct Outcomes {
    rows: Vec<Row>,
    all: Tally,
    /// The units after the play.
    after: Units,
    budget: u32,
}

impl Outcomes {
    /// The table as CSV.
    fn csv(&self) -> String {
        let mut text = HEAD.to_string();
        for (place, row) in self.rows.iter().enumerate() {
            let ((ty, setting), (ty_after, setting_after)) = (row.before, row.after);
            let [done, skipped, spent] = counts(row.visits);
            text += &format!(
                "{place},{ty},{setting},{ty_after},{setting_after},{done},{skipped},{spent}\n"
            );
        }
        text
    }

    /// The table for people, each column as wide as its widest word.
    fn table(&self) -> String {
        let head = ["unit", "before", "after", "done", "skipped", "spent"].map(String::from);
        let held = |(ty, setting): (u32, u32)| format!("T{ty} {setting}");
        let mut rows = vec![head];
        for (place, row) in self.rows.iter().enumerate() {
            let [done, skipped, spent] = counts(row.visits).map(|count| count.to_string());
            let (before, after) = (held(row.before), held(row.after));
            rows.push([place.to_string(), before, after, done, skipped, spent]);
        }
        let width = |column: usize| rows.iter().map(|row| row[column].len()).max().unwrap_or(0);
        let widths = [0, 1, 2, 3, 4, 5].map(width);
        let mut text = String::new();
        for row in &rows {
            for (word, width) in row.iter().zip(widths) {
                text += &format!("  {word:>width$}");
            }
            text += "\n";
        }
        text
    }

    /// All visits in words.
    fn words(&self) -> String {
        let [done, skipped, spent] = counts(self.all);
        let visits = counted((done + skipped + spent).into(), "visit");
        let units = counted(self.rows.len() as u128, "unit");
        let mut text =
            format!("{visits} to {units}: {done} done, {skipped} skipped, {spent} spent\n");
        if skipped > 0 {
            let why =
                "the unit holds another type than the conversion begins at; it stays as it was";
            text += &explain::entry("skipped", why);
        }
        if spent > 0 {
            let steps = counted(self.budget.into(), "step");
            let why = format!("the conversion takes more than {steps}; the unit stays as it was");
            text += &explain::entry("spent", &why);
        }
        text
    }

    /// Number, counts, words and table.
    fn text(&self) -> String {
        let [done, skipped, spent] = counts(self.all);
        let (words, table) = (self.words(), self.table());
        format!("0,{done},{skipped},{spent}\n{words}\n{table}")
    }
}

/// A budget that is enough for every conversion of a file, as far as one of 32 bits can be.
fn enough(desk: &mut Desk, file: &[u8]) -> u32 {
    let isos = 0..Rules::of(file).isos.len() as u32;
    // a script visits no iso that has to do with lists, which has no bounds
    let bounds = isos.filter_map(|iso| desk.bounds(file, iso).ok());
    let greatest = bounds.map(|bounds| bounds.greatest);
    greatest.max().unwrap_or(0)
}

/// Three files, of which one at most is standard input, and none is written to.
fn require_apart(given: &Given) -> Result<(), Failure> {
    let words = [0, 1, 2].map(|place| given.word(place));
    if words.iter().filter(|word| **word == "-").count() > 1 {
        let why = "only one of FILE, UNITS and SCRIPT can be standard input";
        return Err(Failure(why.to_string()));
    }
    let mut others = words.iter();
    others.try_for_each(|word| turn::require_other(word, given.value("-o")))
}

/// Plays the script, and each unit by itself.
fn outcomes(desk: &mut Desk, play: &Play) -> Result<Outcomes, Refused> {
    let (after, all) = play.played(desk)?;
    let tallies = play.tallies(desk)?.into_iter().enumerate();
    let row = |(place, visits): (usize, Tally)| Row {
        before: play.units.unit(place),
        after: after.unit(place),
        visits,
    };
    Ok(Outcomes {
        rows: tallies.map(row).collect(),
        all,
        budget: play.budget,
        after,
    })
}

/// Prints what a play came to, and writes the units.
fn give(given: &Given, outcomes: &Outcomes) -> Outcome {
    if given.flag("-o") {
        let target = output::target(given)?;
        target.give(outcomes.after.lines().as_bytes())?;
    }
    let text = match given.flag("--csv") {
        true => outcomes.csv(),
        false => outcomes.text(),
    };
    output::print(text.as_bytes())?;
    let left = outcomes.all.skipped + outcomes.all.spent;
    if given.flag("--csv") && left > 0 {
        output::say(outcomes.words().trim_end());
    }
    Ok(Status::Done)
}

/// Plays a script on units.
pub fn play(given: &Given) -> Outcome {
    let budget = budget(given)?;
    require_apart(given)?;
    output::target(given)?;
    let units = Units::read(given.word(1))?;
    let script = input::read_list(given.word(2), "script")?;
    let mut desk = Desk::new();
    let Some(file) = check::read_accepted(&mut desk, given)? else {
        return Ok(Status::Refused);
    };
    let names = [1, 2].map(|place| input::shown(given.word(place)));
    let play = Play {
        file: &file.bytes,
        units: &units,
        script: &script,
        budget: budget.unwrap_or_else(|| enough(&mut desk, &file.bytes)),
        names: [&names[0], &names[1]],
    };
    if script.is_empty() {
        output::say("warning: the script is empty, and nothing is played; was it sent whole?");
    }
    match outcomes(&mut desk, &play) {
        Ok(outcomes) => give(given, &outcomes),
        Err(refused) => {
            let place = play.place(&mut desk, refused.refusal);
            if !given.flag("--csv") {
                let number = refused.refusal.number();
                output::print(format!("{number},0,0,0\n").as_bytes())?;
            }
            Ok(check::say_refused_at(refused, &place))
        }
    }
}
