//! A script of visits: what the library has to say of its lines, and where a refusal points.

use crate::form::{self, Forms};
use crate::look::asked;
use crate::progress;
use crate::rules::Rules;
use crate::units::Units;
use rulefile::{Desk, Refusal, Refused, Tally, MAX_UNITS};

const FORM: &Forms = &form::SCRIPT;

/// The most visits of a play.
const VISITS: usize = 4_096;

/// What is played: a script on units, of an accepted file, under a budget for each visit.
pub struct Play<'a> {
    pub file: &'a [u8],
    pub units: &'a Units,
    pub script: &'a [u8],
    pub budget: u32,
    /// What the units and the script are called.
    pub names: [&'a str; 2],
}

/// Unit, iso and direction of a line that is in form.
fn numbers(line: &[u8]) -> Option<[usize; 3]> {
    let text = std::str::from_utf8(form::text(line)).ok()?;
    let mut fields = text.split(',').skip(1).map(|field| field.parse().ok());
    Some([fields.next()??, fields.next()??, fields.next()??])
}

impl Play<'_> {
    fn lines(&self) -> Vec<&[u8]> {
        let lines = self.script.split_inclusive(|byte| *byte == b'\n');
        lines.collect()
    }

    /// How many visits the script has.
    pub fn visits(&self) -> usize {
        self.lines().len()
    }

    /// The units after the visits, and how many of these were done, skipped and spent.
    pub fn played(&self, desk: &mut Desk) -> Result<(Units, Tally), Refused> {
        let mut units = self.units.clone();
        let (types, settings) = (&mut units.types, &mut units.settings);
        let tally = desk.play(self.file, types, settings, self.script, self.budget)?;
        Ok((units, tally))
    }

    /// What came of the visits to each unit. A visit touches its own unit alone, so each unit is played once more by
    /// itself, with its own lines.
    pub fn tallies(&self, desk: &mut Desk) -> Result<Vec<Tally>, Refused> {
        let mut scripts = vec![String::new(); self.units.count()];
        for [unit, iso, direction] in self.lines().into_iter().filter_map(numbers) {
            scripts[unit] += &format!("S,0,{iso},{direction}\n");
        }
        let mut tallies = Vec::new();
        for (place, script) in scripts.iter().enumerate() {
            progress::tell(format!("{place} of {} units", scripts.len()));
            let play = Play {
                units: &self.units.alone(place),
                script: script.as_bytes(),
                ..*self
            };
            tallies.push(play.played(desk)?.1);
        }
        Ok(tallies)
    }

    /// The first unit that the library refuses as a setting.
    fn refused_unit(&self, desk: &mut Desk) -> Option<usize> {
        (0..self.units.count()).find(|place| {
            let (ty, setting) = self.units.unit(*place);
            desk.setting_of(self.file, ty, setting).is_err()
        })
    }

    /// The first line, counted from 1, with which the library refuses the script. No visit is made for it.
    fn refused_line(&self, desk: &mut Desk) -> usize {
        let lines = self.lines();
        let counts: Vec<usize> = (1..=lines.len()).collect();
        let good = |count: &usize| {
            let play = Play {
                script: &lines[..*count].concat(),
                budget: 0,
                ..*self
            };
            play.played(desk).is_ok()
        };
        counts.partition_point(good) + 1
    }

    /// What a line that is in form names that is not there.
    fn absent(&self, line: &[u8]) -> Option<String> {
        let [unit, iso, direction] = numbers(line)?;
        let units = self.units.count();
        if direction > 1 {
            let why = "the direction is 0 for there or 1 for back";
            Some(format!("{why}, not {direction}"))
        } else if unit >= units {
            let why = format!("there is no unit {unit}");
            Some(format!("{why}: there are {units}, numbered from 0"))
        } else {
            let isos = Rules::of(self.file).isos.len();
            (iso >= isos).then(|| format!("the file has no iso {iso}; they are numbered from 0"))
        }
    }

    /// The first line of the script whose iso has to do with lists.
    fn listed(&self, desk: &mut Desk) -> Vec<String> {
        let number = self.refused_line(desk);
        let line = form::line(self.script, number).unwrap_or_default();
        let script = self.names[1];
        let mut said = vec![format!("line {number} of {script}: {}", form::shown(line))];
        let list = numbers(line).and_then(|[_, iso, _]| asked::reached(&Rules::of(self.file), iso));
        said.extend(list.map(|list| format!("look here: {list}")));
        said
    }

    /// Where a refusal points, in lines.
    pub fn place(&self, desk: &mut Desk, refusal: Refusal) -> Vec<String> {
        let [units, script] = self.names;
        match refusal {
            Refusal::TooLong => {
                let (held, visits) = (self.units.count(), self.visits());
                let many = match held > MAX_UNITS {
                    true => format!("{units} has {held} units; a play has at most {MAX_UNITS}"),
                    false => format!("{script} has {visits} visits; a play has at most {VISITS}"),
                };
                vec![format!("look here: {many}")]
            }
            Refusal::TooMany if self.refused_unit(desk).is_none() => self.listed(desk),
            Refusal::NoIso | Refusal::TooMany | Refusal::TooHigh => {
                let place = self.refused_unit(desk).unwrap_or_default();
                let (ty, setting) = self.units.unit(place);
                let line = place + 1;
                let mut said = vec![format!(
                    "unit {place}, line {line} of {units}: setting {setting} of T{ty}"
                )];
                let refused = Refused { refusal, line: 0 };
                let told = asked::setting(self.file, ty, setting, refused);
                said.extend(told.look.map(|look| format!("look here: {look}")));
                said
            }
            Refusal::BadScript => {
                let number = self.refused_line(desk);
                let line = form::line(self.script, number).unwrap_or_default();
                let fault = form::fault(FORM, self.script, number);
                let fault = fault.or_else(|| self.absent(line));
                let mut said = vec![format!("line {number} of {script}: {}", form::shown(line))];
                said.extend(fault.map(|fault| format!("look here: {fault}")));
                said
            }
            _ => Vec::new(),
        }
    }
}
