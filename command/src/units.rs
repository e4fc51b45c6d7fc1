//! Units as a planner keeps them: a line `tline,number` for each, from unit 0 on.

use crate::{form, input, Failure};
use std::ffi::OsStr;

/// The T line and the setting number that each unit holds.
#[derive(Clone)]
pub struct Units {
    pub types: Vec<u32>,
    pub settings: Vec<u32>,
}

/// The two numbers of a line.
fn unit(line: &[u8]) -> Option<(u32, u32)> {
    let line = line.strip_suffix(b"\n")?;
    let text = std::str::from_utf8(form::text(line)).ok()?;
    let (ty, setting) = text.split_once(',')?;
    Some((form::number(ty)?, form::number(setting)?))
}

/// Why a line is no unit.
fn no_unit(name: &str, list: &[u8], number: usize) -> Failure {
    let line = form::line(list, number).unwrap_or_default();
    let fault = form::unit_fault(list, number).unwrap_or_default();
    let line = form::shown(line);
    Failure(format!(
        "line {number} of {name} is no unit `tline,number`: {line}\nlook here: {fault}"
    ))
}

impl Units {
    /// Reads a list of units.
    pub fn read(path: &OsStr) -> Result<Units, Failure> {
        let list = input::read_list(path, "list of units")?;
        let mut units = Units {
            types: Vec::new(),
            settings: Vec::new(),
        };
        for (place, line) in list.split_inclusive(|byte| *byte == b'\n').enumerate() {
            let Some((ty, setting)) = unit(line) else {
                return Err(no_unit(&input::shown(path), &list, place + 1));
            };
            units.types.push(ty);
            units.settings.push(setting);
        }
        Ok(units)
    }

    /// How many units there are.
    pub fn count(&self) -> usize {
        self.types.len()
    }

    /// The T line and the setting number of a unit.
    pub fn unit(&self, place: usize) -> (u32, u32) {
        (self.types[place], self.settings[place])
    }

    /// A unit alone.
    pub fn alone(&self, place: usize) -> Units {
        Units {
            types: vec![self.types[place]],
            settings: vec![self.settings[place]],
        }
    }

    /// The lines of the units, each with a line feed.
    pub fn lines(&self) -> String {
        let units = self.types.iter().zip(&self.settings);
        let line = |(ty, setting): (&u32, &u32)| format!("{ty},{setting}\n");
        units.map(line).collect()
    }
}
