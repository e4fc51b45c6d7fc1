//! Request 12, "Six hundred units tried out": visits played on units.

use crate::areas::{Known, TABLE, WORK};
use crate::lines::{numeral, split, text};
use crate::numbering::{number_of_rules, setting_of_rules};
use crate::recursion::has_lists;
use crate::{run_rules, Refusal, Rules};

/// "Up to 1,000 units".
pub const UNITS: usize = 1_000;
/// "a script of up to 4,096 lines".
pub const LINES: usize = 4_096;

/// "One record of visits done, skipped and spent", in C's layout.
#[repr(C)]
#[derive(Debug, PartialEq, Eq, Clone, Copy, Default)]
pub struct Tally {
    pub done: u32,
    pub skipped: u32,
    pub spent: u32,
}

/// What a play gives.
#[derive(Debug, PartialEq, Eq, Clone, Copy)]
pub struct Played {
    pub number: u8,
    pub line: usize,
}

/// The areas lent for a play: "each hold a T line and a setting number, in
/// lent areas".
pub struct Lent<'a> {
    pub table: &'a mut [u16],
    pub work: &'a mut [u8],
    pub types: &'a mut [u32],
    pub settings: &'a mut [u32],
    pub tally: &'a mut Tally,
}

/// A line `S,unit,iso,direction`.
struct Visit {
    unit: usize,
    iso: u16,
    back: bool,
}

/// 22: "a line of another form or naming an absent unit or iso" gives `None`.
fn visit(line: &[u8], units: usize, isos: usize) -> Option<Visit> {
    let words: Vec<&[u8]> = text(line)?.split(|byte| *byte == b',').collect();
    let [b"S", unit, iso, direction] = words[..] else {
        return None;
    };
    let unit = usize::try_from(numeral(unit, 65_535)?).ok()?;
    let iso = u16::try_from(numeral(iso, 65_535)?).ok()?;
    let back = numeral(direction, 1)? == 1;
    (unit < units && usize::from(iso) < isos).then_some(Visit { unit, iso, back })
}

/// A unit: a T line and a setting number.
type Unit = (u32, u32);

/// Plays a script on units, of an accepted file: the units and the record
/// afterwards.
pub fn play_rules(
    rules: &Rules,
    units: &[Unit],
    script: &[u8],
    budget: u32,
) -> Result<(Vec<Unit>, Tally), Refusal> {
    // "A starting unit with an absent T line is 15, a type too big to number
    // 18, a number too high 19. All tests precede the first visit, the units
    // in order and then the script".
    for (ty, setting) in units {
        setting_of_rules(rules, *ty, *setting)?;
    }
    let refused = |number| Refusal { number, line: 0 };
    let mut visits = Vec::new();
    // Request 14: "a script is tested line by line, on each 22 before 18".
    for line in split(script) {
        let visit = visit(line, units.len(), rules.isos.len()).ok_or(refused(22))?;
        if has_lists(&rules.isos, visit.iso.into()) {
            return Err(refused(18));
        }
        visits.push(visit);
    }
    let mut units = units.to_vec();
    let mut tally = Tally::default();
    for visit in visits {
        let unit = &mut units[visit.unit];
        match visited(rules, *unit, &visit, budget)? {
            Visited::Done(now) => {
                *unit = now;
                tally.done += 1;
            }
            Visited::Skipped => tally.skipped += 1,
            Visited::Spent => tally.spent += 1,
        }
    }
    Ok((units, tally))
}

/// What comes of a visit.
enum Visited {
    Done(Unit),
    Skipped,
    Spent,
}

/// One visit of a unit.
fn visited(
    rules: &Rules,
    (ty, setting): Unit,
    visit: &Visit,
    budget: u32,
) -> Result<Visited, Refusal> {
    let mut isos = rules.rows.iter().filter(|row| row.letter == b'I');
    let row = isos.nth(visit.iso.into()).expect("an iso of the file");
    let [from, to, _] = row.fields;
    let (start, end) = if visit.back { (to, from) } else { (from, to) };
    // "A visit whose type does not match the unit is skipped".
    if rules.types[ty as usize] != rules.types[usize::from(start)] {
        return Ok(Visited::Skipped);
    }
    let letters = setting_of_rules(rules, ty, setting)?;
    match run_rules(rules, visit.iso, visit.back, budget, &letters) {
        // "Any other is done: the unit then holds the T line that the iso's I
        // line names at the other end, and the number of the setting that the
        // run gives."
        Ok((_, given)) => {
            let end = u32::from(end);
            let number = number_of_rules(rules, end, &given)?;
            Ok(Visited::Done((end, number)))
        }
        // "and one over budget is spent; both leave the unit".
        Err(refusal) if refusal.number == 17 => Ok(Visited::Spent),
        Err(refusal) => Err(refusal),
    }
}

/// A play with lent areas.
pub fn play(known: &Known, script: &[u8], budget: u32, lent: Lent) -> Played {
    let refused = |Refusal { number, line }| Played { number, line };
    // "Unit areas of unequal length are 1, over 1,000 units or 4,096 lines 2."
    let short = lent.types.len() != lent.settings.len()
        || lent.table.len() < TABLE
        || lent.work.len() < WORK;
    if !short && (lent.types.len() > UNITS || split(script).len() > LINES) {
        return refused(Refusal { number: 2, line: 0 });
    }
    let entered = known.enter(short, lent.table, lent.work);
    let (types, settings) = (lent.types.iter(), lent.settings.iter());
    let units: Vec<Unit> = types.copied().zip(settings.copied()).collect();
    match entered.and_then(|rules| play_rules(rules, &units, script, budget)) {
        // "a refusal leaves units and record unchanged".
        Err(refusal) => refused(refusal),
        Ok((units, tally)) => {
            for (place, (ty, setting)) in units.into_iter().enumerate() {
                lent.types[place] = ty;
                lent.settings[place] = setting;
            }
            // "counted from 0 in each play".
            *lent.tally = tally;
            Played { number: 0, line: 0 }
        }
    }
}
