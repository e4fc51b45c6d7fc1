//! `number` and `setting`: settings as numbers.

use crate::arguments::{number, Given};
use crate::look::asked;
use crate::rules::Rules;
use crate::show::tree;
use crate::{check, names, run, Outcome, Status};
use rulefile::Desk;

/// A setting and its number in words: among which numbers, how it reads, and its letters.
fn in_words(rules: &Rules, ty: u32, setting: u32, letters: &[u8]) -> String {
    let place = ty as usize;
    let count = rules.settings.get(place).copied().unwrap_or(0);
    let name = rules.names.ty(place).map(|name| format!(", {name}"));
    let (last, name) = (count.saturating_sub(1), name.unwrap_or_default());
    let reads = tree::setting(rules, place, letters);
    let letters = String::from_utf8_lossy(letters);
    format!("setting {setting} of T{ty}{name}, of 0 to {last}: {reads}, in letters {letters}")
}

/// The number of a setting.
pub fn number_of(given: &Given) -> Outcome {
    let ty = number(given.word(1), "T", "TYPE")?;
    let mut desk = Desk::new();
    let Some(file) = check::read_accepted(&mut desk, given)? else {
        return Ok(Status::Refused);
    };
    let rules = names::rules(given.word(0), &file.bytes);
    let known = Some(ty as usize).filter(|ty| *ty < rules.types.len());
    let (letters, why) = run::letters(&rules, known, given.word(2));
    let setting = desk.number_of(&file.bytes, ty, &letters);
    let answer = setting.map(|setting| {
        let words = in_words(&rules, ty, setting, &letters);
        format!("0,{setting}\n{words}; this is no verdict on the file\n")
    });
    let told = |refused| asked::number(&file.bytes, ty, &letters, refused).or(why);
    check::answer("0", answer.map_err(told))
}

/// The setting of a number.
pub fn setting_of(given: &Given) -> Outcome {
    let ty = number(given.word(1), "T", "TYPE")?;
    let setting = number(given.word(2), "", "NUMBER")?;
    check::ask(given, "", |desk, file| {
        let letters = desk.setting_of(file, ty, setting);
        let letters = letters.map_err(|refused| asked::setting(file, ty, setting, refused))?;
        let rules = names::rules(given.word(0), file);
        let words = in_words(&rules, ty, setting, &letters);
        let letters = String::from_utf8_lossy(&letters);
        Ok(format!("0,{letters}\n{words}\n"))
    })
}
