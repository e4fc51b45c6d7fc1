//! Names that people give to the lines of a rule file and to settings, in a file of their own beside it. They are for
//! those who read; the library knows nothing of them, and no verdict depends on them.

use crate::rules::Rules;
use crate::{form, input, output, words, Failure};
use std::collections::BTreeMap;
use std::ffi::OsStr;
use std::fs::File;
use std::io::{ErrorKind, Read};
use std::path::{Path, PathBuf};

/// The most bytes of a file of names.
const CEILING: usize = 1 << 20;

/// The most characters of a name.
const LONGEST: usize = 60;

/// The most faults of a file of names that are told.
const TOLD: usize = 5;

/// The forms of a line.
const FORMS: &str = "a line is `T5 = name`, `T5 2 = name` or `iso 1 = name`";

/// Names, and where they stand.
#[derive(Default)]
pub struct Names {
    /// The file, as it is shown; none where there is none, or it cannot be used.
    pub file: Option<String>,
    types: BTreeMap<usize, String>,
    isos: BTreeMap<usize, String>,
    /// The names of settings by T line and letters, and their letters by T line and name.
    settings: BTreeMap<usize, BTreeMap<Vec<u8>, String>>,
    letters: BTreeMap<usize, BTreeMap<String, Vec<u8>>>,
}

/// What a line names.
enum Named {
    Type(usize),
    Iso(usize),
    Setting(usize, Vec<u8>),
}

impl Names {
    /// The name of a T line.
    pub fn ty(&self, ty: usize) -> Option<&str> {
        self.types.get(&ty).map(String::as_str)
    }

    /// The name of an iso.
    pub fn iso(&self, iso: usize) -> Option<&str> {
        self.isos.get(&iso).map(String::as_str)
    }

    /// The iso of a name.
    pub fn iso_of(&self, name: &str) -> Option<usize> {
        let mut isos = self.isos.iter();
        isos.find(|iso| iso.1 == name).map(|iso| *iso.0)
    }

    /// The name of a setting of a T line.
    pub fn setting(&self, ty: usize, letters: &[u8]) -> Option<&str> {
        let settings = self.settings.get(&ty)?;
        settings.get(letters).map(String::as_str)
    }

    /// The letters of a T line's setting that has this name.
    pub fn setting_of(&self, ty: usize, name: &str) -> Option<&[u8]> {
        let letters = self.letters.get(&ty)?;
        letters.get(name).map(Vec::as_slice)
    }

    /// Whether a T line or a setting of it has a name.
    pub fn knows(&self, ty: usize) -> bool {
        self.types.contains_key(&ty) || self.settings.contains_key(&ty)
    }

    /// The name that something has already.
    fn before(&self, named: &Named) -> Option<&str> {
        match named {
            Named::Type(ty) => self.ty(*ty),
            Named::Iso(iso) => self.iso(*iso),
            Named::Setting(ty, letters) => self.setting(*ty, letters),
        }
    }

    /// What else has a name already that has to tell it apart.
    fn taken(&self, named: &Named, name: &str) -> Option<String> {
        match named {
            Named::Type(_) => None,
            Named::Iso(_) => self.iso_of(name).map(|iso| format!("iso {iso}")),
            Named::Setting(ty, _) => {
                let letters = String::from_utf8_lossy(self.setting_of(*ty, name)?);
                Some(format!("the setting {letters} of T{ty}"))
            }
        }
    }

    /// Takes a name, or says what is wrong with it.
    fn add(&mut self, named: Named, name: String) -> Result<(), String> {
        if let Some(before) = self.before(&named) {
            return Err(format!("what it names has the name {before} already"));
        }
        if let Some(taken) = self.taken(&named, &name) {
            return Err(format!("{taken} has the name {name} already"));
        }
        match named {
            Named::Type(ty) => {
                self.types.insert(ty, name);
            }
            Named::Iso(iso) => {
                self.isos.insert(iso, name);
            }
            Named::Setting(ty, letters) => {
                let known = self.letters.entry(ty).or_default();
                known.insert(name.clone(), letters.clone());
                self.settings.entry(ty).or_default().insert(letters, name);
            }
        }
        Ok(())
    }

    /// Settings whose names are those of their T lines with the number of another setting.
    fn misleading(&self, rules: &Rules) -> Vec<String> {
        let mut found = Vec::new();
        for (ty, title) in &self.types {
            for (letters, name) in self.settings.get(ty).into_iter().flatten() {
                let number = name
                    .strip_prefix(title)
                    .map(str::trim)
                    .and_then(form::number);
                let other = number.and_then(|number| words::of_number(rules, *ty, number.into()));
                if other.is_some_and(|other| other != *letters) {
                    let letters = String::from_utf8_lossy(letters);
                    let why = "but that is what another setting is called by its number";
                    found.push(format!(
                        "the setting {letters} of T{ty} has the name {name}, {why}"
                    ));
                }
            }
        }
        found
    }
}

/// The file of the names of a rule file: `NAME.names` for `NAME.rules`; behind any other name there is `.names`. There
/// is none beside standard input.
fn beside(path: &OsStr) -> Option<PathBuf> {
    let whole = Path::new(path);
    if path == "-" {
        return None;
    }
    if whole.extension() == Some(OsStr::new("rules")) {
        return Some(whole.with_extension("names"));
    }
    let mut place = path.to_os_string();
    place.push(".names");
    Some(PathBuf::from(place))
}

/// What a file of names holds; nothing where there is none.
fn bytes(place: &Path, shown: &str) -> Result<Option<Vec<u8>>, Failure> {
    let cannot = |error| input::failure(shown, "read", &error);
    let file = match File::open(place) {
        Err(error) if error.kind() == ErrorKind::NotFound => return Ok(None),
        file => file.map_err(cannot)?,
    };
    if !file.metadata().map_err(cannot)?.is_file() {
        return Err(Failure(format!("{shown} is not a file")));
    }
    let mut bytes = Vec::new();
    let read = file.take(CEILING as u64 + 1).read_to_end(&mut bytes);
    read.map_err(cannot)?;
    match bytes.len() > CEILING {
        true => Err(Failure(format!("{shown} has over {CEILING} bytes"))),
        false => Ok(Some(bytes)),
    }
}

/// The number behind a letter or a word, which has to be below this.
fn number(text: &str, what: &str, count: usize) -> Result<usize, String> {
    let wrong = || format!("'{}' is no number; {FORMS}", seen(text));
    let number = form::number(text).ok_or_else(wrong)?;
    match number as usize {
        place if place < count => Ok(place),
        _ if count == 0 => Err(format!("the file has no {what}")),
        _ => {
            let last = count - 1;
            Err(format!(
                "there is no {what} {number}: they are numbered 0 to {last}"
            ))
        }
    }
}

/// What the front of a line names.
fn named(rules: &Rules, front: &str) -> Result<Named, String> {
    let iso = front.strip_prefix("iso").or(front.strip_prefix('I'));
    if let Some(iso) = iso {
        return number(iso.trim(), "iso", rules.isos.len()).map(Named::Iso);
    }
    let Some(front) = front.strip_prefix('T') else {
        let front = seen(front);
        return Err(format!("'{front}' is neither a T line nor an iso; {FORMS}"));
    };
    let (ty, setting) = match front.split_once([' ', '\t']) {
        Some((ty, setting)) => (ty, setting.trim()),
        None => (front, ""),
    };
    let ty = number(ty, "T line", rules.types.len())?;
    match setting {
        "" => Ok(Named::Type(ty)),
        setting => words::read(rules, ty, setting).map(|letters| Named::Setting(ty, letters)),
    }
}

/// A character that would not be seen, or turns the direction of what stands beside it.
fn unseen(c: char) -> bool {
    c.is_control()
        || matches!(c, '\u{200b}'..='\u{200f}' | '\u{2028}'..='\u{202e}' | '\u{2060}'..='\u{206f}' | '\u{feff}')
}

/// A text as it can be said: `?` for what would not be seen, and of a long one the beginning.
pub fn seen(text: &str) -> String {
    let seen = |c: char| if unseen(c) { '?' } else { c };
    let more = if text.chars().count() > LONGEST {
        " …"
    } else {
        ""
    };
    text.chars().take(LONGEST).map(seen).collect::<String>() + more
}

/// A text with one blank for several, and none at its ends.
pub fn one_blank(text: &str) -> String {
    text.split_whitespace().collect::<Vec<_>>().join(" ")
}

/// The letters that settings of a file have.
pub fn letters(rules: &Rules) -> &'static str {
    match rules.has_lists() {
        false => "ULRP",
        true => "ULRPNK",
    }
}

/// What is wrong with a name.
fn fault(rules: &Rules, name: &str) -> Option<String> {
    let only = |letters: &str| name.chars().all(|c| letters.contains(c));
    if name.is_empty() {
        Some(format!("there is no name behind the `=`; {FORMS}"))
    } else if name.chars().count() > LONGEST {
        Some(format!("the name has over {LONGEST} characters"))
    } else if name.contains([',', '(', ')']) {
        Some(format!(
            "{name} has a comma or a bracket; these part the settings of a tuple"
        ))
    } else if rules.has_lists() && name.contains(['[', ']']) {
        Some(format!(
            "{name} has a square bracket; these hold the elements of a list"
        ))
    } else if only("0123456789") {
        Some(format!("{name} would be taken for a number"))
    } else if only(letters(rules)) {
        Some(format!(
            "{name} would be taken for the letters of a setting"
        ))
    } else {
        None
    }
}

/// Reads a line into names.
fn line(rules: &Rules, names: &mut Names, line: &[u8]) -> Result<(), String> {
    let Ok(text) = std::str::from_utf8(form::text(line)) else {
        return Err("this is not UTF-8; save the file as UTF-8 text".to_string());
    };
    let text = text.trim();
    if text.is_empty() || text.starts_with('#') {
        return Ok(());
    }
    let Some((front, name)) = text.split_once('=') else {
        return Err(format!(
            "there is no `=`; {FORMS}; behind # stands what is no name"
        ));
    };
    if name.trim().replace('\t', " ").contains(unseen) {
        return Err("the name has a character that cannot be seen".to_string());
    }
    let name = one_blank(name);
    if let Some(fault) = fault(rules, &name) {
        return Err(fault);
    }
    names.add(named(rules, front.trim())?, name)
}

/// What is wrong with a file of names: the first faults, and how many more there are.
#[derive(Default)]
struct Faults {
    told: Vec<String>,
    more: usize,
}

impl Faults {
    fn add(&mut self, fault: String) {
        match self.told.len() < TOLD {
            true => self.told.push(fault),
            false => self.more += 1,
        }
    }

    fn of(fault: String) -> Faults {
        Faults {
            told: vec![fault],
            more: 0,
        }
    }
}

/// The names that a text gives, or what is wrong with it.
fn parsed(rules: &Rules, shown: &str, bytes: &[u8]) -> Result<Names, Faults> {
    if form::is_utf_16(bytes) {
        let why = "it is in UTF-16, two bytes a letter; save the file as UTF-8 text";
        return Err(Faults::of(format!("{shown}: {why}")));
    }
    let bytes = bytes.strip_prefix(b"\xEF\xBB\xBF").unwrap_or(bytes);
    let (mut names, mut faults) = (Names::default(), Faults::default());
    for (place, text) in bytes.split_inclusive(|byte| *byte == b'\n').enumerate() {
        if let Err(why) = line(rules, &mut names, text) {
            faults.add(format!("{shown}, line {}: {why}", place + 1));
        }
    }
    for why in names.misleading(rules) {
        faults.add(format!("{shown}: {why}"));
    }
    names.file = Some(shown.to_string());
    match faults.told.is_empty() {
        true => Ok(names),
        false => Err(faults),
    }
}

/// The names of a rule file whose lines are in order, or what is wrong with them.
fn read(path: &OsStr, rules: &Rules) -> Result<Names, Faults> {
    let Some(place) = beside(path) else {
        return Ok(Names::default());
    };
    let shown = input::shown(place.as_os_str());
    match bytes(&place, &shown) {
        Ok(None) => Ok(Names::default()),
        Ok(Some(bytes)) => parsed(rules, &shown, &bytes),
        Err(Failure(why)) => Err(Faults::of(why)),
    }
}

/// The lines of a rule file whose lines are in order, with the names that stand beside it. Where these are not as they
/// should be, why is said on standard error, and none of them is used: a verdict does not depend on them.
pub fn rules(path: &OsStr, file: &[u8]) -> Rules {
    let mut rules = Rules::of(file);
    match read(path, &rules) {
        Ok(names) => rules.names = names,
        Err(Faults { told, more }) => {
            for fault in told {
                output::say(&fault);
            }
            let more = match more {
                0 => String::new(),
                more => format!("{more} more lines are wrong; "),
            };
            output::say(&format!("{more}the names are not used"));
        }
    }
    rules
}
