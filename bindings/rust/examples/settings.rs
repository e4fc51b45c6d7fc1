//! `settings FILE`
//!
//! Settings as numbers, pair lists of them, and units that hold them. FILE has the lines of a rule file and
//! behind them calls: `N,type,letters` asks for the number of a setting of a T line, `S,type,number` for the
//! letters of the setting with a number, `E,iso,budget` for an iso as a pair list, `M,from,to` and the lines
//! of a list, each behind a blank, for a file with that conversion between two T lines, `U,budget` and, each
//! behind a blank, units `type,number` and from the first word with S on the lines of a script, for a play.
//! Prints `number,line` for the rule file and, if it is accepted, a line for each call: `number,setting` for
//! N, `number,letters` for S, for E and M `number,` and the lines written, each behind a blank, for U
//! `number,done,skipped,spent` and the units after the play, each behind a blank.
//!
//! Exit status: 0 accepted, 1 refused, 2 the argument, FILE or a call in it cannot be read.

use rulefile::{Desk, Refused, MAX_UNITS};
use std::env;
use std::ffi::{OsStr, OsString};
use std::fs;
use std::process::ExitCode;

/// A longer text is not read.
const LONGEST: usize = 2 * 65_536 - 1;

/// What a line behind the rule file asks.
enum Call<'a> {
    Number(u32, &'a str),
    Letters(u32, u32),
    List(u32, u32),
    /// With the lines of a pair list, each with its line feed.
    File(u32, u32, String),
    Play(Play),
}

/// A script, each line with its line feed, and the units that it is played on.
struct Play {
    budget: u32,
    types: Vec<u32>,
    settings: Vec<u32>,
    script: String,
}

/// The letters that a call begins with.
const CALLS: [char; 5] = ['N', 'S', 'E', 'M', 'U'];

/// A text without zero bytes that ends in a line feed; an empty one too.
fn read_text(path: &OsStr) -> Option<String> {
    let text = String::from_utf8(fs::read(path).ok()?).ok()?;
    let ends = text.is_empty() || text.ends_with('\n');
    (ends && text.len() <= LONGEST && !text.contains('\0')).then_some(text)
}

fn read_number(text: &str) -> Option<u32> {
    text.parse().ok().filter(|_| !text.starts_with('+'))
}

fn read_call(line: &str) -> Option<Call<'_>> {
    if let Some(play) = line.strip_prefix("U,") {
        return read_play(play).map(Call::Play);
    }
    let fields: Vec<&str> = line.splitn(3, ',').collect();
    let [letter, first, last] = fields[..] else {
        return None;
    };
    let first = read_number(first)?;
    match letter {
        "N" => Some(Call::Number(first, last)),
        "S" => Some(Call::Letters(first, read_number(last)?)),
        "E" => Some(Call::List(first, read_number(last)?)),
        "M" => {
            let (to, list) = read_list(last)?;
            Some(Call::File(first, to, list))
        }
        _ => None,
    }
}

/// The second T line and the list behind it; blanks become line feeds.
fn read_list(text: &str) -> Option<(u32, String)> {
    let (to, list) = match text.split_once(' ') {
        Some((to, list)) => (to, list.replace(' ', "\n") + "\n"),
        None => (text, String::new()),
    };
    Some((read_number(to)?, list))
}

/// The T line and the setting number of a unit.
fn read_unit(word: &&str) -> Option<(u32, u32)> {
    let (ty, setting) = word.split_once(',')?;
    Some((read_number(ty)?, read_number(setting)?))
}

/// The budget, the units and the script of a play.
fn read_play(text: &str) -> Option<Play> {
    let mut words = text.split(' ');
    let budget = read_number(words.next()?)?;
    let words: Vec<&str> = words.collect();
    let script = words.iter().position(|word| word.starts_with('S'));
    let (units, script) = words.split_at(script.unwrap_or(words.len()));
    let units: Option<Vec<(u32, u32)>> = units.iter().map(read_unit).collect();
    let units = units.filter(|units| units.len() <= MAX_UNITS)?;
    let (types, settings) = units.into_iter().unzip();
    Some(Play {
        budget,
        types,
        settings,
        script: script.iter().map(|line| format!("{line}\n")).collect(),
    })
}

/// What stands before the first call, and the calls.
fn parts(text: &str) -> (&[u8], &str) {
    let lines = text.split_inclusive('\n');
    let rules = lines.take_while(|line| !line.starts_with(CALLS));
    let (rules, calls) = text.split_at(rules.map(str::len).sum());
    (rules.as_bytes(), calls)
}

fn number(refused: Refused) -> u32 {
    refused.refusal.number()
}

/// The line that answers a call.
fn answer(desk: &mut Desk, rules: &[u8], call: Call) -> String {
    match call {
        Call::Number(ty, letters) => match desk.number_of(rules, ty, letters.as_bytes()) {
            Ok(setting) => format!("0,{setting}"),
            Err(refused) => format!("{},0", number(refused)),
        },
        Call::Letters(ty, setting) => match desk.setting_of(rules, ty, setting) {
            Ok(letters) => format!("0,{}", String::from_utf8_lossy(&letters)),
            Err(refused) => format!("{},", number(refused)),
        },
        Call::List(iso, budget) => lines(desk.export(rules, iso, budget)),
        Call::File(from, to, list) => lines(desk.import(rules, from, to, list.as_bytes())),
        Call::Play(play) => answer_play(desk, rules, play),
    }
}

/// What a play comes to, and the units after it, each behind a blank.
fn answer_play(desk: &mut Desk, rules: &[u8], play: Play) -> String {
    let (mut types, mut settings) = (play.types, play.settings);
    let script = play.script.as_bytes();
    let mut answer = match desk.play(rules, &mut types, &mut settings, script, play.budget) {
        Ok(tally) => format!("0,{},{},{}", tally.done, tally.skipped, tally.spent),
        Err(refused) => format!("{},0,0,0", number(refused)),
    };
    for (ty, setting) in types.iter().zip(settings) {
        answer += &format!(" {ty},{setting}");
    }
    answer
}

/// The lines that were written, each behind a blank.
fn lines(written: Result<Vec<u8>, Refused>) -> String {
    match written {
        Ok(written) => {
            let text = String::from_utf8_lossy(&written);
            let lines = text.lines().map(|line| format!(" {line}"));
            format!("0,{}", lines.collect::<String>())
        }
        Err(refused) => format!("{},", number(refused)),
    }
}

/// Answers all calls; false where a line is none.
fn answer_all(desk: &mut Desk, rules: &[u8], calls: &str) -> bool {
    for line in calls.split_terminator('\n') {
        let Some(call) = read_call(line) else {
            return false;
        };
        println!("{}", answer(desk, rules, call));
    }
    true
}

fn main() -> ExitCode {
    let words: Vec<OsString> = env::args_os().skip(1).collect();
    let [path] = &words[..] else {
        eprintln!("usage: settings FILE");
        return ExitCode::from(2);
    };
    let Some(text) = read_text(path) else {
        eprintln!("settings: cannot read {}", path.to_string_lossy());
        return ExitCode::from(2);
    };
    let (rules, calls) = parts(&text);
    let mut desk = Desk::new();
    if let Err(refused) = desk.check(rules) {
        println!("{},{}", number(refused), refused.line);
        return ExitCode::FAILURE;
    }
    println!("0,0");
    if !answer_all(&mut desk, rules, calls) {
        let path = path.to_string_lossy();
        eprintln!("settings: {path} has a line that is no call");
        return ExitCode::from(2);
    }
    ExitCode::SUCCESS
}
