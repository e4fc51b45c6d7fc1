//! The commands, and what is said of them.

use crate::arguments::{Command, Given};
use crate::{
    check, compare, explain, letter, lists, numbers, output, patterns, play, progress, run, sheet,
    show, turn, verdict, verify, witness,
};
use crate::{Failure, Outcome, Status};
use std::ffi::OsString;

/// Every command, in the order of a day's work.
static COMMANDS: &[Command] = &[
    Command {
        name: "check",
        usage: "FILE…",
        about: "judge rule files",
        help: "Prints `number,line`, `0,0` where the file is accepted, and then what that means: of a refused file the \
            line, what happened and what to ask the supplier. The whole of FILE is judged, so that a query in it is \
            refused. Of many files each is judged for itself, and a table of all comes last; the status is 2 where one \
            could not be read, or else 1 where one is refused.",
        words: 1..=usize::MAX,
        options: &[],
        run: check::check,
    },
    Command {
        name: "verdict",
        usage: "FILE…",
        about: "judge rule files and file the verdicts beside them, in FILE.verdict",
        help: "A verdict has number, line, word and meaning, the bytes of the file and their SHA-256, its lines by their \
            letters, what judged it (the version of the library, the SHA-256 of its archive, and the kit that proved \
            it), and the day. A later verdict is put behind the earlier ones, and nothing is ever taken away; where the \
            last one says the same of the same bytes, by the same library, nothing is written. Many files end with a \
            table, as in `rulefile check`.",
        words: 1..=usize::MAX,
        options: &[],
        run: verdict::verdict,
    },
    Command {
        name: "verify",
        usage: "FILE…",
        about: "say whether files are those that were judged, and are judged the same",
        help: "Compares FILE with the last verdict in FILE.verdict. Prints `good` where the bytes are the same and the \
            verdict is, else `changed`, and then both of each, and by what was judged then and now. Another version or \
            another name alone changes nothing. The status is 0 where all are good, 1 where a file or the verdict on \
            it has changed, 2 where one cannot be read or has no verdict.",
        words: 1..=usize::MAX,
        options: &[],
        run: verify::verify,
    },
    Command {
        name: "letter",
        usage: "FILE [-o OUT [--force]]",
        about: "write a text to send to the supplier of a rule file",
        help: "The text names the file and its SHA-256, so that both sides speak of one file, the refusal and its line, what \
            happened, what exactly is at fault, what there is to ask, and what judged. Of an accepted file it says so. The \
            status is 1 where the file is refused.",
        words: 1..=1,
        options: &[("-o", true), ("--force", false)],
        run: letter::letter,
    },
    Command {
        name: "compare",
        usage: "OLD NEW",
        about: "say what differs between two releases of a rule file",
        help: "Prints `same`, `differ` or `tried`, and then why. `same` is certain: the same bytes; or files that differ in \
            the endings of their lines or in the order of clauses alone, which is proved to be harmless (requests 06 and \
            08); or every conversion has the same types, as trees, and makes the same of every setting, in as many steps. \
            Of a conversion of over 4,096 settings 600 are tried, one for each clause among them; where none differs the \
            answer is `tried`, and not `same`. What names T lines by number is compared too; P lines may have other \
            numbers. The status is 0 only for `same`, and 1 where a file is refused.",
        words: 2..=2,
        options: &[],
        run: compare::compare,
    },
    Command {
        name: "show",
        usage: "FILE [ISO] [--letters] [--html [--back]] [-o OUT [--force]]",
        about: "show what a rule file says, in readable form",
        help: "A type of n steps is written n, and its settings 0 to n - 1; × is both parts, and its settings are (x, y); + is \
            either part, and a setting is i:x, x in part i; a list of n has settings as [x, y]. Each clause is `pattern ↦ pattern, where p = iso i (q)`; small \
            letters are parts that are carried over, 2+a is a counted on from 2, and [a, …b] is a before the list b. With --letters settings are written \
            as queries have them: U, L and R in place of numbers. With --html it is one page, with drawings and with every \
            conversion of an iso of at most 256 settings, or a sample of a larger one: the first and the last setting, one a \
            clause, some between; of lists some of different lengths. Of a file refused with 8 to 14, 21 or 23, which has readable lines, the lines are shown too, \
            and the status is 1.",
        words: 1..=2,
        options: &[
            ("--letters", false),
            ("--html", false),
            ("--back", false),
            ("-o", true),
            ("--force", false),
        ],
        run: show::show,
    },
    Command {
        name: "turn",
        usage: "FILE [-o OUT [--force]]",
        about: "write the turned file, which leads back",
        help: "What the turned file converts forward, FILE converts back. It is written whole or not at all; of a refused \
            file nothing is written.",
        words: 1..=1,
        options: &[("-o", true), ("--force", false)],
        run: turn::turn,
    },
    Command {
        name: "run",
        usage: "FILE ISO SETTING [--back] [--budget N] [--letters]",
        about: "send one setting through a conversion",
        help: "SETTING is letters, a number as `rulefile number` gives it, or as `rulefile show` writes it, in numbers or in names; \
            ISO is a number or a name. Prints `number,count,letters`: 0, the steps made, and the setting that comes out; then \
            both settings as `rulefile show` writes them, with --letters in letters. With --back it is sent the other way. \
            Without --budget as many steps are allowed as any setting needs, up to 100,000,000, and so many where a list is, which \
            may be of any length; where that is not enough, the bound is said.",
        words: 3..=3,
        options: &[("--back", false), ("--budget", true), ("--letters", false)],
        run: run::run,
    },
    Command {
        name: "sheet",
        usage: "FILE QUERIES [--semicolon] [-o OUT [--force]]",
        about: "answer a list of queries, as CSV",
        help: "A line of QUERIES is `Q,iso,direction,budget,letters`, direction 0 for there and 1 for back. Each line is \
            answered by one with the columns line, query, number, word, count, letters, and the setting and what it becomes as \
            `rulefile show` writes them; they are parted by commas or, with --semicolon, by semicolons, as spreadsheet programs \
            of many countries want them. The status is 1 where a query is refused.",
        words: 2..=2,
        options: &[("--semicolon", false), ("-o", true), ("--force", false)],
        run: sheet::sheet,
    },
    Command {
        name: "witness",
        usage: "FILE",
        about: "give a setting that shows the fault of a refused file",
        help: "Prints `number,line,letters`: the verdict and, for 11 to 14, a setting that two or more clauses match or give, \
            or none, with the fewest letters; with over 127 of them the number is 24, and there are none. For other verdicts there \
            is no such setting.",
        words: 1..=1,
        options: &[],
        run: witness::witness,
    },
    Command {
        name: "number",
        usage: "FILE TYPE SETTING",
        about: "give the number of a setting",
        help: "TYPE is the number of a T line, from 0; `rulefile show` prints it as T0, T1 and so on, which is taken too. \
            SETTING is letters, or as `rulefile show` writes it, in numbers or in names. Prints `number,setting`: 0 where it is \
            answered, and the setting's number, from 0; then both in words. That is no verdict on FILE. A type that holds a list has no \
            numbers.",
        words: 3..=3,
        options: &[],
        run: numbers::number_of,
    },
    Command {
        name: "setting",
        usage: "FILE TYPE NUMBER",
        about: "give the setting that has a number",
        help: "It undoes `rulefile number`. Prints `number,letters`, and then the setting in words.",
        words: 3..=3,
        options: &[],
        run: numbers::setting_of,
    },
    Command {
        name: "bounds",
        usage: "FILE ISO",
        about: "give the least and the most steps that a conversion takes",
        help: "Prints `number,least,greatest`. A budget of the greatest is enough for every setting; where it is over \
            4294967295, the words say so.",
        words: 2..=2,
        options: &[],
        run: run::bounds,
    },
    Command {
        name: "overlap",
        usage: "FILE PATTERN PATTERN",
        about: "compare two patterns",
        help: "PATTERN is the number of a P line, from 0. Prints `number,clash,pairs`: clash is 1 where a left stands against \
            a right, so that no setting is matched by both; pairs are the node pairs compared.",
        words: 3..=3,
        options: &[],
        run: patterns::overlap,
    },
    Command {
        name: "export",
        usage: "FILE ISO [--budget N] [-o OUT [--force]]",
        about: "write a conversion as a list of pairs of setting numbers",
        help: "A line is `from,to`, the numbers of a setting and of what becomes of it; the froms are 0, 1, 2 and so on. Of an \
            iso of over 4,096 settings there is no list. Without --budget as many steps are allowed as any setting needs, up to \
            100,000,000 for all of them; where that is not enough, the bound is said.",
        words: 2..=2,
        options: &[("--budget", true), ("-o", true), ("--force", false)],
        run: lists::export,
    },
    Command {
        name: "import",
        usage: "FILE FROM TO LIST [-o OUT [--force]]",
        about: "write a rule file out of a list of pairs of setting numbers",
        help: "FROM and TO are the numbers of two T lines of FILE; `rulefile show` prints them as T0, T1 and so on, which is taken \
            too. LIST has a line `from,to` for each setting, from 0 upwards, at most 128. The new file has one iso with a clause for each \
            line, and `rulefile export` of it gives the list again.",
        words: 4..=4,
        options: &[("-o", true), ("--force", false)],
        run: lists::import,
    },
    Command {
        name: "play",
        usage: "FILE UNITS SCRIPT [--budget N] [--csv] [-o OUT [--force]]",
        about: "try out a script of visits on units, before a rollout",
        help: "UNITS has a line `tline,number` for each unit, from unit 0 on: the number of a T line, and that of a setting as \
            `rulefile number` gives it; at most 1,000. SCRIPT has a line `S,unit,iso,direction` for each visit, direction 0 for \
            there and 1 for back; at most 4,096. Lines end with a line feed, or with a carriage return and a line feed. Prints \
            `number,done,skipped,spent`, and then for each unit what it held before and after, and its visits. A visit is \
            skipped where the unit holds another type than the conversion begins at, and spent where that takes more steps \
            than the budget, which each visit has for itself; both leave the unit as it was, and the status is 0. Without \
            --budget as many steps are allowed as any setting needs. With --csv the table of the units alone is printed, with \
            the columns unit, type before, setting before, type after, setting after, done, skipped, spent. With -o the units \
            after the play are written to OUT, in the form of UNITS, so that it can be played on.",
        words: 3..=3,
        options: &[
            ("--budget", true),
            ("--csv", false),
            ("-o", true),
            ("--force", false),
        ],
        run: play::play,
    },
];

/// What follows the list of commands.
const NOTES: [&str; 4] = [
    "FILE is a rule file as the supplier sent it; `-` stands for standard input. ISO is the number of a conversion, \
     from 0.",
    "LETTERS are a setting: U, L or R before a part, P before two parts, K before an element and the list behind it, N at \
     the end of a list.",
    "OUT is written whole or not at all; one that is there is kept, unless --force says to write over it.",
    "Exit status: 0 accepted or done; 1 refused; 2 not readable, not writable, or wrong usage.",
];

/// Prose, in lines for a terminal.
fn prose(text: &str) -> String {
    explain::wrapped("", text, 80)
}

fn overview() -> String {
    let mut text = "usage: rulefile COMMAND …\n\n".to_string();
    for command in COMMANDS {
        text += &format!("  {:<9}{}\n", command.name, command.about);
    }
    text + "\n`rulefile COMMAND --help` says more of each.\n" + &NOTES.map(prose).concat()
}

fn help(command: &Command) -> String {
    let (name, usage) = (command.name, command.usage);
    let about = prose(&format!("rulefile {name}: {}.", command.about));
    let (help, notes) = (prose(command.help), NOTES.map(prose).concat());
    format!("usage: rulefile {name} {usage}\n\n{about}{help}\n{notes}")
}

fn version() -> String {
    format!("rulefile {}\n", rulefile::VERSION)
}

/// The words that ask for help or for the version, with the text that answers.
fn about(word: &OsString, text: impl Fn() -> String) -> Option<String> {
    match word.to_str() {
        Some("--help" | "-h") => Some(text()),
        Some("--version") => Some(version()),
        _ => None,
    }
}

/// Carries out what the words of a call say.
pub fn carry_out(words: &[OsString]) -> Outcome {
    let Some((first, rest)) = words.split_first() else {
        return Err(Failure(format!("no command is given\n{}", overview())));
    };
    if let Some(text) = about(first, overview) {
        return output::print(text.as_bytes()).map(|()| Status::Done);
    }
    let named = |command: &&Command| *first == *command.name;
    let Some(command) = COMMANDS.iter().find(named) else {
        let first = first.to_string_lossy();
        return Err(Failure(format!(
            "there is no command {first}\n{}",
            overview()
        )));
    };
    let asked = rest.iter().take_while(|word| *word != "--");
    if let Some(text) = asked
        .into_iter()
        .find_map(|word| about(word, || help(command)))
    {
        return output::print(text.as_bytes()).map(|()| Status::Done);
    }
    let given = Given::of(command, rest)?;
    let _watched = progress::of(command.name);
    (command.run)(&given)
}
