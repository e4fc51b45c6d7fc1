//! Request 08: the same file with its clauses in another order, the let steps
//! with their clause. Both files are accepted or both refused; accepted, they
//! are answered alike and turn to two such files.

use crate::block::Block;
use crate::bounds::any_iso;
use crate::calls::fit;
use crate::desk::{difference, numbers, Program};
use crate::endings::answered;
use crate::grid::Grid;
use crate::input::Input;
use crate::pair_lists::enough;
use crate::service::{Ask, Call, Services};
use crate::tally::{names, Tally};
use crate::trip::Trip;
use crate::zoned;
use apart::areas::Known;
use apart::clause::checked;
use apart::desk::parts;
use apart::generate::query::sample;
use apart::generate::random::Random;
use apart::lines::{read, split, CLAUSES, LETS as LETS_IN_A_CLAUSE};
use apart::Refusal;
use std::io;

/// Rows of the table. Of accepted files also what was moved; of refused ones
/// also what differs.
pub const ACCEPTED: usize = 0;
pub const LETS: usize = 1;
pub const ISOS: usize = 2;
pub const ONE: usize = 3;
pub const SEVERAL: usize = 4;
pub const SIDE: usize = 5;
pub const ELSEWHERE: usize = 6;
pub const OTHER_LINE: usize = 7;
pub const OTHER_NUMBER: usize = 8;
pub const RECURSION: usize = 9;

/// Columns of the table.
pub const RULES: usize = 0;
pub const CHECK: usize = 1;
pub const RUN: usize = 2;
pub const SHEET: usize = 3;
pub const TURN: usize = 4;
pub const TURNED: usize = 5;
pub const SETTINGS: usize = 6;
pub const BOUNDS: usize = 7;
pub const LISTS: usize = 8;

/// Of so many of a hundred accepted files all services are tried, of the
/// others Check and `rules` alone.
const DEEP: usize = 40;

/// Of a refused file there is nothing to be had but the refusal.
fn needed(row: usize, column: usize) -> bool {
    row <= ISOS || column <= CHECK
}

pub fn grid() -> Grid {
    let mut rows = names(&[
        "accepted",
        "accepted, let steps moved",
        "accepted, several isos",
        "refused, one clause at fault",
        "refused, several clauses",
        "refused, a side at fault",
        "refused, another line",
        "refused, at another line",
        "refused, another number",
    ]);
    if apart::lines::LISTS {
        rows.push("refused, 23".to_string());
    }
    let columns = &[
        "rules", "check", "run", "sheet", "turn", "turned", "settings", "bounds", "lists",
    ];
    Grid::new("clauses shuffled", rows, columns, needed)
}

/// A small file up to its second iso; pattern 3 is a variable.
const HEAD: &str = "T,0,0,0\nT,1,0,0\nP,0,0,0\nP,2,0,0\nP,3,0,0\nP,1,0,0\nP,2,3,0\n\
I,1,1\nC,1,2\nC,2,1\nI,1,1\n";

/// The last iso, which names the patterns that the clauses may not.
const LAST: &str = "I,1,1\nC,4,3\nC,0,0\n";

/// Clauses for it with refusals 8, 9 and 10, and with 3, 6 and 7.
const CLAUSES_OF_8: [&str; 3] = ["C,3,0\n", "C,3,3\nL,4,0,3\n", "C,0,1\n"];
const CLAUSES_OF_3: [&str; 3] = ["C,1\n", "C,1,9\n", "C,3,3\nL,3,0,3\n"];

/// A file with two clauses of one iso at fault in different ways, and a good
/// one. The one with let steps among the latter has one too many.
pub fn several(random: &mut Random, form: bool) -> Vec<u8> {
    let mut faulty = if form { CLAUSES_OF_3 } else { CLAUSES_OF_8 };
    random.shuffle(&mut faulty);
    let lets = "L,3,0,3\n".repeat(LETS_IN_A_CLAUSE + 1);
    let mut clauses = faulty[..2].to_vec();
    clauses.push("C,1,1\n");
    random.shuffle(&mut clauses);
    let text = [HEAD, &clauses.concat(), LAST].concat();
    text.replace("L,3,0,3\n", &lets).into_bytes()
}

/// A part of a file: a C line and the L lines under it, or any other line.
#[derive(Clone, Copy)]
struct Part {
    begin: usize,
    end: usize,
    clause: bool,
}

/// A clause without a line feed at its end has to stay the last line.
fn pieces(file: &[u8]) -> Vec<Part> {
    let mut pieces: Vec<Part> = Vec::new();
    let mut begin = 0;
    for line in split(file) {
        let end = begin + line.len();
        let under = line[0] == b'L' && pieces.last().is_some_and(|part| part.clause);
        if under {
            pieces.last_mut().expect("there is one").end = end;
        } else {
            let clause = line[0] == b'C';
            pieces.push(Part { begin, end, clause });
        }
        begin = end;
    }
    if let Some(last) = pieces.last_mut() {
        last.clause &= file.ends_with(b"\n");
    }
    pieces
}

/// A file with the clauses that stand together in another order, and which of
/// it moved.
pub struct Shuffle {
    pub file: Vec<u8>,
    /// The isos whose clauses moved.
    pub isos: usize,
    /// Whether one of them has let steps.
    pub lets: bool,
}

fn reordered(file: &[u8], mut order: impl FnMut(&mut [&[u8]])) -> Shuffle {
    let mut all = Shuffle {
        file: Vec::with_capacity(file.len()),
        isos: 0,
        lets: false,
    };
    for run in pieces(file).chunk_by(|one, two| one.clause && two.clause) {
        let old: Vec<&[u8]> = run.iter().map(|part| &file[part.begin..part.end]).collect();
        let mut new = old.clone();
        order(&mut new);
        if old != new {
            all.isos += 1;
            all.lets |= old.iter().any(|clause| split(clause).len() > 1);
        }
        all.file.extend(new.concat());
    }
    all
}

/// The clauses of each iso in an order of their own.
pub fn shuffled(random: &mut Random, file: &[u8]) -> Shuffle {
    reordered(file, |clauses| random.shuffle(clauses))
}

/// The same for two files exactly when they differ in the order of clauses
/// alone.
pub fn sorted(file: &[u8]) -> Vec<u8> {
    reordered(file, |clauses| clauses.sort()).file
}

/// The row of a refused file: how many of its clauses are at fault, where a
/// clause is refused.
pub fn kind(file: &[u8], refusal: Refusal) -> usize {
    let clauses = match refusal.number {
        3..=7 => lines_at_fault(file, refusal.line),
        8..=10 => clauses_at_fault(file, refusal.line),
        11..=14 => return SIDE,
        23 => return RECURSION,
        _ => return ELSEWHERE,
    };
    match clauses {
        Some(true) => ONE,
        Some(false) => SEVERAL,
        None => ELSEWHERE,
    }
}

/// Whether the clause of a refused line is the only one: without it the lines
/// are in form, and with it the iso has no clause too many. Nothing where the
/// line is not part of a clause that moves.
fn lines_at_fault(file: &[u8], line: usize) -> Option<bool> {
    let begin = split(file)
        .iter()
        .take(line - 1)
        .map(|line| line.len())
        .sum();
    let pieces = pieces(file);
    let inside = |part: &Part| part.begin <= begin && begin < part.end;
    let place = pieces.iter().position(inside)?;
    let part = pieces[place];
    if !part.clause {
        return None;
    }
    let above = pieces[..place].iter().rev().take_while(|part| part.clause);
    let below = pieces[place..].iter().take_while(|part| part.clause);
    let few = above.count() + below.count() <= CLAUSES;
    let rest = [&file[..part.begin], &file[part.end..]].concat();
    Some(few && read(&rest).is_ok())
}

/// Whether the faults 8 to 10 of the refused clause's iso have one number.
fn clauses_at_fault(file: &[u8], line: usize) -> Option<bool> {
    let isos = read(file).ok()?.isos;
    let place = isos.iter().rposition(|iso| iso.line < line)?;
    let iso = &isos[place];
    let faults = iso.clauses.iter();
    let faults = faults.filter_map(|clause| checked(clause, iso, &isos[..=place]).err());
    let mut faults: Vec<u8> = faults.collect();
    faults.dedup();
    Some(faults.len() == 1)
}

/// Whether the other file may be refused so, given the row of the first.
pub fn may_be(row: usize, first: (u32, usize), other: (u32, usize)) -> bool {
    let clause = |number| (8..=10).contains(&number);
    let form = |number| (3..=7).contains(&number);
    match row {
        ONE | RECURSION => first.0 == other.0,
        SEVERAL => clause(first.0) && clause(other.0) || form(first.0) && form(other.0),
        _ => first == other,
    }
}

impl<P: Program, S: Services> Block<P, S> {
    /// The file with its clauses in another order, where it has such a one.
    pub fn shuffled(
        &mut self,
        random: &mut Random,
        known: &Known,
        input: &Input,
        trips: &[Trip],
        list: &[u8],
    ) -> io::Result<()> {
        let shuffle = shuffled(random, known.file);
        if shuffle.isos == 0 {
            return Ok(());
        }
        let other = Known::of(&shuffle.file);
        let rows = rows(known, &shuffle);
        let files = [known, &other];
        self.check_shuffled(random, files, &rows);
        self.print_shuffled(files, &input.bytes, &rows)?;
        zoned::count(&mut self.tally, known, zoned::SHUFFLED);
        if known.checked.is_ok() && random.chance(DEEP) {
            let asks = asks(input, trips);
            for _ in 0..2 {
                let call = Call::Run(*random.pick(&asks));
                self.both(random, files, call, (RUN, &rows));
            }
            self.both(random, files, Call::Sheet(list), (SHEET, &rows));
            let ask = *random.pick(&asks);
            self.turn_shuffled(random, files, ask, &rows);
            self.settings_shuffled(random, files, &rows);
            let call = Call::Bounds(any_iso(random, known));
            self.both(random, files, call, (BOUNDS, &rows));
            self.lists_shuffled(random, files, &rows);
        }
        Ok(())
    }

    fn check_shuffled(&mut self, random: &mut Random, files: [&Known; 2], rows: &[usize]) {
        let kinds = fit(random);
        let call = Call::Check;
        let given = self
            .calls
            .call(random, &mut self.tally, files[1], call, kinds);
        self.verdicts(files, (given.number, given.line), (CHECK, rows));
    }

    /// All that is printed for an accepted file, the number for a refused one,
    /// where the file ends as `rules` reads it and the queries begin.
    fn print_shuffled(
        &mut self,
        [known, other]: [&Known; 2],
        input: &[u8],
        rows: &[usize],
    ) -> io::Result<()> {
        if parts(input).0.len() != known.file.len() {
            return Ok(());
        }
        let others = [other.file, &input[known.file.len()..]].concat();
        let printed = self.program.printed(&others)?;
        let (number, line) = numbers(&printed).first().copied().unwrap_or_default();
        self.verdicts(
            [known, other],
            (number as u32, line as usize),
            (RULES, rows),
        );
        let wanted = match &other.checked {
            Ok(_) => self.printed.clone(),
            Err(Refusal { number, line }) => format!("{number},{line}\n").into_bytes(),
        };
        if let Some(what) = difference(&wanted, &printed) {
            let text = format!("with its clauses shuffled, {what}");
            self.tally.mismatch(text, others);
        }
        Ok(())
    }

    /// Holds the answer for the other file to the one for the first.
    fn verdicts(
        &mut self,
        [known, other]: [&Known; 2],
        given: (u32, usize),
        (column, rows): (usize, &[usize]),
    ) {
        let first = match &known.checked {
            Ok(_) => (0, 0),
            Err(refusal) => (refusal.number.into(), refusal.line),
        };
        if !may_be(rows[0], first, given) {
            let text = format!("{first:?}, with its clauses shuffled {given:?}");
            self.tally.mismatch(text, other.file.to_vec());
        }
        hit(&mut self.tally, column, rows);
        let differs = [
            (OTHER_LINE, first.1 != given.1),
            (OTHER_NUMBER, first.0 != given.0),
        ];
        for (row, differs) in differs {
            if differs {
                self.tally.shuffled.hit(row, column);
            }
        }
    }

    /// The same call on both files: the answers, and all that is written.
    fn both(
        &mut self,
        random: &mut Random,
        files: [&Known; 2],
        call: Call,
        (column, rows): (usize, &[usize]),
    ) {
        let given = files.map(|known| {
            let kinds = fit(random);
            let answer = self.calls.call(random, &mut self.tally, known, call, kinds);
            let written = self.calls.written(answer.length).to_vec();
            let queries = match answer.queries {
                0 => Vec::new(),
                queries => answered(&self.calls.given(), queries),
            };
            (answer, written, queries)
        });
        if given[0] != given[1] {
            let text = format!("{call:?} with the clauses shuffled is answered otherwise");
            self.tally.mismatch(text, files[1].file.to_vec());
        }
        hit(&mut self.tally, column, rows);
    }

    /// The turned files differ in the order of clauses alone, and are answered
    /// alike.
    fn turn_shuffled(&mut self, random: &mut Random, files: [&Known; 2], ask: Ask, rows: &[usize]) {
        let turned = files.map(|known| {
            let kinds = fit(random);
            let answer = self
                .calls
                .call(random, &mut self.tally, known, Call::Turn, kinds);
            self.calls.written(answer.length).to_vec()
        });
        if sorted(&turned[0]) != sorted(&turned[1]) {
            let text = "turned, with the clauses shuffled, not in the order alone".to_string();
            self.tally.mismatch(text, files[1].file.to_vec());
        }
        hit(&mut self.tally, TURN, rows);
        let turned = [Known::of(&turned[0]), Known::of(&turned[1])];
        let call = Call::Run(ask);
        self.both(random, [&turned[0], &turned[1]], call, (TURNED, rows));
    }

    /// An iso of either file as a pair list.
    fn lists_shuffled(&mut self, random: &mut Random, files: [&Known; 2], rows: &[usize]) {
        let Ok(rules) = &files[0].checked else { return };
        let iso = random.below(rules.isos.len()) as u32;
        let call = Call::Export(iso, enough(rules, iso));
        self.both(random, files, call, (LISTS, rows));
    }

    fn settings_shuffled(&mut self, random: &mut Random, files: [&Known; 2], rows: &[usize]) {
        let Ok(rules) = &files[0].checked else { return };
        let ty = random.below(rules.types.len());
        let mut letters = Vec::new();
        sample(random, &rules.types[ty], &mut letters);
        let number = random.below(200) as u32;
        let ty = ty as u32;
        for call in [Call::NumberOf(ty, &letters), Call::SettingOf(ty, number)] {
            self.both(random, files, call, (SETTINGS, rows));
        }
    }
}

/// Runs that are not too long.
fn asks<'a>(input: &'a Input, trips: &'a [Trip]) -> Vec<Ask<'a>> {
    let steps = trips.iter().flat_map(|trip| trip.steps(false));
    let mut asks: Vec<Ask> = steps.map(|step| step.ask).chain(input.asks()).collect();
    asks.retain(|ask| ask.budget < 4_000);
    asks.push(Ask {
        iso: 0,
        back: true,
        budget: 9,
        letters: b"LU",
    });
    asks
}

/// The rows of a file, the one of its law first.
fn rows(known: &Known, shuffle: &Shuffle) -> Vec<usize> {
    if let Err(refusal) = &known.checked {
        return vec![kind(known.file, *refusal)];
    }
    let all = [
        (ACCEPTED, true),
        (LETS, shuffle.lets),
        (ISOS, shuffle.isos > 1),
    ];
    let moved = all.into_iter().filter(|(_, is)| *is);
    moved.map(|(row, _)| row).collect()
}

fn hit(tally: &mut Tally, column: usize, rows: &[usize]) {
    for row in rows {
        tally.shuffled.hit(*row, column);
    }
}
