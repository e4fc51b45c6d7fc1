//! Near misses: small changes to accepted files, each aimed at one refusal.

use super::accepted;
use super::breach::{self, BREACHES};
use super::ceiling;
use super::damage::damage;
use super::draft::Draft;
use super::idle::pruned;
use super::life;
use super::plan;
use super::random::Random;
use super::thread;
use crate::lines::split;

/// The number that the check of a file gives.
fn number_of(random: &Random, file: &[u8]) -> u8 {
    let refusal = random.check(file).err();
    refusal.map_or(0, |refusal| refusal.number)
}

/// A file that is refused with the number wanted, 2 to 14, 21 or 23. After many
/// tries that are refused otherwise, the last of these is given.
pub fn aimed(random: &mut Random, number: u8) -> Vec<u8> {
    let mut last = Vec::new();
    for _ in 0..40 {
        let base = accepted(random);
        for _ in 0..12 {
            last = attempt(random, &base, number);
            if number_of(random, &last) == number {
                return last;
            }
        }
    }
    last
}

fn attempt(random: &mut Random, base: &[u8], number: u8) -> Vec<u8> {
    let special = random.chance(50);
    match number {
        23 => {
            let breach = *random.pick(&BREACHES);
            breach::file(random, breach).0
        }
        2 if random.chance(20) => ceiling::far_over(random),
        2 if special => ceiling::many_lines(random, true),
        2 => ceiling::many_bytes(random, true),
        3 if random.chance(5) => ceiling::many_bytes(random, false),
        3 => bad_text(random, base),
        7 if special => ceiling::at_ceiling(random, true),
        8 if special => {
            let slip = *random.pick(&life::SLIPS);
            thread::slip(random, slip).0
        }
        10 if random.chance(10) => thread::mistyped(random).0,
        11..=14 if special => plan::one_bad_side(random),
        _ => changed(random, base, number),
    }
}

/// Two faults, in either order of lines.
pub fn two_faults(random: &mut Random) -> Vec<u8> {
    let number = 3 + random.below(12) as u8;
    let file = aimed(random, number);
    if file.len() > 20_000
        || !split(&file)
            .iter()
            .all(|line| crate::lines::parse(line).is_some())
    {
        let mut file = file;
        damage(random, &mut file);
        return file;
    }
    match random.below(6) {
        0 => bad_text(random, &file),
        1..=2 => same_line(random, &file),
        _ => {
            let other = 4 + random.below(11) as u8;
            changed(random, &file, other)
        }
    }
}

/// One more fault on the line that is refused already.
fn same_line(random: &mut Random, file: &[u8]) -> Vec<u8> {
    let over = ceiling::at_ceiling(random, true);
    let file = if random.chance(40) { &over } else { file };
    let mut draft = Draft::of(file);
    let line = random.check(file).err().map_or(0, |refusal| refusal.line);
    if line > 0 {
        let fields = &mut draft.0[line - 1].1;
        let field = random.below(fields.len());
        fields[field] = *random.pick(&[0, 1, 5, 32, 1_024, 1_025, 60_000]);
    }
    draft.bytes()
}

type Change = fn(&mut Random, &mut Draft) -> Option<()>;

/// Changes that may lead to the refusal wanted.
fn changes(number: u8) -> &'static [Change] {
    match number {
        4 => &[swap_rows, move_row, change_letter, delete_row],
        5 => &[change_kind, change_idle, change_field],
        6 => &[change_name, change_name, own_iso, change_field, delete_row],
        7 => &[grow_type, grow_pattern, double_clause],
        8 => &[
            change_variable,
            drop_let,
            double_let,
            turn_let,
            swap_lets,
            change_field,
        ],
        9 => &[wrap_in_let, wrap_in_let, change_field],
        10 => &[
            wrap_type,
            wrap_side,
            flip_kind,
            swap_parts,
            mirror_type,
            change_field,
            flip_side,
        ],
        11 => &[double_clause, copy_side, flip_side],
        12 => &[copy_side, flip_side],
        13 => &[drop_clause, bare_iso, widen],
        14 => &[widen],
        21 => &[drop_let, drop_clause, bare_iso, flip_name, add_idle],
        _ => &[change_field, delete_row, double_row, swap_rows],
    }
}

/// One change to a file whose lines all have one of the five forms.
fn changed(random: &mut Random, base: &[u8], number: u8) -> Vec<u8> {
    let mut draft = Draft::of(base);
    let change = *random.pick(changes(number));
    if !draft.0.is_empty() {
        change(random, &mut draft);
    }
    let file = draft.bytes();
    // What a change leaves idle would hide the refusal wanted.
    if matches!(number, 8..=14) {
        pruned(&file, random.lists)
    } else {
        file
    }
}

/// A line that names another one than before.
fn flip_name(random: &mut Random, draft: &mut Draft) -> Option<()> {
    let letter = *random.pick(b"IC");
    let place = draft.some_place(random, letter)?;
    let fields = &mut draft.0[place].1;
    fields[0] = fields[1];
    Some(())
}

/// A T or P line that no line names.
fn add_idle(random: &mut Random, draft: &mut Draft) -> Option<()> {
    let letter = *random.pick(b"TP");
    draft.add(letter, [0, 0, 0]);
    Some(())
}

/// One line spoiled in its form.
fn bad_text(random: &mut Random, base: &[u8]) -> Vec<u8> {
    let mut lines: Vec<Vec<u8>> = split(base).into_iter().map(<[u8]>::to_vec).collect();
    if lines.is_empty() {
        return b"\n".to_vec();
    }
    let place = if random.chance(10) {
        lines.len() - 1
    } else {
        random.below(lines.len())
    };
    let line = &lines[place];
    let text = String::from_utf8_lossy(line).trim_end().to_string();
    let spoiled = match random.below(16) {
        0 => text.to_lowercase() + "\n",
        1 => text.replacen(',', ",0", 1) + "\n",
        2 => text + ",0\n",
        3 => text[..text.len() - 2].to_string() + "\n",
        4 => text + "\r\r\n",
        5 => text + " \n",
        6 => text.replacen(',', ", ", 1) + "\n",
        7 => text.replacen(',', ",+", 1) + "\n",
        8 => text.replacen(',', ",,", 1) + "\n",
        9 => text[..1].to_string() + ",65536" + &text[1..].replacen(",0", "", 1) + "\n",
        10 => text.replacen(',', ";", 1) + "\n",
        11 => "\n".to_string() + &text + "\n",
        12 => text.replacen(',', ",6553", 1) + "\n",
        13 => text[..1].to_string() + "\n",
        14 => "X".to_string() + &text[1..] + "\n",
        _ => text,
    };
    lines[place] = spoiled.into_bytes();
    lines.concat()
}

fn row(random: &mut Random, draft: &Draft) -> usize {
    random.below(draft.0.len())
}

fn change_field(random: &mut Random, draft: &mut Draft) -> Option<()> {
    let place = row(random, draft);
    let field = random.below(draft.0[place].1.len());
    let old = draft.0[place].1[field];
    let near = [
        old + 1,
        old.saturating_sub(1),
        0,
        1,
        2,
        3,
        4,
        5,
        31,
        32,
        255,
        256,
        65_535,
    ];
    draft.0[place].1[field] = *random.pick(&near);
    Some(())
}

fn change_kind(random: &mut Random, draft: &mut Draft) -> Option<()> {
    let letter = *random.pick(b"TP");
    let place = draft.some_place(random, letter)?;
    draft.0[place].1[0] = *random.pick(&[0, 1, 2, 3, 4, 5, 6, 65_535]);
    Some(())
}

fn change_idle(random: &mut Random, draft: &mut Draft) -> Option<()> {
    let place = draft.some_place(random, b'P')?;
    let fields = &mut draft.0[place].1;
    match fields[0] {
        0 => fields[1 + random.below(2)] = 1 + random.below(9) as u32,
        1 if random.chance(50) => fields[1] = 32 + random.below(3) as u32,
        1..=3 => fields[2] = *random.pick(&[1, 2, 65_535]),
        _ => fields[0] = 5,
    }
    Some(())
}

fn change_name(random: &mut Random, draft: &mut Draft) -> Option<()> {
    let letter = *random.pick(b"TPICL");
    let place = draft.some_place(random, letter)?;
    let number = draft
        .places(letter)
        .iter()
        .position(|other| *other == place)? as u32;
    let (types, patterns) = (draft.count(b'T') as u32, draft.count(b'P') as u32);
    let iso = draft.0[..place].iter().filter(|row| row.0 == b'I').count() as u32;
    let over = random.below(3) as u32;
    let fields = &mut draft.0[place].1;
    match letter {
        b'T' | b'P' => fields[1 + random.below(2)] = number + over,
        b'I' => fields[random.below(2)] = types + over,
        b'C' => fields[random.below(2)] = patterns + over,
        _ if random.chance(50) => fields[1] = (iso + over).saturating_sub(1),
        _ => fields[2 * random.below(2)] = patterns + over,
    }
    Some(())
}

/// A let step that names its own iso, or one behind it.
fn own_iso(random: &mut Random, draft: &mut Draft) -> Option<()> {
    let place = draft.some_place(random, b'L')?;
    let isos = draft.0[..place].iter().filter(|row| row.0 == b'I').count();
    draft.0[place].1[1] = (isos + random.below(2)).saturating_sub(1) as u32;
    Some(())
}

/// A sum made a product, or the other way.
fn flip_kind(random: &mut Random, draft: &mut Draft) -> Option<()> {
    let place = draft.some_place(random, b'T')?;
    let kind = &mut draft.0[place].1[0];
    if matches!(kind, 1 | 2) {
        *kind = 3 - *kind;
    }
    Some(())
}

/// The two parts of a type or a pair exchanged.
fn swap_parts(random: &mut Random, draft: &mut Draft) -> Option<()> {
    let letter = *random.pick(b"TP");
    let place = draft.some_place(random, letter)?;
    let fields = &mut draft.0[place].1;
    if fields[0] == 4 || letter == b'T' && fields[0] != 3 {
        fields.swap(1, 2);
    }
    Some(())
}

/// An iso gets one of its types with the two parts exchanged.
fn mirror_type(random: &mut Random, draft: &mut Draft) -> Option<()> {
    let place = draft.some_place(random, b'I')?;
    let field = random.below(2);
    let number = draft.0[place].1[field] as usize;
    let row = *draft.places(b'T').get(number)?;
    let [kind @ (0..=2), a, b] = draft.0[row].1[..] else {
        return None;
    };
    let new = draft.add(b'T', [kind, b, a]);
    *draft.0.get_mut(place + 1)?.1.get_mut(field)? = new;
    Some(())
}

fn delete_row(random: &mut Random, draft: &mut Draft) -> Option<()> {
    let place = row(random, draft);
    draft.0.remove(place);
    Some(())
}

fn double_row(random: &mut Random, draft: &mut Draft) -> Option<()> {
    let place = row(random, draft);
    draft.0.insert(place, draft.0[place].clone());
    Some(())
}

fn swap_rows(random: &mut Random, draft: &mut Draft) -> Option<()> {
    let (a, b) = (row(random, draft), row(random, draft));
    draft.0.swap(a, b);
    Some(())
}

fn move_row(random: &mut Random, draft: &mut Draft) -> Option<()> {
    let (a, b) = (row(random, draft), row(random, draft));
    let moved = draft.0.remove(a);
    draft.0.insert(b, moved);
    Some(())
}

fn change_letter(random: &mut Random, draft: &mut Draft) -> Option<()> {
    let place = row(random, draft);
    let three = draft.0[place].1.len() == 3;
    draft.0[place].0 = if three {
        *random.pick(b"TPL")
    } else {
        *random.pick(b"IC")
    };
    Some(())
}

fn grow_type(random: &mut Random, draft: &mut Draft) -> Option<()> {
    for _ in 0..random.below(9) {
        let last = draft.count(b'T').checked_sub(1)? as u32;
        draft.add(b'T', [1 + random.below(2) as u32, last, last]);
    }
    Some(())
}

fn grow_pattern(random: &mut Random, draft: &mut Draft) -> Option<()> {
    for _ in 0..random.below(60) {
        let last = draft.count(b'P').checked_sub(1)? as u32;
        let kind = *random.pick(&[2, 2, 2, 3, 3, 3, 3, 4]);
        draft.add(b'P', [kind, last, if kind == 4 { last } else { 0 }]);
    }
    Some(())
}

fn change_variable(random: &mut Random, draft: &mut Draft) -> Option<()> {
    let mut places = draft.places(b'P');
    places.retain(|place| draft.0[*place].1[0] == 1);
    if places.is_empty() {
        return None;
    }
    let place = *random.pick(&places);
    draft.0[place].1[1] = random.below(32) as u32;
    Some(())
}

fn drop_let(random: &mut Random, draft: &mut Draft) -> Option<()> {
    let place = draft.some_place(random, b'L')?;
    draft.0.remove(place);
    Some(())
}

fn double_let(random: &mut Random, draft: &mut Draft) -> Option<()> {
    let place = draft.some_place(random, b'L')?;
    draft.0.insert(place, draft.0[place].clone());
    Some(())
}

fn turn_let(random: &mut Random, draft: &mut Draft) -> Option<()> {
    let place = draft.some_place(random, b'L')?;
    draft.0[place].1.swap(0, 2);
    Some(())
}

fn swap_lets(random: &mut Random, draft: &mut Draft) -> Option<()> {
    let place = draft.some_place(random, b'L')?;
    let above = place.checked_sub(1)?;
    if draft.0[above].0 == b'L' {
        draft.0.swap(place, above);
    }
    Some(())
}

/// A pattern of a let step put below left, right or a pair with them.
fn wrap_in_let(random: &mut Random, draft: &mut Draft) -> Option<()> {
    let place = draft.some_place(random, b'L')?;
    let field = 2 * random.below(2);
    wrap(random, draft, place, field)
}

/// A side of a clause put below left, right or a pair.
fn wrap_side(random: &mut Random, draft: &mut Draft) -> Option<()> {
    let place = draft.some_place(random, b'C')?;
    let field = random.below(2);
    wrap(random, draft, place, field)
}

fn wrap(random: &mut Random, draft: &mut Draft, place: usize, field: usize) -> Option<()> {
    let before = draft.0.len();
    let unit = draft.unit(b'P');
    let moved = place + draft.0.len() - before;
    let old = *draft.0.get(moved)?.1.get(field)?;
    let in_list = random.lists && random.chance(40);
    let new = match random.below(3) {
        0 if in_list => draft.add(b'P', [5, 0, 0]),
        1 if in_list => draft.add(b'P', [6, unit, old]),
        _ if in_list => {
            let end = draft.add(b'P', [5, 0, 0]);
            draft.add(b'P', [6, old, end])
        }
        0 => draft.add(b'P', [2, old, 0]),
        1 => draft.add(b'P', [3, old, 0]),
        _ => {
            let side = draft.add(b'P', [2, unit, 0]);
            draft.add(b'P', [4, old, side])
        }
    };
    let moved = place + draft.0.len() - before;
    *draft.0.get_mut(moved)?.1.get_mut(field)? = new;
    Some(())
}

fn wrap_type(random: &mut Random, draft: &mut Draft) -> Option<()> {
    let place = draft.some_place(random, b'I')?;
    let field = random.below(2);
    let old = draft.0[place].1[field];
    let parts = match random.lists && random.chance(40) {
        true => [3, old, 0],
        false => [1 + random.below(2) as u32, old, old],
    };
    let new = draft.add(b'T', parts);
    *draft.0.get_mut(place + 1)?.1.get_mut(field)? = new;
    Some(())
}

fn flip_side(random: &mut Random, draft: &mut Draft) -> Option<()> {
    let mut places = draft.places(b'P');
    places.retain(|place| matches!(draft.0[*place].1[0], 2 | 3));
    if places.is_empty() {
        return None;
    }
    let place = *random.pick(&places);
    draft.0[place].1[0] ^= 1;
    Some(())
}

fn double_clause(random: &mut Random, draft: &mut Draft) -> Option<()> {
    let start = draft.some_place(random, b'C')?;
    let range = draft.clause(start);
    let rows = draft.0[range.clone()].to_vec();
    draft.0.splice(range.end..range.end, rows);
    Some(())
}

fn drop_clause(random: &mut Random, draft: &mut Draft) -> Option<()> {
    let start = draft.some_place(random, b'C')?;
    let range = draft.clause(start);
    draft.0.drain(range);
    Some(())
}

fn bare_iso(random: &mut Random, draft: &mut Draft) -> Option<()> {
    let start = draft.some_place(random, b'I')?;
    let range = draft.iso(start);
    draft.0.drain(range.start + 1..range.end);
    Some(())
}

/// One side of a clause copied from another clause of the same iso.
fn copy_side(random: &mut Random, draft: &mut Draft) -> Option<()> {
    let start = draft.some_place(random, b'I')?;
    let range = draft.iso(start);
    let clauses: Vec<usize> = range.filter(|place| draft.0[*place].0 == b'C').collect();
    if clauses.len() < 2 {
        return None;
    }
    let field = random.below(2);
    let (from, to) = (*random.pick(&clauses), *random.pick(&clauses));
    draft.0[to].1[field] = draft.0[from].1[field];
    Some(())
}

/// The from- or to-type made a part of a sum, and the patterns of that side
/// put below left or right.
fn widen(random: &mut Random, draft: &mut Draft) -> Option<()> {
    let start = draft.some_place(random, b'I')?;
    let (field, kind) = (random.below(2), 2 + random.below(2) as u32);
    let old = draft.0[start].1[field];
    let other = random.below(draft.count(b'T').max(1)) as u32;
    let parts = if kind == 2 {
        [1, old, other]
    } else {
        [1, other, old]
    };
    let new = draft.add(b'T', parts);
    *draft.0.get_mut(start + 1)?.1.get_mut(field)? = new;
    let mut place = start + 2;
    while place < draft.0.len() && draft.0[place].0 != b'I' {
        if draft.0[place].0 == b'C' {
            let old = draft.0[place].1[field];
            let new = draft.add(b'P', [kind, old, 0]);
            place += 1;
            *draft.0.get_mut(place)?.1.get_mut(field)? = new;
        }
        place += 1;
    }
    Some(())
}
