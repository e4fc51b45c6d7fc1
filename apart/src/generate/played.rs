//! Request 12: units and scripts.

use super::ending::resaved;
use super::random::Random;
use crate::numbering::{values, VALUES};
use crate::recursion::has_lists;
use crate::Rules;

/// The T lines that can be numbered, or those that have too many values.
pub fn lines(rules: &Rules, numbered: bool) -> Vec<u32> {
    let is = |place: &usize| (values(&rules.types[*place]) <= VALUES) == numbered;
    let places = (0..rules.types.len()).filter(is);
    places.map(|place| place as u32).collect()
}

/// The T lines that each I line names.
pub fn ends(rules: &Rules) -> Vec<[u32; 2]> {
    let isos = rules.rows.iter().filter(|row| row.letter == b'I');
    let names = isos.map(|row| [row.fields[0], row.fields[1]]);
    names.map(|ends| ends.map(u32::from)).collect()
}

/// So many units, each with a T line and the number of a setting. Most of them
/// hold a type that an I line names.
pub fn units(random: &mut Random, rules: &Rules, count: usize) -> (Vec<u32>, Vec<u32>) {
    let few = lines(rules, true);
    let mut starts: Vec<u32> = ends(rules).concat();
    starts.retain(|ty| few.contains(ty));
    let mut unit = || {
        let from = if starts.is_empty() || random.chance(10) {
            &few
        } else {
            &starts
        };
        let ty = *random.pick(from);
        let count = values(&rules.types[ty as usize]);
        let any = random.number() % count;
        (ty, *random.pick(&[0, any, any, count - 1]) as u32)
    };
    let count = if few.is_empty() { 0 } else { count };
    (0..count).map(|_| unit()).unzip()
}

/// So many visits, of which so many of a hundred are of an iso that begins at the
/// unit's type, if all before them are done.
pub fn script(
    random: &mut Random,
    rules: &Rules,
    types: &[u32],
    lines: usize,
    fitting: usize,
) -> Vec<u8> {
    let ends = ends(rules);
    // An iso that has to do with lists is refused.
    let free = |iso: &usize| !has_lists(&rules.isos, *iso);
    let free: Vec<usize> = (0..ends.len()).filter(free).collect();
    if free.is_empty() || types.is_empty() {
        return Vec::new();
    }
    let mut types = types.to_vec();
    let mut script = String::new();
    for _ in 0..lines {
        let unit = random.below(types.len());
        let mut visit = (*random.pick(&free), random.below(2));
        if random.chance(fitting) {
            if let Some(found) = fit(random, rules, &ends, types[unit]) {
                visit = found;
                types[unit] = ends[visit.0][1 - visit.1];
            }
        }
        script += &format!("S,{unit},{},{}\n", visit.0, visit.1);
    }
    resaved(random, script.as_bytes())
}

/// An iso and a direction that begin at the type of a T line.
fn fit(random: &mut Random, rules: &Rules, ends: &[[u32; 2]], line: u32) -> Option<(usize, usize)> {
    let tree = |line: u32| &rules.types[line as usize];
    let all = (0..ends.len()).flat_map(|iso| [(iso, 0), (iso, 1)]);
    let fits = |(iso, back): &(usize, usize)| tree(ends[*iso][*back]) == tree(line);
    let all: Vec<(usize, usize)> = all.filter(fits).collect();
    (!all.is_empty()).then(|| *random.pick(&all))
}

/// "the script last line first with directions exchanged".
pub fn turned(script: &[u8]) -> Vec<u8> {
    let text = String::from_utf8_lossy(script).replace('\r', "");
    let turn = |line: &str| match line.strip_suffix('0') {
        Some(start) => format!("{start}1\n"),
        None => format!("{}0\n", &line[..line.len() - 1]),
    };
    text.lines()
        .rev()
        .map(turn)
        .collect::<String>()
        .into_bytes()
}

/// Lines of another form, or that name an absent unit or iso.
pub fn bad_lines(units: usize, isos: usize) -> Vec<String> {
    let mut lines = vec![
        format!("S,{units},0,0\n"),
        format!("S,0,{isos},0\n"),
        format!("S,{},0,1\n", units + 256),
        format!("S,0,{},1\n", isos + 256),
        "S,65535,0,0\n".to_string(),
        "S,0,65535,0\n".to_string(),
    ];
    let others = [
        "S,0,0,2",
        "S,00,0,0",
        "S,0,00,0",
        "S,0,0,00",
        "S,0,0",
        "S,0,0,",
        "S,0,0,0,0",
        "s,0,0,0",
        "S,0,0, 0",
        " S,0,0,0",
        "S,,0,0",
        "S,+0,0,0",
        "S,65536,0,0",
        "S,0,65536,0",
        "S,4294967296,0,0",
        "S,0,4294967296,0",
        "S,0,0,4294967296",
        "S,0,0,0\r\r",
        "S,0,0\r,0",
        "S",
        "",
        "Q,0,0,0",
        "S;0;0;0",
        "S,0,0,0\0",
    ];
    lines.extend(others.map(|line| format!("{line}\n")));
    lines
}
