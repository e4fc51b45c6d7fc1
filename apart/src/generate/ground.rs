//! An accepted file with some lines of known names, into which lines with
//! faults are put.

use super::ceiling::base;
use super::draft::Draft;
use super::random::Random;
use std::collections::HashMap;

/// Behind which lines a part is put: all T lines, all P lines, or all lines.
#[derive(Debug, Clone, Copy, PartialEq, Eq, PartialOrd, Ord)]
pub enum Zone {
    Types,
    Patterns,
    Isos,
}

pub const ZONES: [Zone; 3] = [Zone::Types, Zone::Patterns, Zone::Isos];

/// Lines with a fault, with names of the ground in place of numbers. A refusal
/// names one of them, counted from 0.
#[derive(Debug, Clone)]
pub struct Part {
    pub zone: Zone,
    pub lines: Vec<String>,
    pub named: usize,
}

impl Part {
    /// A part of lines parted by blanks.
    pub fn new(zone: Zone, lines: &str, named: usize) -> Part {
        let lines = lines.split(' ').map(str::to_string).collect();
        Part { zone, lines, named }
    }
}

/// T lines: unit, sums, and one of 127 nodes.
const TYPES: [(&str, &str); 10] = [
    ("unit", "0,0,0"),
    ("two", "1,unit,unit"),
    ("three", "1,two,unit"),
    ("four", "1,three,unit"),
    ("t3", "2,unit,unit"),
    ("t7", "2,t3,t3"),
    ("t15", "2,t7,t7"),
    ("t31", "2,t15,t15"),
    ("t63", "2,t31,t31"),
    ("t127", "2,t63,t63"),
];

/// P lines: unit, variables, left and right, one of 127 nodes, and one of 40
/// left and right nodes.
const PATTERNS: [(&str, &str); 20] = [
    ("u", "0,0,0"),
    ("x", "1,0,0"),
    ("y", "1,1,0"),
    ("l", "2,u,0"),
    ("r", "3,u,0"),
    ("lx", "2,x,0"),
    ("llx", "2,lx,0"),
    ("lr", "2,r,0"),
    ("p3", "4,u,x"),
    ("p7", "4,p3,p3"),
    ("p15", "4,p7,p7"),
    ("p31", "4,p15,p15"),
    ("p63", "4,p31,p31"),
    ("p127", "4,p63,p63"),
    ("s2", "4,l,r"),
    ("s4", "4,s2,s2"),
    ("s8", "4,s4,s4"),
    ("s16", "4,s8,s8"),
    ("s32", "4,s16,s16"),
    ("s40", "4,s32,s8"),
];

/// With the lines of request 14: a list of units, and patterns of it.
const LIST_TYPES: [(&str, &str); 1] = [("units", "3,unit,0")];
const LIST_PATTERNS: [(&str, &str); 3] = [("n", "5,0,0"), ("kx", "6,u,x"), ("kkx", "6,u,kx")];

/// An iso of the unit type, and one that exchanges the values of `two`.
const ISOS: [(u8, &str); 5] = [
    (b'I', "unit,unit"),
    (b'C', "u,u"),
    (b'I', "two,two"),
    (b'C', "l,r"),
    (b'C', "r,l"),
];

/// The last iso, which names all that the others do not: its faults are found
/// behind those of the parts.
const LAST: [&str; 4] = ["I,four,t127", "C,llx,lr", "C,p127,s40", "C,y,y"];
const LIST_LAST: [&str; 3] = ["I,units,units", "C,n,kx", "C,kkx,kkx"];

pub struct Ground {
    draft: Draft,
    lists: bool,
    names: HashMap<&'static str, u32>,
}

impl Ground {
    pub fn new(random: &mut Random) -> Ground {
        let draft = loop {
            let draft = Draft::of(&base(random, 3));
            if draft.count(b'T') < 200 && draft.count(b'P') < 900 {
                break draft;
            }
        };
        let names = HashMap::new();
        let lists = random.lists;
        let mut ground = Ground {
            draft,
            lists,
            names,
        };
        let mut all = vec![(b'T', &TYPES[..]), (b'P', &PATTERNS[..])];
        if lists {
            all.extend([(b'T', &LIST_TYPES[..]), (b'P', &LIST_PATTERNS[..])]);
        }
        for (letter, lines) in all {
            for (name, fields) in lines {
                let fields = ground.numbers(fields).try_into().expect("three fields");
                let number = ground.draft.add(letter, fields);
                ground.names.insert(name, number);
            }
        }
        let isos = ground.draft.count(b'I') as u32;
        for (letter, fields) in ISOS {
            let fields = ground.numbers(fields);
            ground.draft.push(letter, &fields);
        }
        ground.names.insert("same", isos);
        ground.names.insert("swap", isos + 1);
        // Two parts add two isos at most, so that this number is never one of
        // an earlier iso, nor with the lines of request 14 of its own.
        ground.names.insert("own", isos + 3 + u32::from(lists));
        let (types, patterns) = (ground.draft.count(b'T'), ground.draft.count(b'P'));
        ground.names.insert("type", types as u32);
        ground.names.insert("pattern", patterns as u32);
        ground
    }

    fn numbers(&self, fields: &str) -> Vec<u32> {
        let number = |field: &str| match self.names.get(field) {
            Some(number) => *number,
            None => field.parse().expect("a number or a name of the ground"),
        };
        fields.split(',').map(number).collect()
    }

    /// The line with the names behind its letter replaced; `self` is the iso of
    /// the line, by how many I lines there are down to it.
    fn text(&self, line: &str, isos: usize) -> String {
        let field = |field: &str| match self.names.get(field) {
            Some(number) => number.to_string(),
            None if field == "self" => (isos - 1).to_string(),
            None => field.to_string(),
        };
        let mut fields = line.split(',');
        let letter = fields.next().map(str::to_string);
        let fields: Vec<String> = letter.into_iter().chain(fields.map(field)).collect();
        fields.join(",") + "\n"
    }

    /// The file with the parts put in, and the line that each part names.
    pub fn file(&self, parts: &[Part]) -> (Vec<u8>, Vec<usize>) {
        let mut file = Vec::new();
        let mut above = 0;
        let mut isos = self.draft.count(b'I');
        let mut named = vec![0; parts.len()];
        for (zone, letters) in ZONES.iter().zip(["T", "P", "ICL"]) {
            let own = |row: &&(u8, Vec<u32>)| letters.as_bytes().contains(&row.0);
            let rows: Vec<_> = self.draft.0.iter().filter(own).cloned().collect();
            above += rows.len();
            file.extend(Draft(rows).bytes());
            for (part, line) in parts.iter().zip(&mut named) {
                if part.zone == *zone {
                    *line = above + part.named + 1;
                    above += part.lines.len();
                    for line in &part.lines {
                        isos += usize::from(line.starts_with("I,"));
                        file.extend(self.text(line, isos).into_bytes());
                    }
                }
            }
        }
        let lists = if self.lists { &LIST_LAST[..] } else { &[] };
        let last = LAST.iter().chain(lists);
        file.extend(last.flat_map(|line| self.text(line, isos).into_bytes()));
        (file, named)
    }
}
