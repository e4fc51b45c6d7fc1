//! Lines with one fault or two.

use super::ground::{Part, Zone, ZONES};
use super::random::Random;

/// Two parts with one fault each, the first above the second.
pub fn apart(random: &mut Random, first: u8, second: u8) -> [Part; 2] {
    loop {
        let parts = [first, second].map(|number| alone(random, number));
        if parts[0].zone <= parts[1].zone {
            return parts;
        }
    }
}

/// Three parts: both faults on one line, in one clause or in one iso; the
/// first fault alone; the second alone.
pub fn together(random: &mut Random, first: u8, second: u8) -> [Part; 3] {
    match (first, second) {
        (3, _) => spoiled(random, second),
        (4, _) => misplaced(random, second),
        (5, _) | (6, _) => on_one_line(random, first, second),
        (8..=10, 11..=14) => clause_and_iso(random, first, second),
        (8..=10, 23) => clause_and_iso(random, first, second),
        _ => in_one_place(random, first, second),
    }
}

/// A part with one fault.
fn alone(random: &mut Random, number: u8) -> Part {
    match number {
        3..=7 => {
            let zones = if number == 5 { &ZONES[..2] } else { &ZONES[..] };
            let zone = *random.pick(zones);
            line(random, number, zone)
        }
        21 => idle(random),
        _ => iso(random, number),
    }
}

/// T or P lines that no other line names, or idle ones alone.
fn idle(random: &mut Random) -> Part {
    let (zone, lines): (Zone, &[&str]) = if random.chance(50) {
        let lines = &[
            "T,0,0,0",
            "T,1,unit,four",
            "T,0,0,0 T,2,type,unit",
            "T,1,unit,unit T,2,type,type",
        ];
        (Zone::Types, lines)
    } else {
        let lines = &[
            "P,0,0,0",
            "P,1,31,0",
            "P,3,u,0 P,4,pattern,pattern",
            "P,2,l,0 P,3,pattern,0",
        ];
        (Zone::Patterns, lines)
    };
    let lines = *random.pick(lines);
    Part::new(zone, lines, 0)
}

/// Lines of none of the five forms.
const BAD: [&str; 15] = [
    "",
    "T",
    "X,0,0,0",
    "t,0,0,0",
    "T,0,0",
    "P,0,0,0,0",
    "T,00,0,0",
    "P,0,0,0 ",
    "T, 0,0,0",
    "P,0,0,65536",
    "T,,0,0",
    "P,0,0,0\r\r",
    "I,0",
    "C,0,0,0",
    "L,0,0,",
];

/// A part whose fault is one of 3 to 7.
fn line(random: &mut Random, number: u8, zone: Zone) -> Part {
    if number == 3 {
        let lines = vec![random.pick(&BAD).to_string()];
        let named = 0;
        return Part { zone, lines, named };
    }
    let (lines, named) = *random.pick(lines(number, zone));
    Part::new(zone, lines, named)
}

/// Lines whose fault is one of 4 to 7, and which of them it is named at.
type Lines = &'static [(&'static str, usize)];

fn lines(number: u8, zone: Zone) -> Lines {
    match zone {
        Zone::Types => type_lines(number),
        Zone::Patterns => pattern_lines(number),
        Zone::Isos => iso_lines(number),
    }
}

fn type_lines(number: u8) -> Lines {
    match number {
        4 => &[("C,0,0", 0), ("L,0,0,0", 0)],
        5 => &[
            ("T,4,0,0", 0),
            ("T,3,unit,1", 0),
            ("T,0,1,0", 0),
            ("T,0,0,1", 0),
        ],
        6 => &[("T,1,unit,256", 0), ("T,2,65535,unit", 0)],
        _ => &[("T,1,t127,unit", 0), ("T,2,unit,t127", 0)],
    }
}

fn pattern_lines(number: u8) -> Lines {
    match number {
        4 => &[("T,0,0,0", 0), ("C,0,0", 0), ("L,0,0,0", 0)],
        5 => &[
            ("P,7,0,0", 0),
            ("P,5,0,1", 0),
            ("P,0,1,0", 0),
            ("P,0,0,1", 0),
            ("P,1,32,0", 0),
            ("P,1,0,1", 0),
            ("P,2,u,1", 0),
            ("P,3,u,1", 0),
        ],
        6 => &[
            ("P,2,1024,0", 0),
            ("P,3,1024,0", 0),
            ("P,4,u,65535", 0),
            ("P,4,1024,u", 0),
        ],
        _ => &[
            ("P,2,p127,0", 0),
            ("P,3,p127,0", 0),
            ("P,4,u,p127", 0),
            ("P,2,s40,0", 0),
            ("P,3,s40,0", 0),
        ],
    }
}

/// No line of an iso has fault 5.
fn iso_lines(number: u8) -> Lines {
    match number {
        4 => &[
            ("T,0,0,0", 0),
            ("P,0,0,0", 0),
            ("I,unit,unit L,u,same,u C,u,u", 1),
        ],
        6 => &[
            ("I,unit,256", 0),
            ("I,256,unit", 0),
            ("I,unit,unit C,u,1024", 1),
            ("I,unit,unit C,1024,u", 1),
            ("I,unit,unit C,u,u L,u,own,u", 2),
            ("I,unit,unit C,u,u L,1024,same,u", 2),
            ("I,unit,unit C,u,u L,u,same,1024", 2),
        ],
        _ => &[(NINE_LETS, 10)],
    }
}

const NINE_LETS: &str = "I,unit,unit C,u,u L,u,same,u L,u,same,u L,u,same,u L,u,same,u \
L,u,same,u L,u,same,u L,u,same,u L,u,same,u L,u,same,u";

/// A part whose fault is one of 8 to 14, or 23.
fn iso(random: &mut Random, number: u8) -> Part {
    let (lines, named): (&[&str], usize) = match number {
        8 => (
            &[
                "I,two,two C,x,y",
                "I,two,two C,x,u",
                "I,two,two C,x,y L,y,swap,y",
                "I,two,two C,x,x L,y,swap,x",
                "I,two,two C,x,y L,x,swap,x",
                "I,two,two C,x,x L,x,swap,x L,x,swap,y",
            ],
            1,
        ),
        9 => (
            &["I,unit,two C,u,x L,x,swap,l", "I,two,unit C,x,u L,r,swap,x"],
            1,
        ),
        10 => (&["I,unit,two C,x,x", "I,two,two C,x,y L,y,same,x"], 1),
        11 => (&["I,two,three C,x,lx C,l,r", "I,two,three C,r,r C,x,lx"], 0),
        12 => (&["I,three,two C,lx,x C,r,l", "I,three,two C,r,r C,lx,x"], 0),
        13 => (&["I,two,unit C,l,u", "I,two,unit C,r,u"], 0),
        23 => return recursion(random),
        _ => (&["I,unit,two C,u,l", "I,unit,two C,u,r"], 0),
    };
    let lines = *random.pick(lines);
    Part::new(Zone::Isos, lines, named)
}

/// 23: a from-type that is no list, a variable for a list, two calls.
fn recursion(random: &mut Random) -> Part {
    let (lines, named) = *random.pick(&[
        ("I,unit,unit C,u,u L,u,self,u", 0),
        ("I,two,two C,x,y L,y,self,x", 0),
        ("I,units,units C,x,y L,y,self,x", 1),
        ("I,units,units C,n,n C,kx,kx L,y,self,x L,x,self,y", 2),
        ("I,units,units C,kx,kx L,y,self,x L,x,self,y C,n,n", 1),
    ]);
    Part::new(Zone::Isos, lines, named)
}

/// 3 with one of 4 to 7: a line with that fault, spoiled in its form.
fn spoiled(random: &mut Random, second: u8) -> [Part; 3] {
    let two = alone(random, second);
    let spoil = |line: &str, way: usize| match way {
        0 => line.to_string() + ",0",
        1 => line.to_string() + " ",
        2 => line.replacen(',', ",0", 1),
        3 => line.replacen(',', ",+", 1),
        _ => line[..1].to_lowercase() + &line[1..],
    };
    let way = random.below(5);
    let mut both = two.clone();
    both.lines[both.named] = spoil(&both.lines[both.named], way);
    let fine = if two.zone == Zone::Types {
        "T,0,0,0"
    } else {
        "P,0,0,0"
    };
    let one = Part {
        zone: two.zone,
        lines: vec![spoil(fine, way)],
        named: 0,
    };
    [both, one, two]
}

/// 4 with one of 5 to 7: a T or P line with that fault, put further down.
fn misplaced(random: &mut Random, second: u8) -> [Part; 3] {
    let place = random.below(2);
    let two = line(random, second, ZONES[place]);
    let zone = ZONES[place + 1 + random.below(2 - place)];
    let mut both = two.clone();
    both.zone = zone;
    let fine = ["T,0,0,0", "P,0,0,0"][place];
    [both, Part::new(zone, fine, 0), two]
}

/// Two of 5 to 7.
fn on_one_line(random: &mut Random, first: u8, second: u8) -> [Part; 3] {
    let part = |line: &str| Part::new(Zone::Patterns, line, 0);
    match (first, second) {
        (5, 6) => ["P,2,1024,1", "P,3,u,1", "P,3,1024,0"].map(part),
        (5, _) => ["P,2,p127,1", "P,3,u,1", "P,2,p127,0"].map(part),
        _ => {
            let own = NINE_LETS.rfind("same").expect("the last step");
            let both = NINE_LETS[..own].to_string() + "own,u";
            let one = line(random, 6, Zone::Isos);
            let [both, two] = [&both, NINE_LETS].map(|lines| Part::new(Zone::Isos, lines, 10));
            [both, one, two]
        }
    }
}

/// One of 8 to 10 in a clause of an iso with one of 11 to 14, or 23.
fn clause_and_iso(random: &mut Random, first: u8, second: u8) -> [Part; 3] {
    let (one, two) = (iso(random, first), iso(random, second));
    let lines = match first {
        8 => "C,u,y",
        9 => "C,u,u L,u,same,l",
        _ if second == 23 => "C,p3,p3",
        _ => "C,u,u",
    };
    let mut both = two.clone();
    both.named = both.lines.len();
    both.lines.extend(lines.split(' ').map(str::to_string));
    [both, one, two]
}

/// Two of 8 to 10 in one clause, two of 11 to 14 in one iso, or 23 and one of
/// these.
fn in_one_place(random: &mut Random, first: u8, second: u8) -> [Part; 3] {
    let lines = match (first, second) {
        (23, 11) => "I,units,units C,x,y L,y,self,x C,n,n",
        (23, 12) => "I,units,units C,kx,x L,y,self,x L,x,self,y C,n,n",
        (23, 13) => "I,units,units C,kx,kx L,y,self,x L,x,self,y",
        (23, _) => "I,units,units C,kx,kkx L,y,self,x L,x,self,y C,n,n",
        (8, 9) => "I,unit,two C,u,x L,y,swap,l",
        (8, 10) => "I,unit,two C,l,y",
        (9, 10) => "I,unit,unit C,u,u L,u,same,l",
        (11, 12) => "I,two,two C,x,x C,l,l",
        (11, 13) => "I,two,two C,l,l C,l,r",
        (11, 14) => "I,two,four C,x,llx C,l,lr",
        (12, 13) => "I,four,two C,llx,x C,lr,l",
        (12, 14) => "I,two,two C,l,l C,r,l",
        _ => "I,two,two C,l,l",
    };
    let named = usize::from(first < 11 || first == 23);
    let both = Part::new(Zone::Isos, lines, named);
    [both, iso(random, first), iso(random, second)]
}
