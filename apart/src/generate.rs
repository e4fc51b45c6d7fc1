//! Files and queries made from a seed: accepted files of many shapes, near
//! misses of each refusal, damaged bytes, and queries.

pub mod bounded;
pub mod breach;
pub mod ceiling;
pub mod counted;
pub mod damage;
pub mod draft;
pub mod ending;
pub mod fault;
pub mod ground;
pub mod idle;
pub mod large;
pub mod life;
pub mod listed;
pub mod longer;
pub mod miss;
pub mod pair;
pub mod plan;
pub mod played;
pub mod query;
pub mod random;
pub mod scribe;
pub mod shape;
pub mod shown;
pub mod thread;
pub mod tower;
pub mod zoned;

use random::Random;

/// An accepted file. A plan that passes a ceiling is thrown away; any other
/// refusal of a planned file stops the program.
pub fn accepted(random: &mut Random) -> Vec<u8> {
    loop {
        let zoned = random.lists && random.chance(15);
        let file = match random.below(24) {
            _ if zoned => {
                let ending = *random.pick(&zoned::ENDINGS);
                zoned::file(random, ending)
            }
            0 | 1 => ceiling::at_ceiling(random, false),
            2 | 3 => tower::tower(random),
            4 => {
                let place = random.below(counted::COUNTS.len());
                counted::file(random, place)
            }
            5 => thread::again(random),
            6 if random.chance(20) => thread::crowded(random),
            _ => {
                let isos = plan::isos(random);
                scribe::file(random, &isos)
            }
        };
        match random.check(&file) {
            Ok(rules) if random.chance(15) => return crate::turn_rules(&rules),
            Ok(_) if random.chance(25) => return ending::resaved(random, &file),
            Ok(_) => return file,
            Err(refusal) => assert!(
                matches!(refusal.number, 2 | 7),
                "a planned file is refused {},{}:\n{}",
                refusal.number,
                refusal.line,
                String::from_utf8_lossy(&file)
            ),
        }
    }
}

/// A file of any kind, accepted or not.
pub fn any_file(random: &mut Random) -> Vec<u8> {
    match random.below(100) {
        0..=44 => accepted(random),
        45..=74 => {
            let number = match 2 + random.below(14) as u8 {
                _ if random.lists && random.chance(8) => 23,
                15 => 21,
                number => number,
            };
            miss::aimed(random, number)
        }
        75..=79 => miss::two_faults(random),
        80..=84 => {
            let pair = *random.pick(&pair::all());
            let [both, ..] = pair::make(random, pair).files;
            both
        }
        85..=96 => damage::damaged(random),
        _ => damage::noise(random),
    }
}
