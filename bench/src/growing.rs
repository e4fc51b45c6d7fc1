//! How the proved library's instructions grow while one measure of the input doubles, and what its definitions need.

use crate::call::Call;
use crate::grown::{self, of_clauses, of_letters, of_nodes, of_steps};
use crate::inputs;
use crate::long::long;
use crate::service::Asked;
use apart::lines::LISTS;

/// What the cost is of: a call; or one of several like parts of it, as the difference between two numbers of them.
#[derive(Clone, Copy)]
pub enum Of {
    Call,
    Part(&'static str, [usize; 2]),
}

/// A service whose cost is followed.
pub struct Growing {
    pub service: &'static str,
    pub of: Of,
    /// The power of the size that the definition needs, and why.
    pub needs: u32,
    pub why: &'static str,
    /// The call for a size and a number of parts.
    pub call: fn(usize, usize) -> Call,
}

impl Growing {
    /// Holds both implementations to the expected answers.
    pub fn held(&self, size: usize) {
        match self.of {
            Of::Call => (self.call)(size, 0).agree(),
            Of::Part(_, parts) => parts
                .iter()
                .for_each(|parts| (self.call)(size, *parts).agree()),
        }
    }
}

/// What doubles, and the services whose cost may grow with it.
pub struct Measure {
    pub name: &'static str,
    pub sizes: &'static [usize],
    pub rows: &'static [Growing],
}

/// Those that are followed: by zones where lists are taken.
pub const MEASURES: &[Measure] = if LISTS { &ALL } else { ALL.split_at(5).0 };

const ALL: [Measure; 6] = [
    Measure {
        name: "lines",
        sizes: &[512, 1_024, 2_048, 4_096],
        rows: BY_LINES,
    },
    Measure {
        name: "clauses",
        sizes: &[8, 16, 32, 64, 128],
        rows: BY_CLAUSES,
    },
    Measure {
        name: "nodes",
        sizes: &[15, 31, 63, 127],
        rows: BY_NODES,
    },
    Measure {
        name: "let steps",
        sizes: &[1, 2, 4, 8],
        rows: BY_STEPS,
    },
    Measure {
        name: "letters",
        sizes: &[15, 31, 63, 127],
        rows: BY_LETTERS,
    },
    Measure {
        name: "zones",
        sizes: &[4, 8, 16, 32],
        rows: BY_ZONES,
    },
];

/// The call of a service's row, by its name and that of the measure.
pub fn named(measure: &str, service: &str) -> Option<&'static Growing> {
    let rows = MEASURES.iter().find(|one| one.name == measure)?.rows;
    rows.iter().find(|row| row.service == service)
}

const APPLICATION: Of = Of::Part("an application", [16, 64]);
const QUERY: Of = Of::Part("a query", [16, 64]);
const VISIT: Of = Of::Part("a visit", [16, 64]);

/// A row whose cost is a call's.
const fn call(
    service: &'static str,
    (needs, why): (u32, &'static str),
    call: fn(usize, usize) -> Call,
) -> Growing {
    part(service, Of::Call, (needs, why), call)
}

const fn part(
    service: &'static str,
    of: Of,
    (needs, why): (u32, &'static str),
    call: fn(usize, usize) -> Call,
) -> Growing {
    Growing {
        service,
        of,
        needs,
        why,
        call,
    }
}

type Need = (u32, &'static str);

const LINE: Need = (1, "each line");
const CLAUSE: Need = (1, "each clause");
const TWO_CLAUSES: Need = (2, "each two clauses of a side");
const TWO_PAIRS: Need = (2, "each line written, among those before it");
const NODE: Need = (1, "each node");
const NODE_AGAIN: Need = (2, "each node, for each letter that is left or right");
const STEP: Need = (1, "each let step");
const LETTER: Need = (1, "each letter");
const ZONE: Need = (
    2,
    "each zone behind each zone, as an argument and as a result",
);

/// All services, on the long file; each checks it.
const BY_LINES: &[Growing] = &[
    call("Check", LINE, |lines, _| Call::check(long(lines))),
    call("Turn", LINE, |lines, _| Call::turn(long(lines))),
    call("Run", LINE, |lines, _| {
        grown::single_run(grown::last_of_long(lines))
    }),
    call("Sheet", LINE, |lines, _| {
        grown::sheet(grown::last_of_long(lines), 1)
    }),
    call("Number", LINE, |lines, _| {
        grown::number(grown::last_of_long(lines))
    }),
    call("Setting", LINE, |lines, _| {
        grown::setting(grown::last_of_long(lines))
    }),
    call("Overlap", LINE, |lines, _| {
        grown::overlap(long(lines), 1, 2)
    }),
    call("Bounds", LINE, |lines, _| {
        grown::bounds(grown::last_of_long(lines))
    }),
    call("Export", LINE, |lines, _| {
        grown::export(grown::last_of_long(lines))
    }),
    call("Import", LINE, |lines, _| {
        Call::import(long(lines), inputs::turned_list(16))
    }),
    call("Witness of an overlap", LINE, |lines, _| {
        Call::witness(grown::with_side_twice(long(lines)))
    }),
    call("Play", LINE, |lines, _| {
        grown::play(grown::last_of_long(lines), 1)
    }),
];

/// Zones of a board: a run calls itself once for each.
const BY_ZONES: &[Growing] = &[
    call("Run", ZONE, |zones, _| inputs::zoned_run(zones)),
    call("Sheet", ZONE, |zones, _| {
        let asked = Asked {
            iso: 0,
            value: inputs::zones(zones, false),
            budget: zones as u32 + 1,
        };
        Call::sheet(inputs::zoned(), vec![asked])
    }),
];

/// Clauses of one iso; for Import pairs, which become clauses.
const BY_CLAUSES: &[Growing] = &[
    call("Check", TWO_CLAUSES, |clauses, _| {
        Call::check(of_clauses(clauses, false).into_file())
    }),
    call(
        "Check, clauses that part late",
        TWO_CLAUSES,
        |clauses, _| Call::check(grown::late_clauses(clauses)),
    ),
    call("Turn", TWO_CLAUSES, |clauses, _| {
        Call::turn(of_clauses(clauses, false).into_file())
    }),
    part("Run", APPLICATION, CLAUSE, |clauses, uses| {
        grown::run(of_clauses(clauses, true), uses)
    }),
    part("Sheet", QUERY, CLAUSE, |clauses, queries| {
        grown::sheet(of_clauses(clauses, false), queries)
    }),
    part("Play", VISIT, CLAUSE, |clauses, visits| {
        grown::play(of_clauses(clauses, false), visits)
    }),
    call("Bounds", TWO_CLAUSES, |clauses, _| {
        grown::bounds(of_clauses(clauses, false))
    }),
    call("Export", TWO_CLAUSES, |clauses, _| {
        grown::export(of_clauses(clauses, false))
    }),
    call("Import", TWO_PAIRS, |pairs, _| {
        grown::import(pairs.ilog2() as usize)
    }),
    call("Witness of a gap", TWO_CLAUSES, |clauses, _| {
        Call::witness(inputs::late_gap(clauses.ilog2() as usize))
    }),
    call("Witness of an overlap", TWO_CLAUSES, |clauses, _| {
        Call::witness(inputs::overlap(clauses, 127))
    }),
];

/// Nodes of patterns or types.
const BY_NODES: &[Growing] = &[
    call("Check, units and pairs", NODE, |nodes, _| {
        Call::check(inputs::nodes(nodes))
    }),
    call("Check, bits behind units", NODE, |nodes, _| {
        Call::check(grown::late_nodes(nodes))
    }),
    call("Check, units around a variable", NODE, |nodes, _| {
        Call::check(grown::around_variable(nodes))
    }),
    part("Run", APPLICATION, NODE, |nodes, uses| {
        grown::run(of_nodes(nodes, true), uses)
    }),
    part("Sheet", QUERY, NODE, |nodes, queries| {
        grown::sheet(of_nodes(nodes, false), queries)
    }),
    part("Play", VISIT, NODE, |nodes, visits| {
        grown::play(of_nodes(nodes, false), visits)
    }),
    call("Number", NODE, |nodes, _| {
        grown::number(grown::in_bits(nodes))
    }),
    call("Setting", NODE, |nodes, _| {
        grown::setting(grown::in_bits(nodes))
    }),
    call("Overlap", NODE, |nodes, _| {
        let (file, left, right) = inputs::two_trees(nodes);
        grown::overlap(file, left, right)
    }),
    call("Import", TWO_PAIRS, |nodes, _| {
        let file = inputs::sum(4, (nodes - 7) / 2);
        Call::import(file, inputs::turned_list(4))
    }),
    call("Witness of a gap", NODE_AGAIN, |nodes, _| {
        Call::witness(inputs::gap_behind_variable((nodes - 11) / 4, 3))
    }),
    call("Witness of an overlap", NODE, |nodes, _| {
        Call::witness(inputs::overlap(8, nodes))
    }),
];

/// Let steps of each clause.
const BY_STEPS: &[Growing] = &[
    call("Check", STEP, |steps, _| {
        Call::check(grown::stepped(steps).into_file())
    }),
    call("Turn", STEP, |steps, _| {
        Call::turn(grown::stepped(steps).into_file())
    }),
    part("Run", APPLICATION, STEP, |steps, uses| {
        grown::run(of_steps(steps, true), uses)
    }),
    part("Sheet", QUERY, STEP, |steps, queries| {
        grown::sheet(of_steps(steps, false), queries)
    }),
    part("Play", VISIT, STEP, |steps, visits| {
        grown::play(of_steps(steps, false), visits)
    }),
    call("Bounds", STEP, |steps, _| {
        grown::bounds(grown::stepped(steps))
    }),
    call("Export", STEP, |steps, _| {
        Call::export(inputs::flips(8, steps), 1, steps as u32 + 1)
    }),
];

/// Letters of a value.
const BY_LETTERS: &[Growing] = &[
    part("Run", APPLICATION, LETTER, |letters, uses| {
        grown::run(of_letters(letters, true), uses)
    }),
    part("Sheet", QUERY, LETTER, |letters, queries| {
        grown::sheet(of_letters(letters, false), queries)
    }),
    part("Play", VISIT, LETTER, |letters, visits| {
        grown::play(of_letters(letters, false), visits)
    }),
    call("Number", LETTER, |letters, _| {
        grown::number(of_letters(letters, false))
    }),
    call("Setting", LETTER, |letters, _| {
        grown::setting(of_letters(letters, false))
    }),
    call("Export", LETTER, |letters, _| {
        grown::export(of_letters(letters, false))
    }),
    call("Import", TWO_PAIRS, |letters, _| {
        Call::import(of_letters(letters, false).into_file(), b"0,0\n".to_vec())
    }),
];

#[cfg(test)]
mod tests {
    use super::*;

    fn rows() -> impl Iterator<Item = (&'static Measure, &'static Growing)> {
        let of = |measure: &'static Measure| measure.rows.iter().map(move |row| (measure, row));
        MEASURES.iter().flat_map(of)
    }

    #[test]
    fn calls_give_the_expected_answers() {
        for (measure, row) in rows() {
            let [first, .., last] = measure.sizes else {
                panic!("sizes of {}", measure.name);
            };
            row.held(*first);
            row.held(*last);
        }
    }

    #[test]
    fn sizes_double_three_times_or_more() {
        for measure in MEASURES {
            assert!(measure.sizes.len() >= 4, "{}", measure.name);
            for two in measure.sizes.windows(2) {
                // trees and values have one node or letter less
                let one_less = two[1] == 2 * two[0] + 1;
                assert!(two[1] == 2 * two[0] || one_less, "{}", measure.name);
            }
        }
    }

    #[test]
    fn every_row_is_found_by_its_name() {
        for (measure, row) in rows() {
            let found = named(measure.name, row.service).expect("a row");
            assert!(std::ptr::eq(found, row), "{}", row.service);
        }
        assert!(named("lines", "none").is_none());
    }

    /// The sizes are those of the files.
    #[test]
    fn files_have_the_lines_clauses_and_steps_that_the_sizes_say() {
        let count = |call: &Call, letter: u8| {
            let rows = call.file().split(|byte| *byte == b'\n');
            rows.filter(|row| row.first() == Some(&letter)).count()
        };
        for size in [512, 4_096] {
            for row in BY_LINES {
                assert_eq!((row.call)(size, 0).lines(), size, "{}", row.service);
            }
        }
        for size in [8, 128] {
            let call = (BY_CLAUSES[0].call)(size, 0);
            assert_eq!(count(&call, b'C'), size);
            let call = (BY_CLAUSES[1].call)(size, 0);
            assert_eq!(count(&call, b'C'), size);
        }
        for size in [1, 8] {
            let call = (BY_STEPS[0].call)(size, 0);
            assert_eq!(count(&call, b'L'), 31 * 8 * size);
        }
    }
}
