//! Single calls of the services beyond Check, Turn and Run: each on file S and, where the cost can grow, on a
//! large input.

use crate::call::Call;
use crate::inputs;
use crate::long::long;
use rulefile::Overlap;

pub struct Single {
    pub label: &'static str,
    pub call: fn() -> Call,
}

/// The T line of two bits and the iso of two clauses in file S, and a setting with its number.
const BITS: u32 = 2;
const ISO: u32 = 1;
const SETTING: (&[u8], u32) = (b"PLURU", 1);

pub const SINGLES: [Single; 22] = [
    Single {
        label: "Number of a setting, file S",
        call: || Call::number(inputs::s(), BITS, SETTING.0.to_vec(), SETTING.1),
    },
    Single {
        label: "Number of a setting, type of 127 nodes",
        call: || {
            let (file, ty) = inputs::many_settings(inputs::MOST_BITS);
            let (letters, number) = inputs::last_setting(inputs::MOST_BITS);
            Call::number(file, ty, letters, number)
        },
    },
    Single {
        label: "Setting of a number, file S",
        call: || Call::setting(inputs::s(), BITS, SETTING.0.to_vec(), SETTING.1),
    },
    Single {
        label: "Setting of a number, type of 127 nodes",
        call: || {
            let (file, ty) = inputs::many_settings(inputs::MOST_BITS);
            let (letters, number) = inputs::last_setting(inputs::MOST_BITS);
            Call::setting(file, ty, letters, number)
        },
    },
    Single {
        label: "Overlap, file S",
        call: || {
            let (clash, pairs) = (true, 2);
            Call::overlap(inputs::s(), 5, 7, Overlap { clash, pairs })
        },
    },
    Single {
        label: "Overlap, patterns of 127 nodes, no clash",
        call: || {
            let (file, left, right) = inputs::two_trees(127);
            let (clash, pairs) = (false, 127);
            Call::overlap(file, left, right, Overlap { clash, pairs })
        },
    },
    Single {
        label: "Bounds, file S",
        call: || Call::bounds(inputs::s(), ISO),
    },
    Single {
        label: "Bounds, tower of 32 isos",
        call: || Call::bounds(inputs::tower(), 31),
    },
    Single {
        label: "Bounds, 32 isos in 4,096 lines",
        call: || Call::bounds(long(4_096), 31),
    },
    Single {
        label: "Export, file S",
        call: || Call::export(inputs::s(), ISO, 2),
    },
    Single {
        label: "Export, 4,096 values of 12 bits",
        call: || Call::export(inputs::flips(12, inputs::FLIPS), 1, 9),
    },
    Single {
        label: "Import, 4 pairs, file S",
        call: || Call::import(inputs::s(), inputs::turned_list(4)),
    },
    Single {
        label: "Import, 32 pairs, 1,023 P lines written",
        call: || {
            let file = inputs::sum(32, inputs::PRODUCTS);
            Call::import(file, inputs::turned_list(32))
        },
    },
    Single {
        label: "Import, 128 pairs, seven bits",
        call: || Call::import(inputs::seven_bits(), inputs::turned_list(128)),
    },
    Single {
        label: "Witness of a gap, file S with its last clause in another iso",
        call: || Call::witness(inputs::s_with_gap()),
    },
    Single {
        label: "Witness of a gap, 31 clauses of 127 nodes",
        call: || Call::witness(inputs::late_gap(5)),
    },
    Single {
        label: "Witness of a gap, 127 clauses of 127 nodes",
        call: || Call::witness(inputs::late_gap(7)),
    },
    Single {
        label: "Witness of a gap, 127 clauses, 25 bits in a variable",
        call: || Call::witness(inputs::gap_behind_variable(25, 7)),
    },
    Single {
        label: "Witness of a gap, 1 of 4,294,967,296 settings, 32 clauses",
        call: || Call::witness(inputs::gap()),
    },
    Single {
        label: "Witness of an overlap, file S with its last line twice",
        call: || Call::witness(inputs::s_overlapping()),
    },
    Single {
        label: "Witness of an overlap, 32 clauses of 127 nodes",
        call: || Call::witness(inputs::overlap(32, 127)),
    },
    Single {
        label: "Witness of an overlap, 128 clauses of 127 nodes",
        call: || Call::witness(inputs::overlap(128, 127)),
    },
];

#[cfg(test)]
mod tests {
    use super::*;

    #[test]
    fn single_calls_give_the_expected_answers() {
        for single in &SINGLES {
            (single.call)().agree();
        }
    }
}
