//! Document 01's strip S, 1 by 3 with one arrow, and its faults.

use crate::reading::record::{encode, plain, Puzzle};

pub fn strip() -> Puzzle {
    plain(1, 3, vec![vec![0, 1, 2]])
}

/// The strip's record, and a record for each of refusals 1 to 5 in turn.
pub fn records() -> Vec<Vec<u8>> {
    let good = encode(&strip());
    let ending = |last: u8| [&good[..6], &[last]].concat();
    vec![
        good.clone(),
        good[..6].to_vec(),
        vec![0x00, 0x40, 0x01, 0x80],
        ending(0x80),
        ending(0xC0),
        ending(0xE1),
    ]
}

/// Decisions that are refused for each of the five bits, with either value.
pub fn five_bits() -> Vec<[u8; 2]> {
    let with_bit = |bit: u8| [[1 << bit, 0x00], [0x80 | 1 << bit, 0x00]];
    (2..7).flat_map(with_bit).collect()
}
