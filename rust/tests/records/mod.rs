//! The records that several tests ask about.

// Each test takes what it needs of it.
#![allow(dead_code)]

use evolmino::{Problem, ProblemCell, Record, Refusal};

/// Strip S: one row of three cells, an arrow along it.
pub const S: [u8; 7] = [0x00, 0x80, 0x08, 0x00, 0x00, 0x05, 0xE0];

/// Pair T: one row of two cells, no arrow.
pub const T: [u8; 4] = [0x00, 0x40, 0x00, 0x00];

/// What is no record, for each of the refusals 1 to 5; two for 1, nothing at all and S without its last byte.
pub fn refused_records() -> [(Vec<u8>, Refusal); 6] {
    let ending = |last: u8| [&S[..6], &[last]].concat();
    [
        (vec![], Refusal::RecordEnds),
        (S[..6].to_vec(), Refusal::RecordEnds),
        (vec![0x00, 0x40, 0x01, 0x80], Refusal::CellCode),
        (ending(0x80), Refusal::OffGrid),
        (ending(0xC0), Refusal::UsedTwice),
        (ending(0xE1), Refusal::Filler),
    ]
}

/// Rows of plain cells with an arrow along the first cells of the upper one.
pub fn rows(height: usize, width: usize, arrow: usize) -> Record {
    Record::new(&Problem {
        cells: vec![vec![ProblemCell::Empty; width]; height],
        arrows: vec![(0..arrow).map(|x| (0, x)).collect()],
    })
    .unwrap()
}
