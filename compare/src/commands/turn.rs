//! `compare turn`: the linked call that turns a record, beside the reading: all eight turnings and numbers
//! above them, on good and damaged records, with outputs of every length about the record's and guard
//! bytes about them; there and back; and each full board of small leaves beside its turned images.

use crate::generate::puzzles::{
    any_puzzle, each_cell, puzzle, rows_to_and_fro, square, ARROW_STYLES,
};
use crate::generate::records::damaged;
use crate::generate::small::{decisions, finished_leaves, small_puzzle};
use crate::guarded::{compare, Due, Room};
use crate::host::{FinishedCall, TurnCall, FINISHED_CALL, MISSING, TURN_CALL};
use crate::progress::{facts, hexadecimal, repeatedly, Outcome};
use crate::random::Random;
use crate::reading::grid::Size;
use crate::reading::host::literal_bytes;
use crate::reading::record::{encode, plain, Puzzle};
use crate::reading::turn::{inverse, turned_decisions, turned_record, TURNINGS};
use crate::reading::Refusal;

/// Heights and widths whose leaves are turned with outputs of every length about the record's.
const SIZES: [(usize, usize); 12] = [
    (1, 1),
    (1, 2),
    (2, 1),
    (2, 3),
    (3, 2),
    (1, 32),
    (32, 1),
    (2, 32),
    (32, 2),
    (31, 32),
    (32, 31),
    (32, 32),
];

/// Numbers that are no turning, some of which are one when bits of them are lost.
const NO_TURNINGS: [u32; 9] = [8, 9, 15, 255, 256, 263, 1 << 16, 1 << 31, u32::MAX];

/// Outputs are up to so many bytes shorter or longer than the record.
const ABOUT: usize = 8;

/// Records up to this length are turned with outputs of every shorter length.
const SHORT: usize = 64;

/// So many puzzles are turned for one whose full boards are all gone through.
const FOR_A_SMALL_ONE: usize = 20;

/// So many more have a finished board for certain.
const FINISHED: usize = 10;

/// What calls gave.
#[derive(Default)]
struct Given {
    images: usize,
    /// By refusal number.
    refused: [usize; 16],
}

impl Given {
    fn add(&mut self, image: &Result<Vec<u8>, Refusal>) {
        match image {
            Ok(_) => self.images += 1,
            Err(refusal) => self.refused[usize::from(refusal.number())] += 1,
        }
    }

    /// How often 1 to 5, 14 and 15.
    fn refused(&self) -> [usize; 7] {
        [1, 2, 3, 4, 5, 14, 15].map(|number| self.refused[number])
    }
}

#[derive(Default)]
struct Counts {
    given: Given,
    /// Leaves whose eight images all differ.
    asymmetric: usize,
    boards: usize,
    finished: usize,
}

pub fn run(seed: u64, count: usize) -> Outcome {
    let call = TURN_CALL.ok_or(MISSING)?;
    let finished = FINISHED_CALL.ok_or(MISSING)?;
    let mut counts = Counts::default();
    for leaf in leaves_of_all_sizes(&mut Random::new(seed)) {
        every_length(call, &encode(&leaf), &mut counts.given)?;
        there_and_back(call, &leaf, &mut counts)?;
    }
    repeatedly("turn", seed, count, |random| {
        let puzzle = any_puzzle(random);
        there_and_back(call, &puzzle, &mut counts)?;
        let good = encode(&puzzle);
        let damaged = damaged(random, &puzzle).record;
        for record in [&good, &damaged] {
            let none = random.pick(&NO_TURNINGS);
            for k in TURNINGS.chain([none]) {
                counts.given.add(&any_output(random, call, record, k)?);
            }
        }
        Ok(())
    })?;
    for leaf in finished_leaves(&mut Random::new(seed), FINISHED) {
        full_boards(call, finished, &leaf.puzzle, &mut counts)?;
    }
    let small = count.div_ceil(FOR_A_SMALL_ONE);
    repeatedly("turn, full boards", seed, small, |random| {
        full_boards(call, finished, &small_puzzle(random), &mut counts)
    })?;
    let refused = counts.given.refused();
    if counts.asymmetric == 0 || counts.finished < FINISHED || refused.contains(&0) {
        return Err("not every case was met: more puzzles are needed".to_string());
    }
    println!(
        "turn: {count} puzzles, {} images, {} leaves with eight different ones; \
         refused 1 to 5, 14, 15: {refused:?}",
        counts.given.images, counts.asymmetric
    );
    println!(
        "turn: {} small puzzles with {} full boards in all eight; with an arrow {} finished",
        small + FINISHED,
        counts.boards,
        counts.finished
    );
    Ok(())
}

/// Leaves of each size with arrows of each style, and the largest ones: one arrow over a whole grid,
/// and the longest record, each of whose cells is an arrow.
fn leaves_of_all_sizes(random: &mut Random) -> Vec<Puzzle> {
    let mut leaves = Vec::new();
    for (height, width) in SIZES {
        for style in ARROW_STYLES {
            leaves.push(puzzle(random, Size { height, width }, style));
        }
    }
    leaves.push(plain(32, 32, vec![rows_to_and_fro(square(32))]));
    leaves.push(each_cell(random, square(32)));
    leaves
}

/// Each turning and each number that is none, with outputs of every length about the record's.
fn every_length(call: TurnCall, record: &[u8], given: &mut Given) -> Outcome {
    let shortest = match record.len() {
        0..=SHORT => 0,
        long => long - ABOUT,
    };
    for k in TURNINGS.chain(NO_TURNINGS) {
        for length in (shortest..=record.len() + ABOUT).chain([0]) {
            given.add(&check(call, record, k, length, ABOUT)?);
        }
    }
    Ok(())
}

/// A leaf's image in each turning is accepted and goes back to the same bytes.
fn there_and_back(call: TurnCall, leaf: &Puzzle, counts: &mut Counts) -> Outcome {
    let record = encode(leaf);
    let mut images = Vec::new();
    for k in TURNINGS {
        let there = image(call, &record, k)?;
        let back = inverse(k);
        if image(call, &there, back)? != record {
            return Err(format!(
                "record {}: turning {k} and then {back} give other bytes",
                hexadecimal(&record)
            ));
        }
        counts.given.images += 2;
        images.push(there);
    }
    images.sort();
    images.dedup();
    counts.asymmetric += usize::from(images.len() == TURNINGS.len());
    Ok(())
}

/// Every full board of a leaf is finished exactly when its turned image is.
fn full_boards(
    call: TurnCall,
    finished: FinishedCall,
    leaf: &Puzzle,
    counts: &mut Counts,
) -> Outcome {
    let record = encode(leaf);
    let mut images = Vec::new();
    for k in TURNINGS {
        images.push((k, image(call, &record, k)?));
    }
    let cells = leaf.size.cells();
    for number in 0..1 << cells {
        let full = decisions(number, cells, 2);
        let verdict = finished(&record, &literal_bytes(&full));
        for (k, image) in &images {
            let turned = turned_decisions(*k, leaf.size, &full);
            let other = finished(image, &literal_bytes(&turned));
            if verdict < 0 || other != verdict {
                return Err(format!(
                    "{}\nfinished returns {verdict}, and {other} of the image in turning {k}, record {}",
                    facts(leaf, &full),
                    hexadecimal(image)
                ));
            }
        }
        counts.boards += 1;
        counts.finished += usize::from(verdict == 1 && !leaf.arrows.is_empty());
    }
    Ok(())
}

/// The image of a good record, into an output of just its length.
fn image(call: TurnCall, record: &[u8], k: u32) -> Result<Vec<u8>, String> {
    let image = check(call, record, k, record.len(), 0)?;
    image.map_err(|refusal| {
        let record = hexadecimal(record);
        format!("record {record}, turning {k}: refused by {refusal:?}")
    })
}

/// A call with an output of some length, mostly long enough.
fn any_output(
    random: &mut Random,
    call: TurnCall,
    record: &[u8],
    k: u32,
) -> Result<Result<Vec<u8>, Refusal>, String> {
    let length = record.len();
    let length = match random.below(20) {
        0 => random.below(length + 1),
        1 => length.saturating_sub(random.between(1, ABOUT)),
        2..=10 => length + random.below(ABOUT),
        _ => length,
    };
    let guard = random.pick(&[0, 0, 1, 64]);
    check(call, record, k, length, guard)
}

/// What the reading says, if the call says the same and leaves every byte as it should. The output has so
/// many guard bytes before and behind it.
fn check(
    call: TurnCall,
    record: &[u8],
    k: u32,
    length: usize,
    guard: usize,
) -> Result<Result<Vec<u8>, Refusal>, String> {
    let expected = turned_record(record, k, length);
    let room = Room {
        length,
        guard,
        salt: length + 59 * (k % 256) as usize,
    };
    let due = Due::written(&expected);
    let done = compare([record], room, due, |[record], output| {
        call(record, k, output)
    });
    match done {
        Ok(()) => Ok(expected),
        Err(what) => Err(format!(
            "record {}, turning {k}, output of {length} bytes\nthe call {what}",
            hexadecimal(record)
        )),
    }
}

/// The turned images of mutated records, for `compare fuzz`.
pub struct FuzzedTurnings {
    call: TurnCall,
    random: Random,
    given: Given,
}

impl FuzzedTurnings {
    pub fn new(seed: u64) -> Result<FuzzedTurnings, String> {
        Ok(FuzzedTurnings {
            call: TURN_CALL.ok_or(MISSING)?,
            random: Random::new(seed),
            given: Given::default(),
        })
    }

    /// A call with some turning, or a number that is none.
    pub fn check(&mut self, record: &[u8]) -> Outcome {
        let random = &mut self.random;
        let k = match random.below(20) {
            0 => random.pick(&NO_TURNINGS),
            1 => random.next() as u32,
            _ => random.below(8) as u32,
        };
        let image = any_output(random, self.call, record, k)?;
        self.given.add(&image);
        Ok(())
    }

    pub fn line(&self) -> String {
        format!(
            "turn: {} images; refused 1 to 5, 14, 15: {:?}",
            self.given.images,
            self.given.refused()
        )
    }
}
