//! `compare records`: decode against encode, known damages against their refusals, and refusal 4
//! against the original.

use crate::generate::puzzles::{add_short_arrows, any_puzzle};
use crate::generate::records::{cut, damaged, zeros, Damaged};
use crate::original::{Original, AT_HAND};
use crate::progress::{hexadecimal, repeatedly, Outcome};
use crate::random::Random;
use crate::reading::record::{decode, encode, Puzzle};
use crate::reading::Refusal;

/// Records below this length are cut at every byte and have every bit flipped.
const SMALL: usize = 16;

#[derive(Default)]
struct Counts {
    accepted: usize,
    refused: [usize; 6],
    arrows_beside_original: usize,
}

pub fn run(seed: u64, count: usize) -> Outcome {
    let mut counts = Counts::default();
    repeatedly("records", seed, count, |random| {
        let puzzle = any_puzzle(random);
        good(&puzzle, &mut counts)?;
        check(&damaged(random, &puzzle), &mut counts)?;
        let record = encode(&puzzle);
        if record.len() < SMALL {
            every_small_damage(&record, &mut counts)?;
        }
        overlapping_arrows(random, puzzle, &mut counts)
    })?;
    for length in [0, 1, 2, 3, 4, 2_819, 2_820, 65_535, 65_536, 1_000_000] {
        check(&zeros(length), &mut counts)?;
    }
    println!(
        "records: {count} puzzles; {} records accepted, refused 1 to 5: {:?}; \
         {} arrow lists compared with the original",
        counts.accepted,
        &counts.refused[1..],
        counts.arrows_beside_original
    );
    Ok(())
}

fn good(puzzle: &Puzzle, counts: &mut Counts) -> Outcome {
    let record = encode(puzzle);
    let decoded = decode(&record);
    if decoded.as_ref() != Ok(puzzle) {
        return Err(format!(
            "{} should be {puzzle:?} and is {decoded:?}",
            hexadecimal(&record)
        ));
    }
    counts.accepted += 1;
    Ok(())
}

fn check(damaged: &Damaged, counts: &mut Counts) -> Outcome {
    let record = &damaged.record;
    let decoded = decode(record);
    if let Some(refusal) = damaged.refusal {
        if decoded != Err(refusal) {
            return Err(format!(
                "{} should be refused by {refusal:?} and gives {decoded:?}",
                hexadecimal(record)
            ));
        }
    }
    match decoded {
        Ok(puzzle) if encode(&puzzle) != *record => {
            return Err(format!("{} is written otherwise", hexadecimal(record)));
        }
        Ok(_) => counts.accepted += 1,
        Err(refusal) => counts.refused[refusal.number() as usize] += 1,
    }
    Ok(())
}

fn every_small_damage(record: &[u8], counts: &mut Counts) -> Outcome {
    for length in 0..record.len() {
        check(&cut(record, length), counts)?;
    }
    for bit in 0..8 * record.len() {
        let mut flipped = record.to_vec();
        flipped[bit / 8] ^= 0x80 >> (bit % 8);
        let flipped = Damaged {
            record: flipped,
            refusal: None,
        };
        check(&flipped, counts)?;
    }
    Ok(())
}

/// With arrows that may overlap: refusal 4 exactly where the original gives None.
fn overlapping_arrows(random: &mut Random, mut puzzle: Puzzle, counts: &mut Counts) -> Outcome {
    if !AT_HAND {
        return Ok(());
    }
    add_short_arrows(random, &mut puzzle);
    let refused = decode(&encode(&puzzle)) == Err(Refusal::UsedTwice);
    let none = Original::open(&puzzle).is_none();
    if refused != none {
        return Err(format!(
            "{}: refusal 4 is {refused}, the original's None is {none}",
            hexadecimal(&encode(&puzzle))
        ));
    }
    counts.arrows_beside_original += 1;
    Ok(())
}
