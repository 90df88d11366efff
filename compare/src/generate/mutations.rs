//! Input changed byte by byte, with no regard to what the bytes mean.

use super::hosts::HostInput;
use crate::random::Random;

/// The same input with its record, its decisions, both or neither changed, and an output of a
/// length about the limit of the grid that the record then names.
pub fn mutated(random: &mut Random, input: &HostInput) -> HostInput {
    let mut record = input.record.clone();
    let mut decisions = input.decisions.clone();
    // a changed record is mostly refused, so it is rarer
    if random.percent(25) {
        change(random, &mut record);
    }
    if random.percent(40) {
        change(random, &mut decisions);
    }
    let output = output(random, limit(&record));
    HostInput {
        record,
        decisions,
        output,
    }
}

/// Changes bytes in one of several ways.
pub fn change(random: &mut Random, bytes: &mut Vec<u8>) {
    match random.below(8) {
        0 => bytes.truncate(random.below(bytes.len() + 1)),
        1 => flip(random, bytes, 1),
        2 => flip(random, bytes, 4),
        3 => flip(random, bytes, 32),
        4 => {
            let place = random.below(bytes.len() + 1);
            bytes.insert(place, random.byte());
        }
        5 if !bytes.is_empty() => {
            bytes.remove(random.below(bytes.len()));
        }
        6 => {
            // a part is repeated
            let start = random.below(bytes.len() + 1);
            let end = random.between(start, bytes.len());
            bytes.extend_from_within(start..end);
        }
        _ => {
            // the rest is noise
            bytes.truncate(random.below(bytes.len() + 1));
            for _ in 0..random.below(40) {
                bytes.push(random.byte());
            }
        }
    }
}

/// Flips up to so many bits.
fn flip(random: &mut Random, bytes: &mut [u8], most: usize) {
    if !bytes.is_empty() {
        for _ in 0..random.between(1, most) {
            bytes[random.below(bytes.len())] ^= 1 << random.below(8);
        }
    }
}

/// The shortest output that is long enough for the grid of the record's first ten bits.
fn limit(record: &[u8]) -> usize {
    let byte = |place: usize| usize::from(record.get(place).copied().unwrap_or(0));
    let bits = byte(0) * 256 + byte(1);
    let (height, width) = (bits / 2_048 + 1, bits / 64 % 32 + 1);
    2 * (3 * height * width + 1)
}

fn output(random: &mut Random, limit: usize) -> usize {
    match random.below(10) {
        0 => random.below(5),
        1 => random.below(limit),
        2 | 3 => random.between(limit - 4, limit + 4),
        4 => random.between(limit, 2 * limit),
        _ => limit,
    }
}
