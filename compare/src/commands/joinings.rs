//! A table of `compare bench`: the call that joins two records, on usual puzzles and on the longest that can
//! be joined.

use crate::generate::puzzles::{each_cell, puzzle, Arrows};
use crate::host::{JoinCall, JOIN_CALL, MISSING};
use crate::processor::{processor_time, Whose};
use crate::progress::Outcome;
use crate::random::Random;
use crate::reading::grid::Size;
use crate::reading::record::encode;
use std::hint::black_box;
use std::time::Duration;

const USUAL: usize = 60;

/// So often each two are joined in a round: the clock has microseconds.
const PASSES: usize = 10;

/// Two records, left and right.
type Pair = [Vec<u8>; 2];

pub fn run(seed: u64, sides: &[usize], rounds: usize) -> Outcome {
    println!(
        "joined records, microseconds of processor time per call, the best of {rounds} rounds;"
    );
    println!("two halves of {USUAL} joined leaves of each size, and the longest record");
    println!("    size     bytes   microseconds");
    let Some(call) = JOIN_CALL else {
        println!("{MISSING}");
        return Ok(());
    };
    for &side in sides {
        let mut random = Random::new(seed);
        let mut usual = |size| encode(&puzzle(&mut random, size, Arrows::Usual));
        let pairs: Vec<Pair> = (0..USUAL).map(|_| halves(side).map(&mut usual)).collect();
        print(&format!("{side} x {side}"), call, &pairs, rounds)?;
    }
    let mut random = Random::new(seed);
    let longest = halves(32).map(|size| encode(&each_cell(&mut random, size)));
    print("longest", call, &[longest], rounds)
}

/// The sizes of two halves that make up a square with the column between them.
fn halves(side: usize) -> [Size; 2] {
    let left = (side - 1) / 2;
    [left, side - 1 - left].map(|width| Size {
        height: side,
        width,
    })
}

/// A line of the table.
fn print(name: &str, call: JoinCall, pairs: &[Pair], rounds: usize) -> Outcome {
    let mut output = [0; 2_819];
    let mut bytes = 0;
    for [left, right] in pairs {
        let length = usize::try_from(call(left, right, &mut output));
        bytes += length.map_err(|_| "two halves of a square are refused".to_string())?;
    }
    let mut best = Duration::MAX;
    for _ in 0..rounds {
        best = best.min(time(call, pairs, &mut output));
    }
    let microseconds = best.as_secs_f64() * 1e6 / (PASSES * pairs.len()) as f64;
    println!("{name:>8}{:>10}{microseconds:>15.2}", bytes / pairs.len());
    Ok(())
}

/// The time of joining each two.
fn time(call: JoinCall, pairs: &[Pair], output: &mut [u8]) -> Duration {
    let start = processor_time(Whose::Own);
    for _ in 0..PASSES {
        for [left, right] in pairs {
            black_box(call(left, right, output));
        }
    }
    processor_time(Whose::Own) - start
}
