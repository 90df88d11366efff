//! A table of `compare bench`: the call that turns a record, on usual puzzles and on the longest record.

use crate::generate::puzzles::{each_cell, puzzle, square, Arrows};
use crate::host::{TurnCall, MISSING, TURN_CALL};
use crate::processor::{processor_time, Whose};
use crate::progress::Outcome;
use crate::random::Random;
use crate::reading::record::encode;
use crate::reading::turn::TURNINGS;
use std::hint::black_box;
use std::time::Duration;

const USUAL: usize = 60;

pub fn run(seed: u64, sides: &[usize], rounds: usize) -> Outcome {
    println!(
        "turned records, microseconds of processor time per call, the best of {rounds} rounds;"
    );
    println!("{USUAL} usual puzzles of each size in all eight turnings, and the longest record");
    println!("    size     bytes   microseconds");
    let Some(call) = TURN_CALL else {
        println!("{MISSING}");
        return Ok(());
    };
    for &side in sides {
        let mut random = Random::new(seed);
        let usual = |_| encode(&puzzle(&mut random, square(side), Arrows::Usual));
        let records: Vec<Vec<u8>> = (0..USUAL).map(usual).collect();
        print(&format!("{side} x {side}"), call, &records, rounds);
    }
    let longest = encode(&each_cell(&mut Random::new(seed), square(32)));
    print("longest", call, &[longest], rounds);
    Ok(())
}

/// A line of the table.
fn print(name: &str, call: TurnCall, records: &[Vec<u8>], rounds: usize) {
    let mut best = Duration::MAX;
    for _ in 0..rounds {
        best = best.min(time(call, records));
    }
    let calls = records.len() * TURNINGS.len();
    let microseconds = best.as_secs_f64() * 1e6 / calls as f64;
    let bytes: usize = records.iter().map(Vec::len).sum();
    println!("{name:>8}{:>10}{microseconds:>15.2}", bytes / records.len());
}

/// The time of turning each record in each of the eight ways.
fn time(call: TurnCall, records: &[Vec<u8>]) -> Duration {
    let mut output = [0; 2_819];
    let start = processor_time(Whose::Own);
    for record in records {
        for k in TURNINGS {
            black_box(call(record, k, &mut output));
        }
    }
    processor_time(Whose::Own) - start
}
