//! A table of `compare bench`: the call that writes a clause sheet, on usual puzzles and on one
//! arrow through all cells.

use crate::generate::puzzles::{puzzle, rows_to_and_fro, square, Arrows};
use crate::host::{ClausesCall, CLAUSES_CALL, MISSING};
use crate::processor::{processor_time, Whose};
use crate::progress::Outcome;
use crate::random::Random;
use crate::reading::clauses::{clauses, sheet};
use crate::reading::record::{encode, plain, Puzzle};
use std::hint::black_box;
use std::time::Duration;

const USUAL: usize = 60;

/// So often each sheet is written in a round: the clock has microseconds.
const PASSES: usize = 10;

/// A record with its clause sheet, and an output of that length.
struct Prepared {
    record: Vec<u8>,
    sheet: Vec<u8>,
    output: Vec<u8>,
}

pub fn run(seed: u64, sides: &[usize], rounds: usize) -> Outcome {
    println!(
        "clause sheets, bytes and microseconds of processor time per call, the best of {rounds} rounds;"
    );
    println!("usual: {USUAL} puzzles; arrow: one arrow through all cells");
    println!("    size     usual   microseconds     arrow   microseconds");
    let Some(call) = CLAUSES_CALL else {
        println!("{MISSING}");
        return Ok(());
    };
    for &side in sides {
        let size = square(side);
        let mut random = Random::new(seed);
        let usual = |_| prepared(&puzzle(&mut random, size, Arrows::Usual));
        let usual: Vec<Prepared> = (0..USUAL).map(usual).collect();
        let arrow = plain(side, side, vec![rows_to_and_fro(size)]);
        let (usual_bytes, usual_time) = measured(call, usual, rounds)?;
        let (arrow_bytes, arrow_time) = measured(call, vec![prepared(&arrow)], rounds)?;
        println!(
            "{:>8}{usual_bytes:>10}{usual_time:>15.2}{arrow_bytes:>10}{arrow_time:>15.2}",
            format!("{side} x {side}")
        );
    }
    Ok(())
}

fn prepared(puzzle: &Puzzle) -> Prepared {
    let sheet = sheet(&clauses(puzzle));
    Prepared {
        record: encode(puzzle),
        output: vec![0; sheet.len()],
        sheet,
    }
}

/// The bytes of a sheet and the microseconds of a call, over all of these.
fn measured(
    call: ClausesCall,
    mut puzzles: Vec<Prepared>,
    rounds: usize,
) -> Result<(usize, f64), String> {
    let mut best = Duration::MAX;
    for _ in 0..rounds {
        let start = processor_time(Whose::Own);
        for _ in 0..PASSES {
            for puzzle in &mut puzzles {
                black_box(call(&puzzle.record, &mut puzzle.output));
            }
        }
        best = best.min(processor_time(Whose::Own) - start);
    }
    if puzzles.iter().any(|puzzle| puzzle.output != puzzle.sheet) {
        return Err("a clause sheet differs from the reading's".to_string());
    }
    let bytes: usize = puzzles.iter().map(|puzzle| puzzle.sheet.len()).sum();
    let microseconds = best.as_secs_f64() * 1e6 / (PASSES * puzzles.len()) as f64;
    Ok((bytes / puzzles.len(), microseconds))
}
