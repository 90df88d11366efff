//! A table of `compare bench`: the call that checks a certificate, on the leaves that are kept for tests, and
//! the package's maker, where its SAT solver is at hand.

use super::unique::Input;
use crate::generate::certificates::Draft;
use crate::host::{package_maker, MISSING, UNIQUE_CALL};
use crate::lists::kept;
use crate::processor::{processor_time, Whose};
use crate::progress::Outcome;
use crate::reading::certificate::words;
use std::hint::black_box;
use std::time::{Duration, Instant};

/// So often each certificate is checked in a round: the clock has microseconds.
const PASSES: usize = 10;

/// So often a certificate is made.
const MAKINGS: usize = 3;

pub fn run(rounds: usize) -> Outcome {
    println!("certificates, each of a leaf with one solution; two in edition 1, two in edition 2 of each size;");
    println!("check: microseconds of processor time per call, the best of {rounds} rounds");
    println!("made: milliseconds that go by, the best of {MAKINGS}, the SAT solver's among them");
    println!("    size     steps  literals     hints     bytes     check      made");
    let Some(call) = UNIQUE_CALL else {
        println!("{MISSING}");
        return Ok(());
    };
    let kept = kept::inputs();
    for inputs in kept.chunk_by(|one, other| size(one) == size(other)) {
        let mut best = Duration::MAX;
        for _ in 0..rounds {
            let start = processor_time(Whose::Own);
            for _ in 0..PASSES {
                for input in inputs {
                    black_box(call(input.opening(), &input.certificate));
                }
            }
            best = best.min(processor_time(Whose::Own) - start);
        }
        let check = best.as_secs_f64() * 1e6 / (PASSES * inputs.len()) as f64;
        let made = match made(inputs)? {
            None => format!("{:>10}", "-"),
            Some(time) => format!("{:>10.1}", time.as_secs_f64() * 1e3),
        };
        println!("{}{check:>10.1}{made}", sums(inputs)?);
    }
    Ok(())
}

/// The record's first two fields, which are the grid's size.
fn size(input: &Input) -> [u8; 2] {
    [input.record[0], input.record[1] & 0xC0]
}

/// The mean numbers of a certificate's steps, literals, hints and bytes.
fn sums(inputs: &[Input]) -> Result<String, String> {
    let mut sums = [0; 4];
    for input in inputs {
        let words = words(&input.certificate).map_err(|refusal| format!("{refusal:?}"))?;
        let steps = Draft::read(&words).steps;
        let literals: usize = steps.iter().map(|step| step.clause.len()).sum();
        let hints: usize = steps.iter().map(|step| step.hints.len()).sum();
        let counts = [steps.len(), literals, hints, input.certificate.len()];
        for (sum, count) in sums.iter_mut().zip(counts) {
            *sum += count;
        }
    }
    let leaf = inputs[0].opening().leaf();
    let grid = leaf.map_err(|refusal| format!("{refusal:?}"))?.puzzle.size;
    let size = format!("{} x {}", grid.height, grid.width);
    let means = sums.map(|sum| format!("{:>10}", sum / inputs.len()));
    Ok(format!("{size:>8}{}", means.concat()))
}

/// How long a certificate takes to be made; none where the maker is not at hand.
fn made(inputs: &[Input]) -> Result<Option<Duration>, String> {
    let Some(maker) = package_maker() else {
        return Ok(None);
    };
    let mut best = Duration::MAX;
    for _ in 0..MAKINGS {
        let start = Instant::now();
        for input in inputs {
            maker(input.opening())?;
        }
        best = best.min(start.elapsed());
    }
    Ok(Some(best / inputs.len() as u32))
}
