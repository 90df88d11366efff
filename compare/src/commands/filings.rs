//! A table of `compare bench`: the calls that read a setter's and a player's file, on solved leaves.

use crate::generate::files::Contents;
use crate::generate::puzzles::square;
use crate::generate::solved::solved_leaf;
use crate::host::{MISSING, PLAYER_FILE_CALL, SETTER_FILE_CALL};
use crate::processor::{processor_time, Whose};
use crate::progress::Outcome;
use crate::random::Random;
use crate::reading::Edition;
use std::hint::black_box;
use std::time::Duration;

const LEAVES: usize = 10;

/// So often each file is read in a round: the clock has microseconds.
const PASSES: usize = 50;

pub fn run(seed: u64, sides: &[usize], rounds: usize) -> Outcome {
    println!("files, microseconds of processor time per call, the best of {rounds} rounds;");
    println!("{LEAVES} leaves of each size with a solution that is finished in edition 1");
    println!("    size     bytes   setter's   player's");
    let (Some(setter), Some(player)) = (SETTER_FILE_CALL, PLAYER_FILE_CALL) else {
        println!("{MISSING}");
        return Ok(());
    };
    for &side in sides {
        let mut random = Random::new(seed);
        let file = |_| {
            let leaf = solved_leaf(&mut random, square(side), Edition::ExactlyOne);
            Contents::new(&mut random, &leaf).file()
        };
        let files: Vec<Vec<u8>> = (0..LEAVES).map(file).collect();
        let mut output = [0; 1_025];
        if files.iter().any(|file| setter(file, 1, &mut output) < 0) {
            return Err("a solved leaf is refused".to_string());
        }
        let setters = best(rounds, &files, |file| setter(file, 1, &mut output));
        let players = best(rounds, &files, |file| player(file, &mut output));
        let bytes: usize = files.iter().map(Vec::len).sum();
        println!(
            "{:>8}{:>10}{setters:>11.2}{players:>11.2}",
            format!("{side} x {side}"),
            bytes / LEAVES
        );
    }
    Ok(())
}

/// The microseconds of a call, in the best round.
fn best(rounds: usize, files: &[Vec<u8>], mut call: impl FnMut(&[u8]) -> i32) -> f64 {
    let mut best = Duration::MAX;
    for _ in 0..rounds {
        let start = processor_time(Whose::Own);
        for _ in 0..PASSES {
            for file in files {
                black_box(call(file));
            }
        }
        best = best.min(processor_time(Whose::Own) - start);
    }
    best.as_secs_f64() * 1e6 / (PASSES * files.len()) as f64
}
