//! A line now and then, and facts that reproduce a difference.

use crate::random::Random;
use crate::reading::leaf::Leaf;
use crate::reading::record::{encode, Puzzle};
use crate::reading::sizes::Range;
use crate::reading::Literal;
use std::time::{Duration, Instant};

/// How a subcommand ends: well, or with the first difference.
pub type Outcome = Result<(), String>;

pub struct Progress {
    name: &'static str,
    wanted: usize,
    last_line: Instant,
}

impl Progress {
    pub fn new(name: &'static str, wanted: usize) -> Progress {
        Progress {
            name,
            wanted,
            last_line: Instant::now(),
        }
    }

    /// Says how far it is, every five seconds.
    pub fn at(&mut self, done: usize) {
        if self.last_line.elapsed() > Duration::from_secs(5) {
            println!("{}: {done} of {}", self.name, self.wanted);
            self.last_line = Instant::now();
        }
    }
}

/// Compares so many times, each time on what comes next from the random numbers of the seed.
pub fn repeatedly(
    name: &'static str,
    seed: u64,
    count: usize,
    mut compare: impl FnMut(&mut Random) -> Outcome,
) -> Outcome {
    let mut random = Random::new(seed);
    let mut progress = Progress::new(name, count);
    for done in 0..count {
        progress.at(done);
        compare(&mut random)?;
    }
    Ok(())
}

pub fn hexadecimal(bytes: &[u8]) -> String {
    bytes.iter().map(|byte| format!("{byte:02X}")).collect()
}

/// A board as it can be typed in again.
pub fn facts(puzzle: &Puzzle, decisions: &[Literal]) -> String {
    format!(
        "{} by {}, record {}, decisions {decisions:?}",
        puzzle.size.height,
        puzzle.size.width,
        hexadecimal(&encode(puzzle)),
    )
}

/// The same of a leaf in an edition, with its sizes as cell, lowest and highest.
pub fn leaf_facts(leaf: &Leaf, decisions: &[Literal]) -> String {
    let range = |range: &Range| (range.cell, range.lowest, range.highest);
    let sizes: Vec<_> = leaf.sizes.iter().map(range).collect();
    format!(
        "{}, edition {}, sizes {sizes:?}",
        facts(&leaf.puzzle, decisions),
        leaf.edition.number()
    )
}
