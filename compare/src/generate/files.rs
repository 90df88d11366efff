//! Setter's and player's files: with solutions that are finished and ones that are not, and with a fault.

use super::boards::{full_board, Decided};
use super::puzzles::{any_size, size_up_to};
use super::records::damaged;
use super::solved::solved_leaf;
use crate::random::Random;
use crate::reading::file::file;
use crate::reading::grid::Size;
use crate::reading::record::{encode, Puzzle};
use crate::reading::Edition;

/// What a file holds.
#[derive(Clone, Debug)]
pub struct Contents {
    pub puzzle: Puzzle,
    pub grade: u8,
    pub solution: Vec<u8>,
}

impl Contents {
    /// A board as the solution, with some grade; its undecided cells are empty.
    pub fn new(random: &mut Random, board: &Decided) -> Contents {
        let mut solution = vec![0; board.puzzle.size.cells()];
        for &(cell, value) in &board.decisions {
            solution[cell] = value;
        }
        Contents {
            puzzle: board.puzzle.clone(),
            grade: random.below(8) as u8,
            solution,
        }
    }

    pub fn file(&self) -> Vec<u8> {
        file(&self.puzzle, self.grade, &self.solution)
    }
}

/// A finished solution in one of the editions, or one that is hardly ever finished.
pub fn any_contents(random: &mut Random) -> Contents {
    let leaf = match random.below(10) {
        0..=3 => solved_of_some_size(random, Edition::ExactlyOne),
        4..=6 => solved_of_some_size(random, Edition::OneOrMore),
        7..=8 => {
            let size = size_up_to(random, 6);
            full_board(random, size)
        }
        _ => {
            let size = any_size(random);
            full_board(random, size)
        }
    };
    let mut contents = Contents::new(random, &leaf);
    if random.percent(10) {
        let cell = random.below(contents.solution.len());
        contents.solution[cell] ^= 1;
    }
    contents
}

fn solved_of_some_size(random: &mut Random, edition: Edition) -> Decided {
    let most = random.pick(&[5, 7, 10]);
    let size = Size {
        height: random.between(4, most),
        width: random.between(4, most),
    };
    solved_leaf(random, size, edition)
}

/// A file with a fault somewhere, in its record, in its tail or at its end.
pub fn faulty(random: &mut Random, contents: &Contents) -> Vec<u8> {
    let mut bytes = contents.file();
    let record = encode(&contents.puzzle).len();
    match random.below(7) {
        0 => {
            let mut damaged = damaged(random, &contents.puzzle).record;
            damaged.extend(&bytes[record..]);
            return damaged;
        }
        1 => bytes.truncate(random.below(bytes.len())),
        2 => bytes.truncate(random.between(record, bytes.len() - 1)),
        3 => {
            for _ in 0..random.between(1, 2) {
                bytes.push(if random.percent(50) { 0 } else { random.byte() });
            }
        }
        // filler, if there is some: of the record, of the tail
        4 => bytes[record - 1] |= 1,
        5 => *bytes.last_mut().expect("it has a tail") |= 1,
        _ => {
            for _ in 0..random.between(1, 3) {
                let byte = random.below(bytes.len());
                bytes[byte] ^= 1 << random.below(8);
            }
        }
    }
    bytes
}
