//! Small leaves of which every finished board is known, many with one only.

use super::boards::Decided;
use super::puzzles::size_up_to;
use super::sizes::{as_read, kept_sizes, small_sizes, Ranges};
use super::small::{decisions, small_puzzle};
use super::solved::solved_leaf;
use crate::random::Random;
use crate::reading::board::Board;
use crate::reading::finished::finished;
use crate::reading::leaf::Leaf;
use crate::reading::record::Code;
use crate::reading::Edition;

/// Full boards of so many cells are gone through.
const MOST_CELLS: usize = 12;

/// A leaf, and its finished boards by exhaustion.
pub struct Exhausted {
    pub leaf: Leaf,
    pub sizes: Ranges,
    pub boards: Vec<Vec<u8>>,
}

/// In either edition, some with sizes. Of some that have several finished boards cells are given until
/// there is one.
pub fn exhausted(random: &mut Random) -> Exhausted {
    let edition = random.pick(&Edition::BOTH);
    let (puzzle, sizes) = match random.percent(25) {
        true => {
            let puzzle = small_puzzle(random);
            let sizes = small_sizes(random, &puzzle);
            (puzzle, sizes)
        }
        false => {
            let mut solved = small_solved(random, edition);
            for code in &mut solved.puzzle.codes {
                if random.percent(60) {
                    *code = Code::Plain;
                }
            }
            let sizes = kept_sizes(random, &solved);
            (solved.puzzle, sizes)
        }
    };
    let sizes = match random.percent(50) {
        true => sizes,
        false => Ranges::new(),
    };
    let leaf = Leaf {
        puzzle,
        edition,
        sizes: as_read(&sizes),
    };
    let boards = finished_boards(&leaf);
    let mut exhausted = Exhausted {
        leaf,
        sizes,
        boards,
    };
    if random.percent(70) {
        exhausted.give(random);
    }
    exhausted
}

/// A small leaf with a board that is finished.
fn small_solved(random: &mut Random, edition: Edition) -> Decided {
    loop {
        let longest = random.pick(&[4, 4, 5, 7]);
        let size = size_up_to(random, longest);
        if size.cells() <= MOST_CELLS && size.cells() > 5 {
            return solved_leaf(random, size, edition);
        }
    }
}

/// By going through all full boards.
pub fn finished_boards(leaf: &Leaf) -> Vec<Vec<u8>> {
    let cells = leaf.puzzle.size.cells();
    let mut boards = Vec::new();
    for number in 0..1 << cells {
        let full = decisions(number, cells, 2);
        if finished(&Board::of_leaf(leaf, &full)) {
            boards.push(full.into_iter().map(|(_, value)| value).collect());
        }
    }
    boards
}

/// A cell in which two boards differ.
pub fn differing_cell(random: &mut Random, one: &[u8], another: &[u8]) -> usize {
    let differs = |&cell: &usize| one[cell] != another[cell];
    let cells: Vec<usize> = (0..one.len()).filter(differs).collect();
    random.pick(&cells)
}

/// The code that keeps a cell at its value.
pub fn given(value: u8) -> Code {
    match value {
        1 => Code::Given,
        _ => Code::Black,
    }
}

impl Exhausted {
    /// Gives or blackens cells by one of the boards until it is the only one.
    fn give(&mut self, random: &mut Random) {
        if self.boards.is_empty() {
            return;
        }
        let wanted = self.boards[random.below(self.boards.len())].clone();
        while let Some(other) = self.boards.iter().find(|&board| *board != wanted) {
            let cell = differing_cell(random, other, &wanted);
            self.leaf.puzzle.codes[cell] = given(wanted[cell]);
            self.boards.retain(|board| board[cell] == wanted[cell]);
        }
    }
}
