//! Small puzzles, whose full boards can all be gone through.

use super::boards::Decided;
use super::puzzles::{puzzle_of_size, size_up_to};
use crate::random::Random;
use crate::reading::board::Board;
use crate::reading::finished::finished;
use crate::reading::grid::Size;
use crate::reading::record::Puzzle;
use crate::reading::{Edition, Literal};

const MOST_CELLS: usize = 12;

/// Of two puzzles on one leaf, with the column between them.
const MOST_CELLS_OF_TWO: usize = 15;

/// Heights and widths of halves that have room for a block and one that has grown by two.
const FINISHED_SIZES: [(usize, usize); 4] = [(1, 6), (2, 3), (3, 2), (5, 1)];

pub fn small_puzzle(random: &mut Random) -> Puzzle {
    let longest = random.pick(&[4, 4, 4, MOST_CELLS]);
    loop {
        let size = size_up_to(random, longest);
        if size.cells() <= MOST_CELLS {
            return puzzle_of_size(random, size);
        }
    }
}

/// The digits of a number are the cells: 0 empty, 1 square, 2 undecided.
pub fn decisions(number: usize, cells: usize, base: usize) -> Vec<Literal> {
    let digit = |cell: usize| (number / base.pow(cell as u32) % base) as u8;
    (0..cells)
        .map(|cell| (cell, digit(cell)))
        .filter(|&(_, value)| value < 2)
        .collect()
}

/// So many leaves that are finished in edition 1: random boards seldom are.
pub fn finished_leaves(random: &mut Random, count: usize) -> Vec<Decided> {
    full_leaves(random, count, |leaf| is_finished(leaf, Edition::ExactlyOne))
}

/// So many leaves that are finished in edition 2 alone: some block has grown by two or more.
pub fn freely_grown_leaves(random: &mut Random, count: usize) -> Vec<Decided> {
    full_leaves(random, count, is_freely_grown)
}

fn is_freely_grown(leaf: &Decided) -> bool {
    is_finished(leaf, Edition::OneOrMore) && !is_finished(leaf, Edition::ExactlyOne)
}

pub fn is_finished(leaf: &Decided, edition: Edition) -> bool {
    finished(&Board::after(&leaf.puzzle, edition, &leaf.decisions))
}

/// So many wanted full boards, each of a small puzzle with an arrow.
fn full_leaves(
    random: &mut Random,
    count: usize,
    wanted: impl Fn(&Decided) -> bool,
) -> Vec<Decided> {
    let mut leaves = Vec::new();
    while leaves.len() < count {
        let puzzle = small_puzzle(random);
        if puzzle.arrows.is_empty() {
            continue;
        }
        let found = full_boards(&puzzle).find(&wanted);
        if let Some(mut leaf) = found {
            random.shuffle(&mut leaf.decisions);
            leaves.push(leaf);
        }
    }
    leaves
}

/// The full boards of a small puzzle.
fn full_boards(puzzle: &Puzzle) -> impl Iterator<Item = Decided> + '_ {
    let cells = puzzle.size.cells();
    (0..1 << cells).map(move |number| Decided {
        puzzle: puzzle.clone(),
        decisions: decisions(number, cells, 2),
    })
}

/// Two small puzzles of equal height, left and right.
pub fn small_halves(random: &mut Random) -> [Puzzle; 2] {
    let most = random.pick(&[9, 12, MOST_CELLS_OF_TWO]);
    let height = random.between(1, most / 3);
    let widths = most / height - 1;
    let left = random.between(1, widths - 1);
    let right = random.between(1, widths - left);
    [left, right].map(|width| puzzle_of_size(random, Size { height, width }))
}

/// Two small puzzles for each of these sizes, each with an arrow and with a full board that is finished in
/// an edition, and where it is edition 2 in that one alone.
pub fn finished_halves(random: &mut Random, edition: Edition) -> Vec<[Puzzle; 2]> {
    let sizes = FINISHED_SIZES.map(|(height, width)| Size { height, width });
    let mut half = |size| finished_half(random, edition, size);
    sizes.map(|size| [half(size), half(size)]).into()
}

fn finished_half(random: &mut Random, edition: Edition, size: Size) -> Puzzle {
    let wanted = |leaf: Decided| match edition {
        Edition::ExactlyOne => is_finished(&leaf, edition),
        Edition::OneOrMore => is_freely_grown(&leaf),
    };
    loop {
        let half = puzzle_of_size(random, size);
        if !half.arrows.is_empty() && full_boards(&half).any(wanted) {
            return half;
        }
    }
}
