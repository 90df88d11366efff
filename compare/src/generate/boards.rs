//! Random boards: puzzles with decisions, of styles that between them meet every reason.

use super::layout::{change_some, Chain, Layout};
use super::patterns::{INSIDE_AND_OUTSIDE, PATTERNS};
use super::puzzles::{any_size, puzzle, puzzle_of_size, Arrows};
use crate::random::Random;
use crate::reading::board::Cell;
use crate::reading::grid::Size;
use crate::reading::record::Puzzle;
use crate::reading::Literal;

/// A puzzle and decisions of different cells, in the order in which they are made.
#[derive(Clone, Debug)]
pub struct Decided {
    pub puzzle: Puzzle,
    pub decisions: Vec<Literal>,
}

pub fn any_board(random: &mut Random) -> Decided {
    let size = any_size(random);
    board_of_size(random, size)
}

pub fn board_of_size(random: &mut Random, size: Size) -> Decided {
    if random.percent(30) {
        let puzzle = puzzle_of_size(random, size);
        unplanned(random, puzzle)
    } else {
        let puzzle = puzzle_with_room(random, size);
        laid_out(random, puzzle)
    }
}

pub fn board_of_puzzle(random: &mut Random, puzzle: Puzzle) -> Decided {
    if random.percent(30) {
        unplanned(random, puzzle)
    } else {
        laid_out(random, puzzle)
    }
}

/// A board with every cell decided.
pub fn full_board(random: &mut Random, size: Size) -> Decided {
    let puzzle = puzzle_of_size(random, size);
    let cells = full(random, size);
    decided(random, puzzle, &cells)
}

/// Arrows that leave room for blocks beside them.
fn puzzle_with_room(random: &mut Random, size: Size) -> Puzzle {
    let style = random.pick(&[
        Arrows::Sparse,
        Arrows::Sparse,
        Arrows::Straight,
        Arrows::Walks,
        Arrows::Usual,
    ]);
    puzzle(random, size, style)
}

/// A board as it may stand while a published puzzle is solved, or just went wrong.
pub fn usual_board(random: &mut Random, size: Size) -> Decided {
    let puzzle = puzzle(random, size, Arrows::Usual);
    laid_out(random, puzzle)
}

/// Cells that take no account of the arrows.
fn unplanned(random: &mut Random, puzzle: Puzzle) -> Decided {
    let size = puzzle.size;
    let cells = match random.below(6) {
        0..=2 => scattered(random, size),
        3..=4 => full(random, size),
        _ => patterned(random, size),
    };
    decided(random, puzzle, &cells)
}

/// Blocks along the arrows.
fn laid_out(random: &mut Random, puzzle: Puzzle) -> Decided {
    let cells = match random.below(10) {
        0..=1 => grown(random, &puzzle),
        2 => outgrown(random, &puzzle),
        3..=4 => gapped(random, &puzzle),
        _ => chained(random, &puzzle),
    };
    decided(random, puzzle, &cells)
}

/// The decisions that lead to these cells, in random order.
pub fn decided(random: &mut Random, puzzle: Puzzle, cells: &[Cell]) -> Decided {
    let mut decisions: Vec<Literal> = Vec::new();
    for (index, cell) in cells.iter().enumerate() {
        match cell {
            Cell::Square => decisions.push((index, 1)),
            Cell::Empty => decisions.push((index, 0)),
            Cell::Undecided => {}
        }
    }
    random.shuffle(&mut decisions);
    Decided { puzzle, decisions }
}

/// Each cell on its own.
fn scattered(random: &mut Random, size: Size) -> Vec<Cell> {
    let squares = random.pick(&[3, 10, 30, 50]);
    let empties = random.pick(&[0, 10, 30, 50]);
    let cell = |_| match random.below(100) {
        number if number < squares => Cell::Square,
        number if number < squares + empties => Cell::Empty,
        _ => Cell::Undecided,
    };
    (0..size.cells()).map(cell).collect()
}

/// Each cell on its own, none undecided.
fn full(random: &mut Random, size: Size) -> Vec<Cell> {
    let squares = random.pick(&[0, 2, 10, 30, 60, 100]);
    let cell = |_| match random.percent(squares) {
        true => Cell::Square,
        false => Cell::Empty,
    };
    (0..size.cells()).map(cell).collect()
}

/// A regular pattern, sometimes with a few cells changed.
fn patterned(random: &mut Random, size: Size) -> Vec<Cell> {
    let (inside, outside) = random.pick(&INSIDE_AND_OUTSIDE);
    let mut cells = random.pick(&PATTERNS).cells(size, inside, outside);
    change_some(random, &mut cells);
    cells
}

/// Blocks about single arrow cells, in no order along their arrows.
fn grown(random: &mut Random, puzzle: &Puzzle) -> Vec<Cell> {
    let mut layout = Layout::new(puzzle);
    let started = random.pick(&[20, 50, 90]);
    let largest = random.pick(&[1, 3, 6]);
    for &cell in puzzle.arrows.iter().flatten() {
        if random.percent(started) && layout.may_start(cell) {
            let wanted = random.between(1, largest);
            layout.start(random, cell, wanted);
        }
    }
    layout.reveal_any(random)
}

/// By how much blocks may grow along an arrow: as they should, or by too little or too much.
const GROWTHS: [&[usize]; 6] = [
    &[1],
    &[1, 1, 1, 0],
    &[0, 1, 3],
    &[1, 2, 5, 9],
    &[3, 6, 12],
    &[4, 8, 20],
];

/// Along each arrow blocks that grow by one, or by another number, from copy to copy.
fn chained(random: &mut Random, puzzle: &Puzzle) -> Vec<Cell> {
    let mut layout = Layout::new(puzzle);
    let chain = Chain {
        blocks: usize::MAX,
        largest_first: 5,
        copies: random.pick(&[100, 100, 90, 50]),
        growths: random.pick(&GROWTHS),
    };
    for arrow in &puzzle.arrows {
        layout.chain(random, arrow, &chain);
    }
    layout.reveal_any(random)
}

/// A small block with little room, and a large one after it: reason 4 (b) is rare elsewhere.
fn outgrown(random: &mut Random, puzzle: &Puzzle) -> Vec<Cell> {
    let mut layout = Layout::new(puzzle);
    let chain = Chain {
        blocks: 2,
        largest_first: 2,
        copies: 100,
        growths: &[2, 3, 4, 6, 9],
    };
    for arrow in &puzzle.arrows {
        layout.chain(random, arrow, &chain);
    }
    let empties = random.pick(&[100, 98, 95, 90, 80]);
    layout.reveal(random, 100, empties)
}

/// Two blocks on an arrow with undecided cells between them, the later one about as large as
/// reason 4 (b) allows.
fn gapped(random: &mut Random, puzzle: &Puzzle) -> Vec<Cell> {
    let mut layout = Layout::new(puzzle);
    let mut undecided = Vec::new();
    for arrow in puzzle.arrows.iter().filter(|arrow| arrow.len() >= 6) {
        let last = random.below(2);
        let cur = random.between(last + 4, (last + 12).min(arrow.len() - 1));
        if !layout.may_start(arrow[last]) || !layout.may_start(arrow[cur]) {
            continue;
        }
        let hidden = random.pick(&[30, 60, 90, 100]);
        let between: Vec<Option<usize>> = arrow[last + 2..cur - 1]
            .iter()
            .map(|&cell| random.percent(hidden).then_some(cell))
            .collect();
        // of n undecided cells in a row every other one, the first included
        let most: usize = between
            .split(|cell| cell.is_none())
            .map(|row| row.len().div_ceil(2))
            .sum();
        let wanted = random.between(1, 2);
        let block = layout.start(random, arrow[last], wanted);
        if let Some(copy) = layout.copy(random, &block, arrow[cur]) {
            let wanted = block.len() + 1 + most + random.below(3);
            layout.grow(random, copy, wanted);
        }
        undecided.extend(between.into_iter().flatten());
    }
    let mut cells = layout.reveal(random, 100, 100);
    for cell in undecided {
        cells[cell] = Cell::Undecided;
    }
    cells
}
