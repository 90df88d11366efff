//! Boards of 32 by 32 with long reasons: random ones seldom have more than a few hundred literals.

use super::boards::Decided;
use super::drawn::by_cells;
use super::patterns::Pattern;
use super::puzzles::square;
use crate::reading::board::Cell;

const SIDE: usize = 32;

pub fn long_reasons() -> Vec<Decided> {
    vec![
        long_path(Pattern::Serpentine),
        long_path(Pattern::Spiral),
        group_without_arrow(),
        large_block_beside_a_small_one(false),
        large_block_beside_a_small_one(true),
        two_equal_halves(),
        long_fence(),
    ]
}

fn board(cell: impl Fn(usize, usize) -> Cell, arrows: &[&[(usize, usize)]]) -> Decided {
    by_cells(square(SIDE), cell, arrows)
}

/// Reason 2, with an arrow cell at each end of a line of squares.
fn long_path(line: Pattern) -> Decided {
    let cells = line.cells(square(SIDE), Cell::Square, Cell::Empty);
    let is_square = |cell: usize| cells[cell] == Cell::Square;
    let ends = |cell: &usize| {
        square(SIDE)
            .neighbours(*cell)
            .filter(|&c| is_square(c))
            .count()
            == 1
    };
    let last_end = (0..cells.len()).filter(|&cell| is_square(cell)).rfind(ends);
    let last_end = last_end.expect("a line has two ends");
    board(
        |row, column| cells[row * SIDE + column],
        &[&[(0, 0)], &[(last_end / SIDE, last_end % SIDE)]],
    )
}

/// Reason 1: a square in an undecided line with empty cells on both sides.
fn group_without_arrow() -> Decided {
    let cells = Pattern::Serpentine.cells(square(SIDE), Cell::Undecided, Cell::Empty);
    let cell = |row, column| match (row, column) {
        (0, 0) => Cell::Square,
        _ => cells[row * SIDE + column],
    };
    board(cell, &[])
}

/// A block of 962 squares and one of a single square, with an undecided cell between them: the
/// large one stands in the reason twice. Reason 3, or 4 (b) with the arrow turned round.
fn large_block_beside_a_small_one(turned: bool) -> Decided {
    let cell = |row, column| match (row, column) {
        (0, 1) => Cell::Undecided,
        (0, 2) | (_, 0) | (2.., _) => Cell::Square,
        _ => Cell::Empty,
    };
    let mut arrow = [(0, 0), (0, 1), (0, 2)];
    if turned {
        arrow.reverse();
    }
    board(cell, &[&arrow])
}

/// Reason 4 (a): the later block is a copy of the earlier one and cannot grow.
fn two_equal_halves() -> Decided {
    let cell = |_, column| match column {
        15 | 16 => Cell::Empty,
        _ => Cell::Square,
    };
    board(cell, &[&[(0, 14), (0, 15), (0, 16), (0, 17)]])
}

/// Reason 3: a block of 2 by 2 does not fit in a long line of undecided cells.
fn long_fence() -> Decided {
    let cells = Pattern::Serpentine.cells(square(SIDE), Cell::Undecided, Cell::Empty);
    let cell = |row, column| match (row, column) {
        (0, 0) | (30.., 0..=1) => Cell::Square,
        (28.., _) => Cell::Empty,
        _ => cells[row * SIDE + column],
    };
    let upwards: Vec<(usize, usize)> = (0..=30).rev().map(|row| (row, 0)).collect();
    board(cell, &[&upwards])
}
