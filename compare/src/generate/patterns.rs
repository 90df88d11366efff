//! Regular boards: long paths, many groups, one group.

use super::puzzles::walled_spiral;
use crate::reading::board::Cell;
use crate::reading::grid::Size;

#[derive(Clone, Copy, Debug)]
pub enum Pattern {
    All,
    Checkerboard,
    /// The first row and every other column.
    Comb,
    /// Every other row, joined at alternate ends.
    Serpentine,
    Spiral,
}

pub const PATTERNS: [Pattern; 5] = [
    Pattern::All,
    Pattern::Checkerboard,
    Pattern::Comb,
    Pattern::Serpentine,
    Pattern::Spiral,
];

pub const INSIDE_AND_OUTSIDE: [(Cell, Cell); 6] = [
    (Cell::Square, Cell::Empty),
    (Cell::Square, Cell::Undecided),
    (Cell::Undecided, Cell::Empty),
    (Cell::Undecided, Cell::Square),
    (Cell::Empty, Cell::Square),
    (Cell::Empty, Cell::Undecided),
];

impl Pattern {
    pub fn cells(self, size: Size, inside: Cell, outside: Cell) -> Vec<Cell> {
        let spiral = walled_spiral(size);
        let is_inside = |cell: usize| {
            let (row, column) = (size.row(cell), size.column(cell));
            match self {
                Pattern::All => true,
                Pattern::Checkerboard => (row + column) & 1 == 0,
                Pattern::Comb => row == 0 || column & 1 == 0,
                Pattern::Serpentine => match row % 4 {
                    1 => column == size.width - 1,
                    3 => column == 0,
                    _ => true,
                },
                Pattern::Spiral => spiral.contains(&cell),
            }
        };
        (0..size.cells())
            .map(|cell| if is_inside(cell) { inside } else { outside })
            .collect()
    }
}
