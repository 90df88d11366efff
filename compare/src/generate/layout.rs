//! Blocks laid out along arrows, from which boards are made.

use crate::random::Random;
use crate::reading::board::Cell;
use crate::reading::grid::Size;
use crate::reading::record::Puzzle;

/// How blocks follow each other along an arrow.
pub struct Chain {
    /// At most so many of them.
    pub blocks: usize,
    pub largest_first: usize,
    /// So many percent copy the block before.
    pub copies: usize,
    /// By how much a copy grows, one of these.
    pub growths: &'static [usize],
}

/// Blocks with one arrow cell each that don't touch each other.
#[derive(Clone)]
pub struct Layout {
    size: Size,
    on_arrow: Vec<bool>,
    is_square: Vec<bool>,
}

impl Layout {
    pub fn new(puzzle: &Puzzle) -> Layout {
        Layout {
            size: puzzle.size,
            on_arrow: puzzle.arrow_cells(),
            is_square: vec![false; puzzle.size.cells()],
        }
    }

    /// Whether the cell is free and touches no square.
    pub fn may_start(&self, cell: usize) -> bool {
        !self.is_square[cell] && !self.size.touches(cell, |beside| self.is_square[beside])
    }

    /// A block of the size wanted, as far as there is room, about an arrow cell.
    pub fn start(&mut self, random: &mut Random, arrow_cell: usize, wanted: usize) -> Vec<usize> {
        self.is_square[arrow_cell] = true;
        self.grow(random, vec![arrow_cell], wanted)
    }

    /// Lets a block grow at its sides to the size wanted, as far as there is room.
    pub fn grow(
        &mut self,
        random: &mut Random,
        mut block: Vec<usize>,
        wanted: usize,
    ) -> Vec<usize> {
        while block.len() < wanted {
            let beside = |&cell: &usize| self.size.neighbours(cell);
            let mut sides: Vec<usize> = block.iter().flat_map(beside).collect();
            sides.retain(|&cell| self.may_join(cell, &block));
            if sides.is_empty() {
                break;
            }
            let cell = random.pick(&sides);
            self.is_square[cell] = true;
            block.push(cell);
        }
        block
    }

    /// Whether the cell is free, no arrow cell, and touches no square but the block's.
    fn may_join(&self, cell: usize, block: &[usize]) -> bool {
        let of_another = |beside: usize| self.is_square[beside] && !block.contains(&beside);
        !self.is_square[cell] && !self.on_arrow[cell] && !self.size.touches(cell, of_another)
    }

    /// Blocks along an arrow, each a copy of the one before that then grows; where there is no
    /// room for a copy, or none is wanted, a block of its own.
    pub fn chain(&mut self, random: &mut Random, arrow: &[usize], chain: &Chain) {
        let mut block: Vec<usize> = Vec::new();
        let mut blocks = 0;
        let mut position = random.below(arrow.len().min(3));
        while position < arrow.len() && blocks < chain.blocks {
            let cell = arrow[position];
            let copy = match !block.is_empty() && random.percent(chain.copies) {
                true => self.copy(random, &block, cell),
                false => None,
            };
            if let Some(copy) = copy {
                let wanted = copy.len() + random.pick(chain.growths);
                block = self.grow(random, copy, wanted);
                blocks += 1;
            } else if self.may_start(cell) {
                let wanted = random.between(1, chain.largest_first);
                block = self.start(random, cell, wanted);
                blocks += 1;
            }
            position += 2 + random.below(4);
        }
    }

    /// A copy of a block with some cell of it at the arrow cell, where there is room for one.
    pub fn copy(&mut self, random: &mut Random, block: &[usize], at: usize) -> Option<Vec<usize>> {
        let size = self.size;
        for _ in 0..8 {
            let anchor = random.pick(block);
            let offset = (
                size.row(at) as i32 - size.row(anchor) as i32,
                size.column(at) as i32 - size.column(anchor) as i32,
            );
            let moved = block.iter().map(|&cell| size.moved(cell, offset));
            let copy: Option<Vec<usize>> = moved.collect();
            let has_room =
                |&cell: &usize| self.may_start(cell) && (cell == at || !self.on_arrow[cell]);
            if let Some(copy) = copy.filter(|copy| copy.iter().all(has_room)) {
                for &cell in &copy {
                    self.is_square[cell] = true;
                }
                return Some(copy);
            }
        }
        None
    }

    /// All cells decided, as they are laid out.
    pub fn full(&self) -> Vec<Cell> {
        let cell = |&is_square: &bool| match is_square {
            true => Cell::Square,
            false => Cell::Empty,
        };
        self.is_square.iter().map(cell).collect()
    }

    pub fn reveal_any(&self, random: &mut Random) -> Vec<Cell> {
        let squares = random.pick(&[100, 100, 95, 80, 50]);
        let empties = random.pick(&[100, 98, 95, 90, 70, 40, 0]);
        self.reveal(random, squares, empties)
    }

    /// So many percent of the squares off the arrows and of the empty cells, and sometimes a few
    /// cells changed.
    pub fn reveal(&self, random: &mut Random, squares: usize, empties: usize) -> Vec<Cell> {
        let cell = |(&is_square, &on_arrow): (&bool, &bool)| match is_square {
            true if random.percent(if on_arrow { 97 } else { squares }) => Cell::Square,
            false if random.percent(empties) => Cell::Empty,
            _ => Cell::Undecided,
        };
        let mut cells: Vec<Cell> = self
            .is_square
            .iter()
            .zip(&self.on_arrow)
            .map(cell)
            .collect();
        change_some(random, &mut cells);
        cells
    }
}

/// In some cases changes a few cells.
pub fn change_some(random: &mut Random, cells: &mut [Cell]) {
    if random.percent(30) {
        for _ in 0..random.between(1, 3) {
            let changed = random.below(cells.len());
            cells[changed] = random.pick(&[Cell::Empty, Cell::Square, Cell::Undecided]);
        }
    }
}
