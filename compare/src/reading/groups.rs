//! "Groups": blocks, potential groups, and the block rules, those of document 02 §12 among them.

use super::board::Cell;
use super::grid::Size;
use super::leaf::Leaf;
use super::record::Puzzle;
use super::sizes::sizes_hold;
use super::Edition;

/// Largest side-connected sets of the cells that pass a test, each named by its first cell.
#[derive(Clone, Debug)]
pub struct Groups {
    /// The names, rising.
    pub names: Vec<usize>,
    /// The name of each cell's group, where it has one.
    pub name_of: Vec<Option<usize>>,
}

impl Groups {
    pub fn of(size: Size, passes: impl Fn(usize) -> bool) -> Groups {
        let mut names = Vec::new();
        let mut name_of = vec![None; size.cells()];
        for first in 0..size.cells() {
            if !passes(first) || name_of[first].is_some() {
                continue;
            }
            names.push(first);
            let mut waiting = vec![first];
            while let Some(cell) = waiting.pop() {
                if name_of[cell].is_none() {
                    name_of[cell] = Some(first);
                    waiting.extend(size.neighbours(cell).filter(|&next| passes(next)));
                }
            }
        }
        Groups { names, name_of }
    }

    /// The cells of a group by rising index.
    pub fn cells(&self, name: usize) -> Vec<usize> {
        let cells = 0..self.name_of.len();
        cells
            .filter(|&cell| self.name_of[cell] == Some(name))
            .collect()
    }

    /// For each cell, as the name of a group, how many cells of that group pass a test: none where
    /// it is no name.
    pub fn counts(&self, passes: impl Fn(usize) -> bool) -> Vec<usize> {
        let mut counts = vec![0; self.name_of.len()];
        for &name in &self.names {
            let cells = self.cells(name);
            counts[name] = cells.into_iter().filter(|&cell| passes(cell)).count();
        }
        counts
    }
}

pub fn blocks(size: Size, cells: &[Cell]) -> Groups {
    Groups::of(size, |cell| cells[cell] == Cell::Square)
}

pub fn potential_groups(size: Size, cells: &[Cell]) -> Groups {
    Groups::of(size, |cell| cells[cell] != Cell::Empty)
}

/// Two squares on one arrow with none between them, by their positions on it.
#[derive(Clone, Copy, Debug)]
pub struct Pair<'a> {
    pub arrow: &'a [usize],
    pub last: usize,
    pub cur: usize,
}

impl Pair<'_> {
    pub fn last_cell(&self) -> usize {
        self.arrow[self.last]
    }

    pub fn cur_cell(&self) -> usize {
        self.arrow[self.cur]
    }
}

/// The pairs of all arrows, arrows in record order.
pub fn pairs<'a>(puzzle: &'a Puzzle, cells: &[Cell]) -> Vec<Pair<'a>> {
    let mut pairs = Vec::new();
    for arrow in &puzzle.arrows {
        let positions = 0..arrow.len();
        let squares: Vec<usize> = positions
            .filter(|&position| cells[arrow[position]] == Cell::Square)
            .collect();
        for two in squares.windows(2) {
            pairs.push(Pair {
                arrow,
                last: two[0],
                cur: two[1],
            });
        }
    }
    pairs
}

/// Whether some shift of the cells lies wholly in a set.
pub fn some_shift_lies_in(size: Size, cells: &[usize], set: impl Fn(usize) -> bool) -> bool {
    let (height, width) = (size.height as i32, size.width as i32);
    (1 - height..height).any(|down| {
        (1 - width..width).any(|right| {
            let lies_in = |&cell: &usize| size.moved(cell, (down, right)).is_some_and(&set);
            cells.iter().all(lies_in)
        })
    })
}

/// The block rules of a leaf, for a fully decided board.
pub fn block_rules_hold(leaf: &Leaf, cells: &[Cell]) -> bool {
    let puzzle = &leaf.puzzle;
    let size = puzzle.size;
    let blocks = blocks(size, cells);
    let on_arrow = puzzle.arrow_cells();
    let one_arrow_cell = |&name: &usize| {
        let block = blocks.cells(name);
        block.iter().filter(|&&cell| on_arrow[cell]).count() == 1
    };
    let grown = |pair: &Pair| {
        let earlier = blocks.name_of[pair.last_cell()].expect("a square is in a block");
        let later = blocks.name_of[pair.cur_cell()];
        let earlier = blocks.cells(earlier);
        let later_size = blocks.name_of.iter().filter(|&&name| name == later).count();
        // a shifted copy inside the later block that leaves so many squares over
        let enough = match leaf.edition {
            Edition::ExactlyOne => later_size == earlier.len() + 1,
            Edition::OneOrMore => later_size > earlier.len(),
        };
        enough && some_shift_lies_in(size, &earlier, |cell| blocks.name_of[cell] == later)
    };
    blocks.names.iter().all(one_arrow_cell)
        && pairs(puzzle, cells).iter().all(grown)
        && sizes_hold(puzzle, &leaf.sizes, cells)
}
