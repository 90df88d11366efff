//! "Kinds": arrow blocks, their neighbours, barriers and floating groups; reach and fence.

use super::board::Cell;
use super::grid::Size;
use super::groups::{blocks, Groups};
use super::record::Puzzle;
use super::Literal;

/// The kind of a cell, with the name of what it belongs to.
#[derive(Clone, Copy, Debug, PartialEq, Eq)]
pub enum Kind {
    Empty,
    ArrowBlock(usize),
    Neighbour(usize),
    Barrier,
    Floating(usize),
}

#[derive(Clone, Debug)]
pub struct Kinds {
    size: Size,
    cells: Vec<Cell>,
    /// The names of the arrow blocks, rising.
    pub arrow_blocks: Vec<usize>,
    pub kind_of: Vec<Kind>,
}

impl Kinds {
    pub fn of(puzzle: &Puzzle, cells: &[Cell]) -> Kinds {
        let size = puzzle.size;
        let arrow_block_of = arrow_blocks(puzzle, cells);
        let mut arrow_blocks: Vec<usize> = arrow_block_of.iter().flatten().copied().collect();
        arrow_blocks.sort();
        arrow_blocks.dedup();

        let bound: Vec<Option<Kind>> = (0..size.cells())
            .map(|cell| match (cells[cell], arrow_block_of[cell]) {
                (Cell::Empty, _) => Some(Kind::Empty),
                (Cell::Square, Some(block)) => Some(Kind::ArrowBlock(block)),
                (Cell::Square, None) => None,
                (Cell::Undecided, _) => undecided_kind(size, &arrow_block_of, cell),
            })
            .collect();
        // the remaining cells that aren't empty
        let floating = Groups::of(size, |cell| bound[cell].is_none());
        let kind_of = (0..size.cells())
            .map(|cell| match (bound[cell], floating.name_of[cell]) {
                (Some(kind), _) => kind,
                (None, Some(group)) => Kind::Floating(group),
                (None, None) => unreachable!("every remaining cell is in a floating group"),
            })
            .collect();
        Kinds {
            size,
            cells: cells.to_vec(),
            arrow_blocks,
            kind_of,
        }
    }

    /// The arrow block that a square arrow cell is in.
    pub fn arrow_block_of(&self, arrow_cell: usize) -> usize {
        match self.kind_of[arrow_cell] {
            Kind::ArrowBlock(block) => block,
            _ => unreachable!("a square arrow cell is in an arrow block"),
        }
    }

    /// The cells of an arrow block by rising index.
    pub fn block_cells(&self, block: usize) -> Vec<usize> {
        let in_block = |&cell: &usize| self.kind_of[cell] == Kind::ArrowBlock(block);
        (0..self.size.cells()).filter(in_block).collect()
    }

    /// B, its neighbours, and each floating group that touches one of those neighbours.
    pub fn reach(&self, block: usize) -> Vec<bool> {
        let mut touched_groups = Vec::new();
        for cell in 0..self.size.cells() {
            if self.kind_of[cell] == Kind::Neighbour(block) {
                for beside in self.size.neighbours(cell) {
                    if let Kind::Floating(group) = self.kind_of[beside] {
                        touched_groups.push(group);
                    }
                }
            }
        }
        let in_reach = |kind: &Kind| match *kind {
            Kind::ArrowBlock(owner) | Kind::Neighbour(owner) => owner == block,
            Kind::Floating(group) => touched_groups.contains(&group),
            Kind::Empty | Kind::Barrier => false,
        };
        self.kind_of.iter().map(in_reach).collect()
    }

    /// Every empty cell that touches the reach, and all cells of each disturbing block.
    pub fn fence(&self, block: usize) -> Vec<Literal> {
        let reach = self.reach(block);
        let disturbing = self.disturbing(block, &reach);
        let mut fence = Vec::new();
        for cell in 0..self.size.cells() {
            match self.kind_of[cell] {
                Kind::Empty if self.size.touches(cell, |beside| reach[beside]) => {
                    fence.push((cell, 0));
                }
                Kind::ArrowBlock(other) if disturbing.contains(&other) => fence.push((cell, 1)),
                _ => {}
            }
        }
        fence
    }

    /// Each other arrow block with some cell beside an undecided cell that touches the reach.
    fn disturbing(&self, block: usize, reach: &[bool]) -> Vec<usize> {
        let mut disturbing = Vec::new();
        for cell in 0..self.size.cells() {
            let undecided = self.cells[cell] == Cell::Undecided;
            if undecided && self.size.touches(cell, |beside| reach[beside]) {
                for beside in self.size.neighbours(cell) {
                    match self.kind_of[beside] {
                        Kind::ArrowBlock(other) if other != block => disturbing.push(other),
                        _ => {}
                    }
                }
            }
        }
        disturbing
    }
}

/// For each cell the block it is in, if that has an arrow cell.
fn arrow_blocks(puzzle: &Puzzle, cells: &[Cell]) -> Vec<Option<usize>> {
    let blocks = blocks(puzzle.size, cells);
    let with_arrow: Vec<usize> = puzzle
        .arrows
        .iter()
        .flatten()
        .filter_map(|&arrow_cell| blocks.name_of[arrow_cell])
        .collect();
    let has_arrow = |name: &usize| with_arrow.contains(name);
    blocks
        .name_of
        .iter()
        .map(|name| name.filter(has_arrow))
        .collect()
}

/// A neighbour touches one arrow block only, a barrier two or more; else nothing yet.
fn undecided_kind(size: Size, arrow_block_of: &[Option<usize>], cell: usize) -> Option<Kind> {
    let mut touched: Vec<usize> = size
        .neighbours(cell)
        .filter_map(|beside| arrow_block_of[beside])
        .collect();
    touched.sort();
    touched.dedup();
    match touched[..] {
        [] => None,
        [block] => Some(Kind::Neighbour(block)),
        _ => Some(Kind::Barrier),
    }
}
