// Our access to the private parts of the original. This file is included behind the original's
// text, in the same module; `absent.rs` has the same names for when there is no original.

use crate::reading::board::Cell;
use crate::reading::kinds::Kind;
use crate::reading::record::{Code, Puzzle};
use crate::reading::Literal;

/// The original's form of a puzzle.
pub fn problem(puzzle: &Puzzle) -> Problem {
    let width = puzzle.size.width;
    let cell = |code: &Code| match code {
        Code::Plain => ProblemCell::Empty,
        Code::Black => ProblemCell::Black,
        Code::Given => ProblemCell::Square,
    };
    let row = |codes: &[Code]| codes.iter().map(cell).collect();
    let arrow = |cells: &Vec<usize>| cells.iter().map(|&c| (c / width, c % width)).collect();
    Problem {
        cells: puzzle.codes.chunks(width).map(row).collect(),
        arrows: puzzle.arrows.iter().map(arrow).collect(),
    }
}

/// The clauses that `solve_evolmino` adds to its solver, in order.
pub fn clauses(problem: &Problem) -> Vec<Vec<(usize, bool)>> {
    let solved = solve_evolmino(problem);
    assert_eq!(solved, None, "the solver that stands in has no answer");
    cspuz_rs::solver::added()
}

#[derive(Clone)]
pub struct Access {
    constraint: EvolminoConstraint,
}

impl Access {
    /// The constraint as `solve_evolmino` builds it; None where an arrow cell is used twice.
    pub fn new(problem: &Problem) -> Option<Access> {
        let problem = ProblemWithArrowId::new(problem)?;
        Some(Access {
            constraint: EvolminoConstraint {
                board: BoardManager::new(problem.clone()),
                problem: problem.clone(),
            },
        })
    }

    pub fn lazy_propagation(&self) -> bool {
        self.constraint.lazy_propagation()
    }

    pub fn initialize_sat(&mut self, num_inputs: usize) {
        self.constraint.initialize_sat(num_inputs);
    }

    pub fn notify(&mut self, index: usize, value: bool) {
        self.constraint.notify(index, value);
    }

    pub fn undo(&mut self) {
        self.constraint.undo();
    }

    pub fn find_inconsistency(&mut self) -> Option<Vec<(usize, bool)>> {
        self.constraint.find_inconsistency()
    }

    pub fn cells(&self) -> Vec<Cell> {
        let board = &self.constraint.board;
        let cell = |index: usize| match board.cells[(index / board.width, index % board.width)] {
            BoardCell::Empty => Cell::Empty,
            BoardCell::Square => Cell::Square,
            BoardCell::Undecided => Cell::Undecided,
        };
        (0..board.height * board.width).map(cell).collect()
    }

    pub fn simple(&self) -> Simple {
        Simple(self.constraint.board.compute_board_info_simple())
    }

    /// Panics where a block has two arrow cells: `find_inconsistency` never comes here then.
    pub fn detailed(&self, simple: &Simple) -> Detailed {
        Detailed(self.constraint.board.compute_board_info_detailed(&simple.0))
    }

    /// The kind of each cell. The original has one kind for empty cells and barriers.
    pub fn kinds(&self, detailed: &Detailed) -> Vec<Kind> {
        let board = &self.constraint.board;
        let info = &detailed.0;
        let first = |group: &[(usize, usize)]| board.cell_id(group[0].0, group[0].1);
        let mut kinds = Vec::new();
        for y in 0..board.height {
            for x in 0..board.width {
                let (kind, id) = info.cell_info[(y, x)];
                let is_empty = board.cells[(y, x)] == BoardCell::Empty;
                kinds.push(match kind {
                    DetailedCellKind::Empty if is_empty => Kind::Empty,
                    DetailedCellKind::Empty => Kind::Barrier,
                    DetailedCellKind::ArrowBlock => Kind::ArrowBlock(first(&info.arrow_blocks[id])),
                    DetailedCellKind::ArrowBlockNeighbor => {
                        Kind::Neighbour(first(&info.arrow_blocks[id]))
                    }
                    DetailedCellKind::Floating => Kind::Floating(first(&info.floatings[id])),
                });
            }
        }
        kinds
    }

    /// The cells of each arrow block, in the original's order.
    pub fn arrow_blocks(&self, detailed: &Detailed) -> Vec<Vec<usize>> {
        self.cell_ids(detailed.0.arrow_blocks.iter().map(Vec::as_slice))
    }

    /// The reach of the arrow block with that number, put together from the original's lists as
    /// its tests of a pair do.
    pub fn reach(&self, detailed: &Detailed, block_id: usize) -> Vec<bool> {
        let board = &self.constraint.board;
        let info = &detailed.0;
        let mut cells = info.arrow_blocks[block_id].clone();
        for &(y, x) in &info.arrow_block_neighbors[block_id] {
            cells.push((y, x));
            foreach_neighbor(y, x, board.height, board.width, |y2, x2| {
                let (kind, id) = info.cell_info[(y2, x2)];
                if kind == DetailedCellKind::Floating {
                    cells.extend(&info.floatings[id]);
                }
            });
        }
        let mut reach = vec![false; board.height * board.width];
        for (y, x) in cells {
            reach[board.cell_id(y, x)] = true;
        }
        reach
    }

    /// The fence of the arrow block with that number.
    pub fn fence(&self, detailed: &Detailed, block_id: usize) -> Vec<Literal> {
        let board = &self.constraint.board;
        let fence = board.reason_for_adjacent_floating_boundary(&detailed.0, block_id);
        fence
            .into_iter()
            .map(|(index, value)| (index, u8::from(value)))
            .collect()
    }

    pub fn blocks(&self, simple: &Simple) -> Vec<Vec<usize>> {
        self.groups(&simple.0.blocks)
    }

    pub fn potential_blocks(&self, simple: &Simple) -> Vec<Vec<usize>> {
        self.groups(&simple.0.potential_blocks)
    }

    fn groups(&self, groups: &GroupInfo) -> Vec<Vec<usize>> {
        self.cell_ids((0..groups.num_groups()).map(|id| &groups[id]))
    }

    fn cell_ids<'a>(&self, groups: impl Iterator<Item = &'a [(usize, usize)]>) -> Vec<Vec<usize>> {
        let cell_id = |&(y, x): &(usize, usize)| self.constraint.board.cell_id(y, x);
        groups
            .map(|group| group.iter().map(cell_id).collect())
            .collect()
    }
}

pub struct Simple(BoardInfoSimple);

pub struct Detailed(BoardInfoDetailed);
