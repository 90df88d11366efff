//! "Board": the plain machine of document 01, a puzzle with its list of standing decisions; and
//! beside it the counts of hints of document 02, §2 and §9, the edition of §7 and the sizes of §12.

use super::leaf::Leaf;
use super::record::Puzzle;
use super::{Edition, Literal, Refusal};

#[derive(Clone, Copy, Debug, PartialEq, Eq)]
pub enum Cell {
    Empty,
    Square,
    Undecided,
}

/// A count of hints for each player, 0 to 3.
pub type Hints = [u16; 4];

#[derive(Clone, Debug)]
pub struct Board {
    leaf: Leaf,
    standing: Vec<Literal>,
    /// The accepted find calls since open, of each player.
    hints: Hints,
}

impl Board {
    /// A fresh board: all undecided. The record's refusals come before that of the edition, and that
    /// before the sizes'.
    pub fn open(record: &[u8], edition: u32, sizes: &[u16]) -> Result<Board, Refusal> {
        Ok(Board::fresh(Leaf::open(record, edition, sizes)?))
    }

    pub fn fresh(leaf: Leaf) -> Board {
        Board {
            leaf,
            standing: Vec::new(),
            hints: [0; 4],
        }
    }

    /// A board of a leaf without sizes with nothing decided that was handed in with these counts of
    /// hints. There are no counts that a board can't have.
    pub fn with_hints(puzzle: Puzzle, edition: Edition, hints: Hints) -> Board {
        Board::handed_in(Leaf::unsized_in(edition, &puzzle), hints)
    }

    /// The same of any leaf.
    pub fn handed_in(leaf: Leaf, hints: Hints) -> Board {
        Board {
            hints,
            ..Board::fresh(leaf)
        }
    }

    /// A fresh board of a leaf without sizes after decisions that aren't refused.
    pub fn after(puzzle: &Puzzle, edition: Edition, decisions: &[Literal]) -> Board {
        Board::of_leaf(&Leaf::unsized_in(edition, puzzle), decisions)
    }

    /// A fresh board after decisions that aren't refused.
    pub fn of_leaf(leaf: &Leaf, decisions: &[Literal]) -> Board {
        let mut board = Board::fresh(leaf.clone());
        for &(index, value) in decisions {
            board
                .decide(index, value)
                .expect("decisions are of different cells");
        }
        board
    }

    pub fn leaf(&self) -> &Leaf {
        &self.leaf
    }

    pub fn puzzle(&self) -> &Puzzle {
        &self.leaf.puzzle
    }

    pub fn edition(&self) -> Edition {
        self.leaf.edition
    }

    pub fn decide(&mut self, index: usize, value: u8) -> Result<(), Refusal> {
        if index >= self.puzzle().size.cells() {
            return Err(Refusal::Index);
        }
        if value > 1 {
            return Err(Refusal::Value);
        }
        if self.standing.iter().any(|&(decided, _)| decided == index) {
            return Err(Refusal::Decided);
        }
        self.standing.push((index, value));
        Ok(())
    }

    pub fn undo(&mut self) -> Result<(), Refusal> {
        match self.standing.pop() {
            Some(_) => Ok(()),
            None => Err(Refusal::NothingDecided),
        }
    }

    /// The standing decisions, in order.
    pub fn standing(&self) -> &[Literal] {
        &self.standing
    }

    /// The board is handed in with other counts of hints.
    pub fn hand_in(&mut self, hints: Hints) {
        self.hints = hints;
    }

    pub fn hints(&self) -> Hints {
        self.hints
    }

    /// Counts an accepted find of a player, 0 to 3; at 65,535 that player's count stops rising.
    pub fn count_hint(&mut self, player: u8) {
        let count = &mut self.hints[usize::from(player)];
        *count = count.saturating_add(1);
    }

    pub fn cells(&self) -> Vec<Cell> {
        let mut cells = vec![Cell::Undecided; self.puzzle().size.cells()];
        for &(index, value) in &self.standing {
            cells[index] = if value == 1 {
                Cell::Square
            } else {
                Cell::Empty
            };
        }
        cells
    }
}
