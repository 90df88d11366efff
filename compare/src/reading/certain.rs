//! "Cells that are certain", document 02 §8: what holds in every finished board that agrees with the
//! standing decisions, by a search that is prescribed step by step.

use super::board::{Board, Cell};
use super::finished::finished;
use super::host::decide_all;
use super::leaf::Opening;
use super::reasons::find_reason;
use super::Refusal;

/// What is told of a cell.
#[derive(Clone, Copy, Debug, PartialEq, Eq)]
pub enum Fact {
    /// Empty in every finished board that agrees with the standing decisions.
    Empty = 0,
    /// Square in every one.
    Square = 1,
    Open = 2,
}

#[derive(Clone, Debug, PartialEq, Eq)]
pub enum Certain {
    /// For each cell in row order.
    Cells(Vec<Fact>),
    NoBoard,
    Spent,
}

/// The answer with the number of steps.
#[derive(Clone, Debug, PartialEq, Eq)]
pub struct Answer {
    pub certain: Certain,
    pub steps: u64,
}

/// Spent, with a count equal to the budget, exactly when the search has more steps than the budget.
pub fn certain(board: &Board, budget: u64) -> Answer {
    let mut search = Search::within(budget);
    // the board is unchanged: the search has one of its own
    match search.reach(&mut board.clone()) {
        Err(Exhausted) => Answer {
            certain: Certain::Spent,
            steps: budget,
        },
        Ok(()) => Answer {
            certain: facts(&search.boards).map_or(Certain::NoBoard, Certain::Cells),
            steps: search.steps,
        },
    }
}

/// The search has more steps than the budget: what it would find then is not asked for.
struct Exhausted;

struct Search {
    budget: u64,
    steps: u64,
    /// The finished boards reached, in order.
    boards: Vec<Vec<Cell>>,
}

impl Search {
    fn within(budget: u64) -> Search {
        Search {
            budget,
            steps: 0,
            boards: Vec::new(),
        }
    }

    /// Calls find once on this board, which is one step. It turns back on a reason; else it tries the
    /// lowest undecided cell, square, then empty; a full board counts if it is finished.
    fn reach(&mut self, board: &mut Board) -> Result<(), Exhausted> {
        if self.steps == self.budget {
            return Err(Exhausted);
        }
        self.steps += 1;
        let cells = board.cells();
        // not the board's find: it doesn't count as a hint
        if find_reason(board.leaf(), &cells).is_some() {
            return Ok(());
        }
        match cells.iter().position(|&cell| cell == Cell::Undecided) {
            None => {
                if finished(board) {
                    self.boards.push(cells);
                }
            }
            Some(lowest) => {
                for value in [1, 0] {
                    board.decide(lowest, value).expect("it is undecided");
                    self.reach(board)?;
                    board.undo().expect("it was decided");
                }
            }
        }
        Ok(())
    }
}

/// For each cell what holds in every one of these boards; none where there is no board.
pub fn facts(boards: &[Vec<Cell>]) -> Option<Vec<Fact>> {
    let fact = |cell: usize| {
        let every = |state: Cell| boards.iter().all(|board| board[cell] == state);
        match (every(Cell::Square), every(Cell::Empty)) {
            (true, _) => Fact::Square,
            (_, true) => Fact::Empty,
            _ => Fact::Open,
        }
    };
    let first = boards.first()?;
    Some((0..first.len()).map(fact).collect())
}

/// Opens, decides in order and searches.
/// Refusals in the host call's order: 1 to 5, 11 for an output below 8 + H × W bytes, then per
/// decision 12, 7, 9, the odd byte last.
pub fn opened_and_searched(
    record: &[u8],
    decisions: &[u8],
    budget: u64,
    output_length: usize,
) -> Result<Answer, Refusal> {
    searched_with(Opening::of(record), decisions, budget, output_length)
}

/// The same in an edition and with sizes: 16 and 22 come behind 1 to 5.
pub fn searched_with(
    opening: Opening,
    decisions: &[u8],
    budget: u64,
    output_length: usize,
) -> Result<Answer, Refusal> {
    let mut board = Board::fresh(opening.leaf()?);
    if output_length < 8 + board.puzzle().size.cells() {
        return Err(Refusal::OutputShort);
    }
    decide_all(&mut board, decisions)?;
    Ok(certain(&board, budget))
}

impl Answer {
    /// The number that the call returns.
    pub fn number(&self) -> i32 {
        match self.certain {
            Certain::Cells(_) => 0,
            Certain::NoBoard => 1,
            Certain::Spent => 2,
        }
    }

    /// The bytes that it writes: the steps, most significant first, and where cells are told one byte
    /// for each.
    pub fn bytes(&self) -> Vec<u8> {
        let steps = (0..8).rev().map(|place| (self.steps >> (8 * place)) as u8);
        let cells = match &self.certain {
            Certain::Cells(facts) => &facts[..],
            _ => &[],
        };
        steps.chain(cells.iter().map(|&fact| fact as u8)).collect()
    }
}

#[cfg(test)]
mod tests {
    use super::*;
    use crate::reading::record::{encode, plain, Code, Puzzle};
    use crate::reading::{Edition, Literal};
    use Fact::{Empty, Open, Square};

    const S: [u8; 7] = [0x00, 0x80, 0x08, 0x00, 0x00, 0x05, 0xE0];

    fn searched(puzzle: &Puzzle, decisions: &[Literal], budget: u64) -> Answer {
        certain(
            &Board::after(puzzle, Edition::ExactlyOne, decisions),
            budget,
        )
    }

    fn told(facts: &[Fact], steps: u64) -> Answer {
        Answer {
            certain: Certain::Cells(facts.to_vec()),
            steps,
        }
    }

    /// One row of five cells, an arrow along the first four.
    fn row() -> Puzzle {
        plain(1, 5, vec![vec![0, 1, 2, 3]])
    }

    #[test]
    fn without_an_arrow() {
        // each cell: square, which has a reason against it, then empty
        for width in 1..=32 {
            let answer = searched(&plain(1, width, vec![]), &[], u64::MAX);
            assert_eq!(answer, told(&vec![Empty; width], 2 * width as u64 + 1));
        }
    }

    /// Worked out by hand: find gives none on the fresh board, on 1??, 10?, 100, 0??, 01?, 010, 00?,
    /// 001 and 000, and a reason on 11?, 101 and 011.
    #[test]
    fn strip() {
        let s = plain(1, 3, vec![vec![0, 1, 2]]);
        let none = Answer {
            certain: Certain::NoBoard,
            steps: 13,
        };
        assert_eq!(searched(&s, &[], 13), none);
        assert_eq!(searched(&s, &[], u64::MAX), none);
        for budget in 0..13 {
            let spent = Answer {
                certain: Certain::Spent,
                steps: budget,
            };
            assert_eq!(searched(&s, &[], budget), spent);
        }
    }

    #[test]
    fn square_empty_and_open() {
        let facts = [Open, Open, Empty, Square, Square];
        assert_eq!(searched(&row(), &[], 1_000), told(&facts, 37));
        let facts = [Square, Empty, Empty, Square, Square];
        assert_eq!(searched(&row(), &[(0, 1)], 1_000), told(&facts, 13));
    }

    #[test]
    fn black_and_given_cells_do_not_bind_the_search() {
        let mut coded = row();
        coded.codes[0] = Code::Black;
        coded.codes[4] = Code::Given;
        let facts = [Empty, Square, Empty, Square, Square];
        assert_eq!(searched(&coded, &[], 1_000), told(&facts, 37));
        let first = [(0, 0), (4, 1)];
        assert_eq!(searched(&coded, &first, 1_000), told(&facts, 13));
    }

    #[test]
    fn refusals_in_order() {
        let refused = |record: &[u8], decisions: &[u8], output| {
            opened_and_searched(record, decisions, 0, output).expect_err("it is refused")
        };
        assert_eq!(refused(&S[..6], &[1], 0), Refusal::RecordEnds);
        assert_eq!(refused(&S, &[1], 10), Refusal::OutputShort);
        assert_eq!(refused(&S, &[0x04, 0, 1], 11), Refusal::Decision);
        assert_eq!(refused(&S, &[0, 3], 11), Refusal::Index);
        assert_eq!(refused(&S, &[0, 0, 128, 0, 1], 11), Refusal::Decided);
        assert_eq!(refused(&S, &[128, 0, 1], 11), Refusal::Decision);
    }

    #[test]
    fn what_is_written() {
        let answer = opened_and_searched(&encode(&row()), &[], 37, 13).expect("it is not refused");
        assert_eq!(answer.number(), 0);
        assert_eq!(answer.bytes(), [0, 0, 0, 0, 0, 0, 0, 37, 2, 2, 0, 1, 1]);
        let spent = Answer {
            certain: Certain::Spent,
            steps: 0x0102_0304_0506_0708,
        };
        assert_eq!(spent.number(), 2);
        assert_eq!(spent.bytes(), [1, 2, 3, 4, 5, 6, 7, 8]);
    }
}
