//! "Finished", with document 02 §1: two squares or more on every arrow; §7: in an edition; and §12: with
//! sizes.

use super::board::{Board, Cell};
use super::groups::block_rules_hold;
use super::record::Code;

/// Every cell is decided, black cells are empty, given squares are square, the block rules of the
/// board's leaf hold, and two squares or more stand on every arrow.
pub fn finished(board: &Board) -> bool {
    let puzzle = board.puzzle();
    let cells = board.cells();
    let kept = |(&code, &cell): (&Code, &Cell)| match code {
        Code::Plain => true,
        Code::Black => cell == Cell::Empty,
        Code::Given => cell == Cell::Square,
    };
    let two_squares = |arrow: &Vec<usize>| {
        let squares = arrow.iter().filter(|&&cell| cells[cell] == Cell::Square);
        squares.count() >= 2
    };
    !cells.contains(&Cell::Undecided)
        && puzzle.codes.iter().zip(&cells).all(kept)
        && block_rules_hold(board.leaf(), &cells)
        && puzzle.arrows.iter().all(two_squares)
}
