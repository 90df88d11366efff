//! Puzzles that have a finished board, as a setter has them.

use super::boards::Decided;
use super::layout::{Chain, Layout};
use super::puzzles::{puzzle, Arrows};
use super::small::is_finished;
use crate::random::Random;
use crate::reading::board::Cell;
use crate::reading::grid::Size;
use crate::reading::record::{plain, Code, Puzzle};
use crate::reading::Edition;

/// So many percent of the cells of a solved puzzle are black or given.
pub const CODED: usize = 25;

/// So often blocks are tried along an arrow, before it is left out.
const TRIES: usize = 10;

/// A puzzle with usual arrows that has a finished board in edition 1.
pub fn solved(random: &mut Random, size: Size) -> Puzzle {
    solved_leaf(random, size, Edition::ExactlyOne).puzzle
}

/// A puzzle with usual arrows, and a full board of it that is finished in an edition. Of the cells that
/// are empty there some are black, of its squares some are given.
pub fn solved_leaf(random: &mut Random, size: Size, edition: Edition) -> Decided {
    loop {
        let usual = puzzle(random, size, Arrows::Usual);
        let (mut puzzle, cells) = laid_out(random, &usual, edition);
        if puzzle.arrows.is_empty() {
            continue;
        }
        let code = |&cell: &Cell| match (random.percent(CODED), cell) {
            (false, _) => Code::Plain,
            (true, Cell::Square) => Code::Given,
            (true, _) => Code::Black,
        };
        puzzle.codes = cells.iter().map(code).collect();
        return full_leaf(&puzzle, &cells);
    }
}

/// Those of the arrows along which blocks can be laid by the rules, and the board with these blocks.
fn laid_out(random: &mut Random, usual: &Puzzle, edition: Edition) -> (Puzzle, Vec<Cell>) {
    let mut layout = Layout::new(usual);
    let mut puzzle = plain(usual.size.height, usual.size.width, vec![]);
    for arrow in &usual.arrows {
        puzzle.arrows.push(arrow.clone());
        match (0..TRIES).find_map(|_| with_blocks(random, &puzzle, &layout, edition)) {
            Some(longer) => layout = longer,
            None => drop(puzzle.arrows.pop()),
        }
    }
    (puzzle, layout.full())
}

/// Blocks along the last arrow too, each with one square more than the one before it, in edition 2 with
/// up to three more, if the board is finished then.
fn with_blocks(
    random: &mut Random,
    puzzle: &Puzzle,
    layout: &Layout,
    edition: Edition,
) -> Option<Layout> {
    let mut layout = layout.clone();
    let chain = Chain {
        blocks: random.between(2, 3),
        largest_first: 2,
        copies: 100,
        growths: match edition {
            Edition::ExactlyOne => &[1],
            Edition::OneOrMore => &[1, 2, 3],
        },
    };
    layout.chain(random, puzzle.arrows.last()?, &chain);
    let leaf = full_leaf(puzzle, &layout.full());
    is_finished(&leaf, edition).then_some(layout)
}

fn full_leaf(puzzle: &Puzzle, cells: &[Cell]) -> Decided {
    let value = |cell: &Cell| u8::from(*cell == Cell::Square);
    Decided {
        puzzle: puzzle.clone(),
        decisions: cells.iter().map(value).enumerate().collect(),
    }
}

#[cfg(test)]
mod tests {
    use super::*;
    use crate::generate::puzzles::square;
    use crate::reading::board::Board;
    use crate::reading::certain::{certain, Certain};

    #[test]
    fn each_has_a_finished_board() {
        let mut random = Random::new(1);
        for side in [3, 3, 3, 3, 4] {
            let puzzle = solved(&mut random, square(side));
            let board = Board::after(&puzzle, Edition::ExactlyOne, &[]);
            let answer = certain(&board, u64::MAX);
            assert!(matches!(answer.certain, Certain::Cells(_)), "{board:?}");
        }
    }

    #[test]
    fn each_leaf_is_finished_in_its_edition() {
        let mut random = Random::new(1);
        for edition in Edition::BOTH {
            for side in 4..8 {
                let leaf = solved_leaf(&mut random, square(side), edition);
                assert!(is_finished(&leaf, edition), "{leaf:?}");
            }
        }
    }
}
