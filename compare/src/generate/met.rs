//! Boards on which a fence meets the same other arrow block again and again: document 02, §6, wants its cells there
//! once. Random boards have such a block now and then; here one is met from every side, and up to 41 times.

use super::boards::Decided;
use super::drawn::{by_cells, by_rows};
use super::puzzles::square;
use crate::reading::board::Cell;

pub fn met_again() -> Vec<Decided> {
    vec![
        by_two_barriers(),
        by_two_barriers_of_the_earlier_block(),
        from_every_side(),
        at_each_tooth(),
    ]
}

/// Reason 4 (a): two barriers lie between cur's block, cell 2, and the block of cell 7, which is met at each.
fn by_two_barriers() -> Decided {
    let rows = ["#.#?", "..?#"];
    by_rows(&rows, &[&[(0, 0), (0, 1), (0, 2)], &[(1, 3)]])
}

/// Reason 4 (b): the same with the fence of last's block.
fn by_two_barriers_of_the_earlier_block() -> Decided {
    let rows = ["#.#?", "#.?#", "#..."];
    by_rows(&rows, &[&[(0, 2), (0, 1), (0, 0)], &[(1, 3)]])
}

/// Reason 3: the block of 2 by 2 does not fit in the ring of undecided cells about a block in the form of a U. That is
/// met from above, from the left, the right and below, and twice by the cell between its arms. Another on the right, with
/// cells between those of the first, is met from above and below.
fn from_every_side() -> Decided {
    let rows = [
        ".........",
        "#???????.",
        ".?.???.?.",
        ".??#?#??.",
        ".?.#?#.?#",
        ".?.###.?#",
        ".?..?..?.",
        ".???????.",
        ".........",
        "##.......",
        "##.......",
    ];
    let upwards: Vec<(usize, usize)> = (1..=9).rev().map(|row| (row, 0)).collect();
    by_rows(&rows, &[&upwards, &[(5, 4)], &[(4, 8)]])
}

/// Reason 3 on the largest grid: a comb of 420 squares is met above each of its 14 teeth, and from both sides between them.
fn at_each_tooth() -> Decided {
    let cell = |row, column| match (row, column) {
        (1, 0) | (30.., 0..=1) => Cell::Square,
        (1, _) | (2, 4..) => Cell::Undecided,
        (3..=30, 4..) if column % 2 == 1 => Cell::Undecided,
        (3.., 4..) => Cell::Square,
        _ => Cell::Empty,
    };
    let upwards: Vec<(usize, usize)> = (1..=30).rev().map(|row| (row, 0)).collect();
    by_cells(square(32), cell, &[&upwards, &[(31, 31)]])
}

#[cfg(test)]
mod tests {
    use super::{at_each_tooth, by_two_barriers, by_two_barriers_of_the_earlier_block};
    use super::{from_every_side, Decided};
    use crate::reading::board::{Board, Cell};
    use crate::reading::kinds::{Kind, Kinds};
    use crate::reading::reasons::{find_reason, Reason, Which};
    use crate::reading::Edition;

    #[test]
    fn met() {
        let reason = met_in(&by_two_barriers(), 2, &[(7, 2)]);
        assert_eq!(reason.which, Which::FourA);
        assert_eq!(reason.literals, [(0, 1), (2, 1), (1, 0), (7, 1)]);
        let reason = met_in(&by_two_barriers_of_the_earlier_block(), 2, &[(7, 2)]);
        assert_eq!(reason.which, Which::FourB);
        let literals = [(0, 1), (4, 1), (8, 1), (2, 1), (1, 0), (7, 1)];
        assert_eq!(reason.literals, literals);
        let reason = met_in(&from_every_side(), 9, &[(30, 7), (44, 2)]);
        assert_eq!(reason.which, Which::Three);
        let reason = met_in(&at_each_tooth(), 32, &[(100, 41)]);
        assert_eq!(reason.which, Which::Three);
        assert_eq!(reason.literals.len(), 461);
    }

    /// The reason, which ends with the fence of the block with this first cell. That fence meets each other arrow block as
    /// often as is said, once for each side of an undecided cell that touches the reach, and has its cells once.
    fn met_in(board: &Decided, block: usize, others: &[(usize, usize)]) -> Reason {
        let after = Board::after(&board.puzzle, Edition::ExactlyOne, &board.decisions);
        let cells = after.cells();
        let kinds = Kinds::of(&board.puzzle, &cells);
        let size = board.puzzle.size;
        let reach = kinds.reach(block);
        let touching = (0..size.cells()).filter(|&cell| {
            cells[cell] == Cell::Undecided && size.touches(cell, |beside| reach[beside])
        });
        let sides: Vec<usize> = touching.flat_map(|cell| size.neighbours(cell)).collect();
        let fence = kinds.fence(block);
        for &(other, times) in others {
            let meets = |side: &&usize| kinds.kind_of[**side] == Kind::ArrowBlock(other);
            assert_eq!(sides.iter().filter(meets).count(), times);
            for cell in kinds.block_cells(other) {
                assert_eq!(fence.iter().filter(|&&it| it == (cell, 1)).count(), 1);
            }
        }
        let reason = find_reason(after.leaf(), &cells).expect("a reason applies");
        assert!(reason.literals.ends_with(&fence));
        reason
    }
}
