//! "Blocks of about this size", document 02 §12: a lowest and a highest size beside some arrow cells.

use super::board::Cell;
use super::groups::blocks;
use super::record::Puzzle;
use super::Refusal;

/// The lowest and the highest size of the block of an arrow cell, ends included.
#[derive(Clone, Copy, Debug, PartialEq, Eq)]
pub struct Range {
    pub cell: usize,
    pub lowest: usize,
    pub highest: usize,
}

/// A list of 16-bit numbers: cell, lowest and highest for each range, cells rising. Refused are a list
/// that ends inside a range, and a range that starts at 0, is upside down, sits off an arrow or doesn't
/// rise above the cell before it.
pub fn ranges(puzzle: &Puzzle, numbers: &[u16]) -> Result<Vec<Range>, Refusal> {
    let on_arrow = puzzle.arrow_cells();
    let mut ranges: Vec<Range> = Vec::new();
    for three in numbers.chunks(3) {
        let [cell, lowest, highest] = three else {
            return Err(Refusal::Sizes);
        };
        let range = Range {
            cell: usize::from(*cell),
            lowest: usize::from(*lowest),
            highest: usize::from(*highest),
        };
        let starts_at_0 = range.lowest == 0;
        let upside_down = range.lowest > range.highest;
        // a cell off the grid is on no arrow
        let off_arrow = !on_arrow.get(range.cell).copied().unwrap_or(false);
        let rises = ranges.last().is_none_or(|last| last.cell < range.cell);
        if starts_at_0 || upside_down || off_arrow || !rises {
            return Err(Refusal::Sizes);
        }
        ranges.push(range);
    }
    Ok(ranges)
}

/// The numbers in bytes, most significant first. A byte that is left over is of a range that the list
/// ends inside.
pub fn numbers(bytes: &[u8]) -> (Vec<u16>, bool) {
    let whole = bytes.chunks_exact(2);
    let left_over = !whole.remainder().is_empty();
    let number = |two: &[u8]| 256 * u16::from(two[0]) + u16::from(two[1]);
    (whole.map(number).collect(), left_over)
}

/// For a fully decided board: where a sized cell is square, its block's size lies in the range.
pub fn sizes_hold(puzzle: &Puzzle, sizes: &[Range], cells: &[Cell]) -> bool {
    let blocks = blocks(puzzle.size, cells);
    sizes.iter().all(|range| match blocks.name_of[range.cell] {
        None => true,
        Some(name) => {
            let size = blocks.cells(name).len();
            range.lowest <= size && size <= range.highest
        }
    })
}

#[cfg(test)]
mod tests {
    use super::*;
    use crate::reading::record::plain;

    fn range(cell: usize, lowest: usize, highest: usize) -> Range {
        Range {
            cell,
            lowest,
            highest,
        }
    }

    #[test]
    fn lists() {
        // two rows of three cells, an arrow along the upper one
        let puzzle = plain(2, 3, vec![vec![0, 1, 2]]);
        let read = |numbers: &[u16]| ranges(&puzzle, numbers);
        assert_eq!(read(&[]), Ok(vec![]));
        assert_eq!(read(&[2, 1, 1]), Ok(vec![range(2, 1, 1)]));
        let largest = [0, 65_535, 65_535];
        assert_eq!(read(&largest), Ok(vec![range(0, 65_535, 65_535)]));
        let two = [0, 1, 3, 2, 2, 4];
        assert_eq!(read(&two), Ok(vec![range(0, 1, 3), range(2, 2, 4)]));
        let refused: [&[u16]; 12] = [
            &[0],
            &[0, 1],
            &[0, 1, 3, 2],
            &[0, 1, 3, 2, 2],
            &[0, 0, 5],
            &[0, 0, 0],
            &[0, 3, 2],
            &[3, 1, 1],
            &[6, 1, 1],
            &[65_535, 1, 1],
            &[2, 1, 1, 0, 1, 1],
            &[1, 1, 1, 1, 1, 1],
        ];
        for numbers in refused {
            assert_eq!(read(numbers), Err(Refusal::Sizes), "{numbers:?}");
        }
    }

    #[test]
    fn bytes_of_numbers() {
        assert_eq!(numbers(&[]), (vec![], false));
        assert_eq!(numbers(&[1, 2, 255, 0]), (vec![258, 65_280], false));
        assert_eq!(numbers(&[0, 1, 2]), (vec![1], true));
    }
}
