//! "Shading by size", document 02 §4: each block with its first cell and its count of squares.

use super::board::{Board, Cell};
use super::grid::Size;
use super::groups::blocks;
use super::host::decide_all;
use super::Refusal;

/// For each cell in row order the first cell of its block and how many squares the block has; 0 and
/// 0 for a cell that is not square.
pub fn shades(size: Size, cells: &[Cell]) -> Vec<(usize, usize)> {
    let blocks = blocks(size, cells);
    let mut shades = vec![(0, 0); size.cells()];
    for &first in &blocks.names {
        let block = blocks.cells(first);
        for &cell in &block {
            shades[cell] = (first, block.len());
        }
    }
    shades
}

/// Four bytes for each cell: its two numbers, 16 bits each, most significant first.
pub fn shade_bytes(shades: &[(usize, usize)]) -> Vec<u8> {
    let numbers = shades.iter().flat_map(|&(first, count)| [first, count]);
    numbers
        .flat_map(|number| [(number / 256) as u8, (number % 256) as u8])
        .collect()
}

/// Opens, decides in order and gives the bytes of the shades.
/// Refusals in the host call's order: 1 to 5, 11 for an output below 4 × H × W bytes, then per
/// decision 12, 7, 9, the odd byte last.
pub fn opened_and_shaded(
    record: &[u8],
    decisions: &[u8],
    output_length: usize,
) -> Result<Vec<u8>, Refusal> {
    let mut board = Board::open(record, 1, &[])?;
    let size = board.puzzle().size;
    if output_length < 4 * size.cells() {
        return Err(Refusal::OutputShort);
    }
    decide_all(&mut board, decisions)?;
    Ok(shade_bytes(&shades(size, &board.cells())))
}

#[cfg(test)]
mod tests {
    use super::*;
    use crate::reading::record::plain;
    use crate::reading::Edition;

    #[test]
    fn two_blocks() {
        // 1 1 0
        // ? 1 1
        // 1 0 1
        let squares = [
            (0, 1),
            (1, 1),
            (2, 0),
            (4, 1),
            (5, 1),
            (6, 1),
            (7, 0),
            (8, 1),
        ];
        let board = Board::after(&plain(3, 3, vec![]), Edition::ExactlyOne, &squares);
        let shades = shades(board.puzzle().size, &board.cells());
        let (large, small) = ((0, 5), (6, 1));
        let none = (0, 0);
        assert_eq!(
            shades,
            [large, large, none, none, large, large, small, none, large]
        );
    }

    #[test]
    fn bytes_of_large_numbers() {
        assert_eq!(
            shade_bytes(&[(1023, 256), (0, 1024)]),
            [3, 255, 1, 0, 0, 0, 4, 0]
        );
    }

    #[test]
    fn refusals_in_order() {
        let s = [0x00, 0x80, 0x08, 0x00, 0x00, 0x05, 0xE0];
        assert_eq!(
            opened_and_shaded(&s[..6], &[1], 0),
            Err(Refusal::RecordEnds)
        );
        assert_eq!(opened_and_shaded(&s, &[1], 11), Err(Refusal::OutputShort));
        assert_eq!(
            opened_and_shaded(&s, &[0x04, 0], 12),
            Err(Refusal::Decision)
        );
        assert_eq!(opened_and_shaded(&s, &[0, 3], 12), Err(Refusal::Index));
        assert_eq!(
            opened_and_shaded(&s, &[0, 0, 128, 0, 1], 12),
            Err(Refusal::Decided)
        );
        assert_eq!(
            opened_and_shaded(&s, &[128, 0, 1], 12),
            Err(Refusal::Decision)
        );
        let bytes = vec![0, 0, 0, 1, 0, 0, 0, 0, 0, 0, 0, 0];
        assert_eq!(opened_and_shaded(&s, &[128, 0], 12), Ok(bytes));
    }
}
