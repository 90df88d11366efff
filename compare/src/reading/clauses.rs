//! Document 02, §3: the clause sheet of a puzzle.

use super::board::Cell;
use super::host::literal_bytes;
use super::record::{decode, Puzzle};
use super::{Literal, Refusal};

pub type Clause = Vec<Literal>;

const UP: (i32, i32) = (-1, 0);
const LEFT: (i32, i32) = (0, -1);
const DOWN: (i32, i32) = (1, 0);
const RIGHT: (i32, i32) = (0, 1);

/// Four parts, one after another.
pub fn clauses(puzzle: &Puzzle) -> Vec<Clause> {
    let black_and_given = puzzle.black_and_given().into_iter();
    let mut clauses: Vec<Clause> = black_and_given.map(|literal| vec![literal]).collect();
    clauses.extend(touching(puzzle));
    clauses.extend(off_arrow(puzzle));
    clauses.extend(other_squares(puzzle));
    clauses
}

/// Touching arrow cells, the cell below before the cell to the right; the earlier cell in row order,
/// then the later, both 0.
fn touching(puzzle: &Puzzle) -> Vec<Clause> {
    let on_arrow = puzzle.arrow_cells();
    let mut clauses = Vec::new();
    for cell in 0..puzzle.size.cells() {
        for offset in [DOWN, RIGHT] {
            let Some(later) = puzzle.size.moved(cell, offset) else {
                continue;
            };
            if on_arrow[cell] && on_arrow[later] {
                clauses.push(vec![(cell, 0), (later, 0)]);
            }
        }
    }
    clauses
}

/// An off-arrow cell with two of its arrow neighbours, listed up, left, down, right: the second with
/// the first, then the third with the first and second, and so on; later neighbour, cell, earlier
/// neighbour, all 0.
fn off_arrow(puzzle: &Puzzle) -> Vec<Clause> {
    let on_arrow = puzzle.arrow_cells();
    let mut clauses = Vec::new();
    for cell in 0..puzzle.size.cells() {
        if on_arrow[cell] {
            continue;
        }
        let neighbours: Vec<usize> = [UP, LEFT, DOWN, RIGHT]
            .into_iter()
            .filter_map(|offset| puzzle.size.moved(cell, offset))
            .filter(|&neighbour| on_arrow[neighbour])
            .collect();
        for (place, &later) in neighbours.iter().enumerate() {
            for &earlier in &neighbours[..place] {
                clauses.push(vec![(later, 0), (cell, 0), (earlier, 0)]);
            }
        }
    }
    clauses
}

/// For each arrow cell one other square on that arrow: by its cells in arrow order, the other cells in
/// that order, all 1.
fn other_squares(puzzle: &Puzzle) -> Vec<Clause> {
    let mut clauses = Vec::new();
    for arrow in &puzzle.arrows {
        for cell in arrow {
            let others = arrow.iter().filter(|&other| other != cell);
            clauses.push(others.map(|&other| (other, 1)).collect());
        }
    }
    clauses
}

/// Whether some literal of the clause agrees with the cells.
pub fn satisfied(clause: &[Literal], cells: &[Cell]) -> bool {
    clause.iter().any(|&(index, value)| match value {
        0 => cells[index] == Cell::Empty,
        _ => cells[index] == Cell::Square,
    })
}

/// A clause is a 16-bit count, high byte first, and that many literals, laid out as in the host call.
pub fn sheet(clauses: &[Clause]) -> Vec<u8> {
    let mut bytes = Vec::new();
    for clause in clauses {
        bytes.push((clause.len() / 256) as u8);
        bytes.push((clause.len() % 256) as u8);
        bytes.extend(literal_bytes(clause));
    }
    bytes
}

/// The sheet of the record's puzzle, or one of refusals 1 to 5.
pub fn opened_sheet(record: &[u8]) -> Result<Vec<u8>, Refusal> {
    Ok(sheet(&clauses(&decode(record)?)))
}

/// The number of bytes written, or the negated refusal number: 13, after the record's own, where the
/// output is too short for the whole sheet. The bytes behind the sheet are unchanged.
pub fn write_sheet(opened: &Result<Vec<u8>, Refusal>, output: &mut [u8]) -> i32 {
    match opened {
        Err(refusal) => -i32::from(refusal.number()),
        Ok(sheet) if output.len() < sheet.len() => -i32::from(Refusal::SheetShort.number()),
        Ok(sheet) => {
            output[..sheet.len()].copy_from_slice(sheet);
            sheet.len() as i32
        }
    }
}

#[cfg(test)]
mod tests {
    use super::super::record::{encode, plain, Code};
    use super::{clauses, opened_sheet, write_sheet, Clause};

    /// A clause whose literals all have this value.
    fn all(value: u8, cells: &[usize]) -> Clause {
        cells.iter().map(|&cell| (cell, value)).collect()
    }

    #[test]
    fn strip_s_and_pair_t() {
        let strip = plain(1, 3, vec![vec![0, 1, 2]]);
        let touching = [all(0, &[0, 1]), all(0, &[1, 2])];
        let others = [all(1, &[1, 2]), all(1, &[0, 2]), all(1, &[0, 1])];
        assert_eq!(clauses(&strip), [&touching[..], &others].concat());
        assert!(clauses(&plain(1, 2, vec![])).is_empty());
    }

    /// The neighbours of the cell in the middle, 4, are 1, 3, 7, 5: up, left, down, right.
    #[test]
    fn four_parts() {
        let mut puzzle = plain(3, 3, vec![vec![5], vec![1, 2], vec![7], vec![3, 0]]);
        puzzle.codes[8] = Code::Black;
        puzzle.codes[3] = Code::Given;
        let expected = [
            all(1, &[3]),
            all(0, &[8]),
            all(0, &[0, 3]),
            all(0, &[0, 1]),
            all(0, &[1, 2]),
            all(0, &[2, 5]),
            all(0, &[3, 4, 1]),
            all(0, &[7, 4, 1]),
            all(0, &[7, 4, 3]),
            all(0, &[5, 4, 1]),
            all(0, &[5, 4, 3]),
            all(0, &[5, 4, 7]),
            all(0, &[7, 6, 3]),
            all(0, &[7, 8, 5]),
            all(1, &[]),
            all(1, &[2]),
            all(1, &[1]),
            all(1, &[]),
            all(1, &[0]),
            all(1, &[3]),
        ];
        assert_eq!(clauses(&puzzle), expected);
    }

    #[test]
    fn bytes_and_refusals() {
        let mut puzzle = plain(1, 2, vec![vec![1]]);
        puzzle.codes[0] = Code::Given;
        let record = encode(&puzzle);
        let opened = opened_sheet(&record);
        let mut output = [0xAA; 8];
        assert_eq!(write_sheet(&opened, &mut output[..5]), -13);
        assert_eq!(output, [0xAA; 8]);
        assert_eq!(write_sheet(&opened, &mut output[..7]), 6);
        assert_eq!(output, [0, 1, 0x80, 0, 0, 0, 0xAA, 0xAA]);
        let cut = opened_sheet(&record[..record.len() - 1]);
        assert_eq!(write_sheet(&cut, &mut []), -1);
    }
}
