//! Boards drawn by hand, decided by rising index.

use super::boards::Decided;
use crate::reading::board::Cell;
use crate::reading::grid::Size;
use crate::reading::record::plain;

/// Cells by row and column, plain ones, and arrows likewise.
pub fn by_cells(
    size: Size,
    cell: impl Fn(usize, usize) -> Cell,
    arrows: &[&[(usize, usize)]],
) -> Decided {
    let index = |&(row, column): &(usize, usize)| row * size.width + column;
    let arrow = |cells: &&[(usize, usize)]| cells.iter().map(index).collect();
    let value = |index: usize| match cell(size.row(index), size.column(index)) {
        Cell::Empty => Some((index, 0)),
        Cell::Square => Some((index, 1)),
        Cell::Undecided => None,
    };
    Decided {
        puzzle: plain(size.height, size.width, arrows.iter().map(arrow).collect()),
        decisions: (0..size.cells()).filter_map(value).collect(),
    }
}

/// The same from rows of text: `#` is a square, `.` an empty cell, `?` an undecided one.
pub fn by_rows(rows: &[&str], arrows: &[&[(usize, usize)]]) -> Decided {
    let size = Size {
        height: rows.len(),
        width: rows[0].len(),
    };
    let cell = |row: usize, column: usize| match rows[row].as_bytes()[column] {
        b'#' => Cell::Square,
        b'.' => Cell::Empty,
        b'?' => Cell::Undecided,
        other => unreachable!("{other} in a drawing"),
    };
    by_cells(size, cell, arrows)
}
