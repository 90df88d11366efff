//! Cells, rows and columns; the four neighbours; signed moves.

/// Row and column offsets of up, down, left and right: the neighbours in this order, and the
/// steps 0 to 3 of an arrow.
pub const OFFSETS: [(i32, i32); 4] = [(-1, 0), (1, 0), (0, -1), (0, 1)];

#[derive(Clone, Copy, Debug, PartialEq, Eq)]
pub struct Size {
    pub height: usize,
    pub width: usize,
}

impl Size {
    pub fn cells(self) -> usize {
        self.height * self.width
    }

    pub fn row(self, cell: usize) -> usize {
        cell / self.width
    }

    pub fn column(self, cell: usize) -> usize {
        cell % self.width
    }

    /// The cell at a row and column, if they are on the grid.
    pub fn at(self, row: i32, column: i32) -> Option<usize> {
        let on_grid =
            0 <= row && row < self.height as i32 && 0 <= column && column < self.width as i32;
        on_grid.then(|| row as usize * self.width + column as usize)
    }

    /// The cell that a signed row and column offset leads to, if it is on the grid.
    pub fn moved(self, cell: usize, (down, right): (i32, i32)) -> Option<usize> {
        self.at(
            self.row(cell) as i32 + down,
            self.column(cell) as i32 + right,
        )
    }

    pub fn neighbours(self, cell: usize) -> impl Iterator<Item = usize> {
        OFFSETS
            .into_iter()
            .filter_map(move |offset| self.moved(cell, offset))
    }

    /// Whether a cell shares a side with some cell that passes the test.
    pub fn touches(self, cell: usize, test: impl Fn(usize) -> bool) -> bool {
        self.neighbours(cell).any(test)
    }
}
