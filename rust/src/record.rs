//! Writing a puzzle as the record that the proved library reads.

use std::fmt;

/// What is printed in a cell, as the original has it.
#[derive(Clone, Copy, Debug, PartialEq, Eq)]
pub enum ProblemCell {
    /// A plain cell.
    Empty,
    /// A black cell.
    Black,
    /// A given square.
    Square,
}

/// A puzzle, as the original has it: rows of cells, and each arrow as its cells, (row, column), from its tail on.
#[derive(Clone, Debug, PartialEq, Eq)]
pub struct Problem {
    pub cells: Vec<Vec<ProblemCell>>,
    pub arrows: Vec<Vec<(usize, usize)>>,
}

/// Why a puzzle has no record.
///
/// It may gain cases, so a `match` needs an arm for those that it doesn't name. None of them but [`RecordError::UsedTwice`] is to be taken
/// for "no solution": see [`Constraint::new`](crate::Constraint::new).
#[derive(Clone, Copy, Debug, PartialEq, Eq)]
#[non_exhaustive]
pub enum RecordError {
    /// The height is not 1 to 32.
    Height(usize),
    /// The width is not 1 to 32.
    Width(usize),
    /// This row has another length than the first.
    Row(usize),
    /// There are more than 2,047 arrows.
    Arrows(usize),
    /// This arrow has no cell.
    NoCell(usize),
    /// A cell of this arrow is off the grid.
    OffGrid(usize),
    /// Two cells of this arrow that follow each other share no side.
    Step(usize),
    /// A cell of this arrow is used before, by it or by an earlier one.
    UsedTwice(usize),
}

impl fmt::Display for RecordError {
    fn fmt(&self, f: &mut fmt::Formatter<'_>) -> fmt::Result {
        match self {
            RecordError::Height(h) => write!(f, "the height {h} is not 1 to 32"),
            RecordError::Width(w) => write!(f, "the width {w} is not 1 to 32"),
            RecordError::Row(y) => write!(f, "row {y} has another length than row 0"),
            RecordError::Arrows(n) => write!(f, "{n} arrows are more than 2,047"),
            RecordError::NoCell(a) => write!(f, "arrow {a} has no cell"),
            RecordError::OffGrid(a) => write!(f, "a cell of arrow {a} is off the grid"),
            RecordError::Step(a) => write!(
                f,
                "two cells of arrow {a} that follow each other share no side"
            ),
            RecordError::UsedTwice(a) => write!(f, "a cell of arrow {a} is used twice"),
        }
    }
}

impl std::error::Error for RecordError {}

/// The record of a puzzle, its fields packed most significant bit first: height − 1 (5 bits), width − 1 (5), number of arrows (11), each
/// cell row by row (2: 0 plain, 1 black, 2 given square); then each arrow: start row (5), start column (5), length − 1 (10) and its steps
/// (2 each: 0 up, 1 down, 2 left, 3 right). Zero bits fill the last byte.
#[derive(Clone, Debug, PartialEq, Eq)]
pub struct Record {
    bytes: Vec<u8>,
    height: usize,
    width: usize,
}

impl Record {
    /// The record of a puzzle, or why there is none. The library accepts every record that this makes.
    pub fn new(problem: &Problem) -> Result<Record, RecordError> {
        let height = problem.cells.len();
        if height == 0 || height > 32 {
            return Err(RecordError::Height(height));
        }
        let width = problem.cells[0].len();
        if width == 0 || width > 32 {
            return Err(RecordError::Width(width));
        }
        if let Some(y) = problem.cells.iter().position(|row| row.len() != width) {
            return Err(RecordError::Row(y));
        }
        if problem.arrows.len() > 2047 {
            return Err(RecordError::Arrows(problem.arrows.len()));
        }
        let mut bits = Bits::default();
        bits.put(height - 1, 5);
        bits.put(width - 1, 5);
        bits.put(problem.arrows.len(), 11);
        for &cell in problem.cells.iter().flatten() {
            bits.put(code(cell), 2);
        }
        let mut used = vec![false; height * width];
        for (number, arrow) in problem.arrows.iter().enumerate() {
            put_arrow(&mut bits, &mut used, height, width, number, arrow)?;
        }
        Ok(Record {
            bytes: bits.bytes,
            height,
            width,
        })
    }

    /// The record's bytes.
    pub fn bytes(&self) -> &[u8] {
        &self.bytes
    }

    /// The number of rows.
    pub fn height(&self) -> usize {
        self.height
    }

    /// The number of columns.
    pub fn width(&self) -> usize {
        self.width
    }
}

fn code(cell: ProblemCell) -> usize {
    match cell {
        ProblemCell::Empty => 0,
        ProblemCell::Black => 1,
        ProblemCell::Square => 2,
    }
}

/// The cells of a record that the library accepts, in row order. Of another one, those before the first that can't be read.
pub(crate) fn cells_of(record: &[u8]) -> Vec<ProblemCell> {
    let cell = |index: usize| match field(record, 21 + 2 * index, 2)? {
        0 => Some(ProblemCell::Empty),
        1 => Some(ProblemCell::Black),
        2 => Some(ProblemCell::Square),
        _ => None,
    };
    (0..number_of_cells(record)).map_while(cell).collect()
}

/// Height × width of a record that the library accepts. Of another one, none where it ends before them.
pub(crate) fn number_of_cells(record: &[u8]) -> usize {
    match (field(record, 0, 5), field(record, 5, 5)) {
        (Some(height), Some(width)) => (height + 1) * (width + 1),
        _ => 0,
    }
}

/// The arrows of a record that the library accepts, each as its cells from the tail on. Of another one, those that can be read.
pub(crate) fn arrows_of(record: &[u8]) -> Vec<Vec<usize>> {
    let width = field(record, 5, 5).map_or(0, |width| width + 1);
    let mut bit = 21 + 2 * number_of_cells(record);
    let arrow = |_| {
        let start = field(record, bit, 5)? * width + field(record, bit + 5, 5)?;
        let steps = field(record, bit + 10, 10)?;
        let mut cells = vec![start];
        for number in 0..steps {
            let cell = cells[number];
            cells.push(match field(record, bit + 20 + 2 * number, 2)? {
                0 => cell.checked_sub(width)?,
                1 => cell + width,
                2 => cell.checked_sub(1)?,
                _ => cell + 1,
            });
        }
        bit += 20 + 2 * steps;
        Some(cells)
    };
    let arrows = field(record, 10, 11).unwrap_or(0);
    (0..arrows).map_while(arrow).collect()
}

/// The field of so many bits that starts at this bit of a record, if it is there.
fn field(record: &[u8], start: usize, bits: usize) -> Option<usize> {
    (start..start + bits).try_fold(0, |value, place| {
        let byte = *record.get(place / 8)?;
        Some(2 * value + usize::from(byte >> (7 - place % 8) & 1))
    })
}

/// An arrow: start row and column, length − 1, and a step for each further cell.
fn put_arrow(
    bits: &mut Bits,
    used: &mut [bool],
    height: usize,
    width: usize,
    number: usize,
    arrow: &[(usize, usize)],
) -> Result<(), RecordError> {
    let &(row, column) = arrow.first().ok_or(RecordError::NoCell(number))?;
    for &(y, x) in arrow {
        if y >= height || x >= width {
            return Err(RecordError::OffGrid(number));
        }
        if std::mem::replace(&mut used[y * width + x], true) {
            return Err(RecordError::UsedTwice(number));
        }
    }
    bits.put(row, 5);
    bits.put(column, 5);
    bits.put(arrow.len() - 1, 10);
    for pair in arrow.windows(2) {
        bits.put(step(pair[0], pair[1]).ok_or(RecordError::Step(number))?, 2);
    }
    Ok(())
}

/// The code of a step between two cells that share a side: 0 up, 1 down, 2 left, 3 right.
fn step((y, x): (usize, usize), to: (usize, usize)) -> Option<usize> {
    if to == (y.wrapping_sub(1), x) {
        Some(0)
    } else if to == (y + 1, x) {
        Some(1)
    } else if to == (y, x.wrapping_sub(1)) {
        Some(2)
    } else if to == (y, x + 1) {
        Some(3)
    } else {
        None
    }
}

/// Bits packed into bytes, most significant first; zero bits fill the last byte.
#[derive(Default)]
pub(crate) struct Bits {
    pub(crate) bytes: Vec<u8>,
    count: usize,
}

impl Bits {
    pub(crate) fn put(&mut self, value: usize, width: usize) {
        for place in (0..width).rev() {
            if self.count == 8 * self.bytes.len() {
                self.bytes.push(0);
            }
            let bit = (value >> place & 1) as u8;
            *self.bytes.last_mut().expect("pushed above") |= bit << (7 - self.count % 8);
            self.count += 1;
        }
    }
}
