//! Leaves turned for the page: the exported call, made safe, and where each cell goes.

use crate::host::{written_by, Refusal};

extern "C" {
    fn evolmino_turn(
        record: *const u8,
        record_len: usize,
        k: u32,
        output: *mut u8,
        output_len: usize,
    ) -> i32;
}

/// One of the eight turnings, by its number k, 0 to 7: it flips left and right first if k is 4 or more, then makes k modulo 4
/// quarter turns clockwise.
#[derive(Clone, Copy, Debug, PartialEq, Eq, Hash)]
pub struct Turning {
    flips: bool,
    /// 0 to 3.
    quarters: u32,
}

impl Turning {
    /// The turning of this number, none above 7.
    pub fn new(k: u32) -> Option<Turning> {
        (k < 8).then_some(Turning {
            flips: k >= 4,
            quarters: k % 4,
        })
    }

    /// Its number, 0 to 7.
    pub fn number(self) -> u32 {
        4 * u32::from(self.flips) + self.quarters
    }

    /// The turning that makes this one and then the next.
    pub fn then(self, next: Turning) -> Turning {
        // A flip behind quarter turns is the same as one before them that turn the other way round.
        let made = match next.flips {
            false => self.quarters,
            true => 4 - self.quarters,
        };
        Turning {
            flips: self.flips != next.flips,
            quarters: (made + next.quarters) % 4,
        }
    }

    /// The turning that leads back: this one and then its inverse leave all as it was.
    pub fn inverse(self) -> Turning {
        match self.flips {
            // A turning that flips is its own inverse.
            true => self,
            false => Turning {
                flips: false,
                quarters: (4 - self.quarters) % 4,
            },
        }
    }

    /// The height and width of the turned image of a grid.
    pub fn size(self, height: usize, width: usize) -> (usize, usize) {
        match self.quarters % 2 {
            0 => (height, width),
            _ => (width, height),
        }
    }

    /// Where a cell, (row, column), of a grid of this height and width goes.
    ///
    /// A touch on the turned page goes back by the inverse, on the size of the turned image:
    ///
    /// ```
    /// use evolmino::Turning;
    ///
    /// // A quarter turn clockwise: the upper row of two by three cells becomes the right column of three by two.
    /// let turning = Turning::new(1).unwrap();
    /// assert_eq!(turning.cell(2, 3, (0, 2)), (2, 1));
    /// let (height, width) = turning.size(2, 3);
    /// assert_eq!(turning.inverse().cell(height, width, (2, 1)), (0, 2));
    /// ```
    ///
    /// # Panics
    ///
    /// If the cell is off the grid.
    pub fn cell(
        self,
        height: usize,
        width: usize,
        (row, column): (usize, usize),
    ) -> (usize, usize) {
        assert!(row < height && column < width, "the cell is off the grid");
        let column = match self.flips {
            false => column,
            true => width - 1 - column,
        };
        match self.quarters {
            0 => (row, column),
            1 => (column, height - 1 - row),
            2 => (height - 1 - row, width - 1 - column),
            _ => (width - 1 - column, row),
        }
    }
}

/// The exported call that turns a record, on bytes: a record, the turning's number and an output. It returns the number of bytes
/// that stand in the output's first bytes, which is the record's length; behind them, and where it refuses, the output is unchanged.
///
/// It refuses as [`find_bytes`](crate::find_bytes) what is no record, then [`Refusal::Turning`], then [`Refusal::RecordOutputShort`].
/// It keeps nothing, takes nothing from the heap and up to about 30 kilobytes of stack.
pub fn turn_bytes(record: &[u8], k: u32, output: &mut [u8]) -> Result<usize, Refusal> {
    written_by(evolmino_turn, record, k, output)
}

/// The turned record: its grid, its cells and its arrows, which keep their order. A full board is finished exactly when its turned
/// image, with each value at its turned cell, is.
///
/// ```
/// use evolmino::{Problem, ProblemCell, Record, Turning};
///
/// // A row of three cells with an arrow along it; turned clockwise, the arrow goes down.
/// let across = Problem {
///     cells: vec![vec![ProblemCell::Empty; 3]],
///     arrows: vec![vec![(0, 0), (0, 1), (0, 2)]],
/// };
/// let down = Problem {
///     cells: vec![vec![ProblemCell::Empty]; 3],
///     arrows: vec![vec![(0, 0), (1, 0), (2, 0)]],
/// };
/// let record = Record::new(&across).unwrap();
/// let turning = Turning::new(1).unwrap();
/// let turned = evolmino::turn(record.bytes(), turning).unwrap();
/// assert_eq!(turned, Record::new(&down).unwrap().bytes());
/// // There and back gives the same bytes.
/// assert_eq!(evolmino::turn(&turned, turning.inverse()).unwrap(), record.bytes());
/// ```
pub fn turn(record: &[u8], turning: Turning) -> Result<Vec<u8>, Refusal> {
    let mut output = vec![0; record.len()];
    let count = turn_bytes(record, turning.number(), &mut output)?;
    output.truncate(count);
    Ok(output)
}
