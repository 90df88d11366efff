//! The exported call for blocks, their first cells and their sizes, made safe.

use crate::host::{decided, written, Literal, Refusal};

extern "C" {
    fn evolmino_shades(
        record: *const u8,
        record_len: usize,
        decisions: *const u8,
        decisions_len: usize,
        output: *mut u8,
        output_len: usize,
    ) -> i32;
}

/// The bytes that suffice for the largest grid: 4 × 32 × 32.
const OUTPUT_LIMIT: usize = 4 * 32 * 32;

/// The exported call itself, on bytes: a record, decisions of two bytes each, and an output of 4 × height × width bytes or more. It
/// writes four bytes for each cell in row order, two numbers of 16 bits, most significant first: the first cell of its block and the
/// block's count of squares, or 0 and 0 for a cell that is not square. It returns how many bytes it wrote; behind them, and where it
/// refuses, the output is unchanged.
///
/// It keeps nothing, takes nothing from the heap and up to about 40 kilobytes of stack.
pub fn shades_bytes(record: &[u8], decisions: &[u8], output: &mut [u8]) -> Result<usize, Refusal> {
    written(evolmino_shades, record, decisions, output)
}

/// A block: a largest side-connected set of squares.
#[derive(Clone, Debug, PartialEq, Eq, Hash)]
pub struct Block {
    /// Its first cell in row order, which names it.
    pub first: usize,
    /// How many squares it has.
    pub size: usize,
    /// Its cells, rising.
    pub cells: Vec<usize>,
}

/// The blocks of a board, by rising first cell.
#[derive(Clone, Debug)]
pub struct Blocks {
    /// For each cell the first cell of its block and the block's size, 0 and 0 for a cell that is not square.
    shades: Vec<(usize, usize)>,
    /// The cells before this one have been looked at.
    next: usize,
}

impl Iterator for Blocks {
    type Item = Block;

    fn next(&mut self) -> Option<Block> {
        let mut rest = self.next..self.shades.len();
        let first = rest.find(|&cell| self.shades[cell].0 == cell && self.shades[cell].1 > 0)?;
        self.next = first + 1;
        let shade = self.shades[first];
        let cells = first..self.shades.len();
        Some(Block {
            first,
            size: shade.1,
            cells: cells.filter(|&cell| self.shades[cell] == shade).collect(),
        })
    }
}

/// Opens the record, decides in order and gives the blocks of the board, by rising first cell.
///
/// An index that doesn't fit a decision's ten bits is [`Refusal::Index`].
///
/// ```
/// use evolmino::{Block, Problem, ProblemCell, Record};
///
/// // Two rows of three cells.
/// let problem = Problem {
///     cells: vec![vec![ProblemCell::Empty; 3]; 2],
///     arrows: vec![],
/// };
/// let record = Record::new(&problem).unwrap();
/// let squares = [(5, true), (0, true), (2, true), (4, false)];
/// let blocks: Vec<Block> = evolmino::blocks(record.bytes(), &squares).unwrap().collect();
/// assert_eq!(
///     blocks,
///     [
///         Block { first: 0, size: 1, cells: vec![0] },
///         Block { first: 2, size: 2, cells: vec![2, 5] },
///     ]
/// );
/// ```
pub fn blocks(record: &[u8], decisions: &[Literal]) -> Result<Blocks, Refusal> {
    let mut output = [0; OUTPUT_LIMIT];
    let count = decided(decisions, |bytes| shades_bytes(record, bytes, &mut output))?;
    let shades = output[..count].chunks_exact(4).map(shade).collect();
    Ok(Blocks { shades, next: 0 })
}

/// The two numbers in four bytes.
fn shade(bytes: &[u8]) -> (usize, usize) {
    let number = |at: usize| usize::from(u16::from_be_bytes([bytes[at], bytes[at + 1]]));
    (number(0), number(2))
}
