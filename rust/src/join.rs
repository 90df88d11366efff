//! Two puzzles on one leaf: the exported call, made safe.

use crate::host::{written, Refusal};

extern "C" {
    fn evolmino_join(
        left: *const u8,
        left_len: usize,
        right: *const u8,
        right_len: usize,
        output: *mut u8,
        output_len: usize,
    ) -> i32;
}

/// The bytes of the longest record.
const RECORD_LIMIT: usize = 2_819;

/// The exported call that joins two records, on bytes: the left one, the right one and an output. It returns the number of bytes of
/// the joined record, which stand in the output's first bytes; behind them, and where it refuses, the output is unchanged. No
/// record has more than 2,819 bytes.
///
/// It refuses as [`find_bytes`](crate::find_bytes) what is no record, the left one and then the right one; then
/// [`Refusal::UnequalHeights`], [`Refusal::TooWide`], and last [`Refusal::RecordOutputShort`]. See [`join`] for which of the two
/// records a refusal is of. It keeps nothing, takes nothing from the heap and up to about 40 kilobytes of stack.
pub fn join_bytes(left: &[u8], right: &[u8], output: &mut [u8]) -> Result<usize, Refusal> {
    written(evolmino_join, left, right, output)
}

/// The record of two puzzles of equal height on one leaf: the left grid, a column of black cells, the right grid; the left's arrows
/// and then the right's. A cell of the left one keeps its row and column; one of the right one keeps its row, and its column moves on
/// by the left's width and 1. A full board is finished exactly when the column is empty and each half is finished on its own.
///
/// [`Refusal::RecordEnds`] to [`Refusal::Filler`] are of the left record or of the right one, and the number doesn't tell which: the
/// left one is looked at first, so it is of the left one exactly where the left one is refused by itself, as by
/// [`finished(left, &[])`](crate::finished).
///
/// ```
/// use evolmino::{Problem, ProblemCell, Record, Refusal};
///
/// // A row of three cells with an arrow along it, beside a row of two cells.
/// let strip = Problem {
///     cells: vec![vec![ProblemCell::Empty; 3]],
///     arrows: vec![vec![(0, 0), (0, 1), (0, 2)]],
/// };
/// let pair = Problem {
///     cells: vec![vec![ProblemCell::Empty; 2]],
///     arrows: vec![],
/// };
/// let mut both = strip.clone();
/// both.cells[0].push(ProblemCell::Black);
/// both.cells[0].extend(&pair.cells[0]);
/// let record = |problem: &Problem| Record::new(problem).unwrap().bytes().to_vec();
/// let joined = evolmino::join(&record(&strip), &record(&pair)).unwrap();
/// assert_eq!(joined, record(&both));
/// // A joined leaf can be joined again, as long as it is at most 32 cells wide.
/// let four_times = (0..4).try_fold(joined.clone(), |leaf, _| evolmino::join(&leaf, &joined));
/// assert_eq!(four_times, Err(Refusal::TooWide));
/// ```
pub fn join(left: &[u8], right: &[u8]) -> Result<Vec<u8>, Refusal> {
    let mut output = vec![0; RECORD_LIMIT];
    let count = join_bytes(left, right, &mut output)?;
    output.truncate(count);
    Ok(output)
}
