//! A leaf in an edition and with sizes: a builder, and the exported calls that take both, made safe. The calls on a board that is opened from it are
//! in `board`.

use crate::board::Board;
use crate::certain::{asked, given_first, Certain};
use crate::constraint::Constraint;
use crate::host::{decided, literals, Literal, Refusal, OUTPUT_LIMIT};
use crate::record::number_of_cells;
use crate::shades::{self, Blocks};
use std::borrow::Cow;

extern "C" {
    fn evolmino_find_with(
        record: *const u8,
        record_len: usize,
        edition: u32,
        sizes: *const u8,
        sizes_len: usize,
        decisions: *const u8,
        decisions_len: usize,
        output: *mut u8,
        output_len: usize,
    ) -> i32;

    fn evolmino_finished_with(
        record: *const u8,
        record_len: usize,
        edition: u32,
        sizes: *const u8,
        sizes_len: usize,
        decisions: *const u8,
        decisions_len: usize,
    ) -> i32;

    fn evolmino_certain_with(
        record: *const u8,
        record_len: usize,
        edition: u32,
        sizes: *const u8,
        sizes_len: usize,
        decisions: *const u8,
        decisions_len: usize,
        budget: u64,
        output: *mut u8,
        output_len: usize,
    ) -> i32;
}

/// What an exported call says of a leaf, `call(bytes, number; output)`: it takes the leaf's record, edition and sizes, then bytes that it
/// reads, a number where it asks for one, and behind `;` the bytes that it writes, where it writes some.
macro_rules! of_leaf {
    ($leaf:expr, $call:ident($bytes:ident $(, $number:ident)? $(; $output:ident)?)) => {{
        let (record, edition, sizes) = $leaf.parts();
        // Safe: each pointer comes from a slice and goes with its length; the call reads the first three, writes only the output, and
        // keeps none of them.
        let answer = unsafe {
            $call(
                record.as_ptr(),
                record.len(),
                edition,
                sizes.as_ptr(),
                sizes.len(),
                $bytes.as_ptr(),
                $bytes.len(),
                $($number,)?
                $($output.as_mut_ptr(), $output.len(),)?
            )
        };
        $crate::host::counted(answer)
    }};
}
pub(crate) use of_leaf;

/// An arrow cell's index with the lowest and the highest size of its block, ends included: printed beside the cell, and asked for where it
/// is square.
pub type Size = (usize, u16, u16);

/// What is played: a record, in an edition and with sizes. It is built from the record, in edition 1 and without sizes, and tested where it
/// is asked: every call refuses what is no record ([`Refusal::RecordEnds`] to [`Refusal::Filler`]), then [`Refusal::Edition`], then
/// [`Refusal::Sizes`], and then what the function without an edition refuses. In edition 1 and without sizes each says what that
/// function says.
///
/// In edition 2 a block may have one square more than the one before it on the arrow, or several.
///
/// The clauses of [`clauses`](crate::clauses()) are those of the leaf in either edition and with any sizes: both are the block rules',
/// which [`Leaf::find`] has the reasons of.
///
/// ```
/// use evolmino::{Leaf, Problem, ProblemCell, Record, Refusal};
///
/// // A row of six cells with an arrow along its first four.
/// let problem = Problem {
///     cells: vec![vec![ProblemCell::Empty; 6]],
///     arrows: vec![(0..4).map(|x| (0, x)).collect()],
/// };
/// let record = Record::new(&problem).unwrap();
/// let leaf = Leaf::new(record.bytes()).edition(2);
/// // A block of one square, and one of three.
/// let full: Vec<_> = [true, false, false, true, true, true].into_iter().enumerate().collect();
/// assert_eq!(leaf.finished(&full), Ok(true));
/// // Beside cell 3 stands "1 to 2": the block is too large.
/// let themed = leaf.clone().sizes(&[(3, 1, 2)]);
/// assert_eq!(themed.finished(&full), Ok(false));
/// let block = vec![(3, true), (4, true), (5, true)];
/// assert_eq!(themed.find(&full), Ok(Some(block)));
/// // Beside cell 3 stands "4 to 9", and there is no room for that.
/// let wide = leaf.clone().sizes(&[(3, 4, 9)]);
/// let square = [(3, true), (2, false)];
/// assert_eq!(wide.find(&square), Ok(Some(vec![(3, true), (2, false)])));
/// // Cell 4 is on no arrow.
/// assert_eq!(leaf.sizes(&[(4, 1, 2)]).finished(&full), Err(Refusal::Sizes));
/// ```
///
/// Of the stack the exported call of [`Leaf::certain`] takes up to about 270 kilobytes, those of [`Leaf::find`] and [`Leaf::unique`] 120 and 105, and any other 55.
#[derive(Clone, Debug, PartialEq, Eq, Hash)]
pub struct Leaf<'a> {
    record: Cow<'a, [u8]>,
    edition: u32,
    /// As the exported calls take them.
    sizes: Cow<'a, [u8]>,
}

impl<'a> Leaf<'a> {
    /// The leaf of a record, in edition 1 and without sizes.
    pub fn new(record: &'a [u8]) -> Leaf<'a> {
        Leaf {
            record: Cow::Borrowed(record),
            edition: 1,
            sizes: Cow::Borrowed(&[]),
        }
    }

    /// The same leaf in another edition, 1 or 2. Any other is refused when the leaf is asked.
    pub fn edition(self, edition: u32) -> Leaf<'a> {
        Leaf { edition, ..self }
    }

    /// The same leaf with these sizes in the place of those that it had. Their cells are on arrows and rise, each range is the right way up
    /// and starts above 0; any other list is refused when the leaf is asked.
    pub fn sizes(self, sizes: &[Size]) -> Leaf<'a> {
        Leaf {
            sizes: sizes.iter().flat_map(range).collect(),
            ..self
        }
    }

    /// The same for sizes as the exported calls take them: for each range cell, lowest and highest, 16 bits each, most significant first.
    pub fn sizes_bytes(self, sizes: &'a [u8]) -> Leaf<'a> {
        Leaf {
            sizes: Cow::Borrowed(sizes),
            ..self
        }
    }

    /// The same leaf with a record and sizes of its own, for as long as it is wanted.
    pub fn into_owned(self) -> Leaf<'static> {
        Leaf {
            record: Cow::Owned(self.record.into_owned()),
            edition: self.edition,
            sizes: Cow::Owned(self.sizes.into_owned()),
        }
    }

    /// What the exported calls take of it: the record, the edition and the sizes.
    pub(crate) fn parts(&self) -> (&[u8], u32, &[u8]) {
        (&self.record, self.edition, &self.sizes)
    }

    /// Whether the leaf can be opened: the record's refusals, then [`Refusal::Edition`], then [`Refusal::Sizes`].
    pub fn accepted(&self) -> Result<(), Refusal> {
        // With no decisions nothing else is refused.
        self.finished_bytes(&[]).map(|_| ())
    }

    /// As [`find`](crate::find), on this leaf. Sizes add two reasons behind the others: by rising cell, for a sized cell that is square, the
    /// cell and what shuts its block in, where that can't reach the lowest size; otherwise the block, where it is larger than the highest.
    pub fn find(&self, decisions: &[Literal]) -> Result<Option<Vec<Literal>>, Refusal> {
        let mut output = [0; OUTPUT_LIMIT];
        let count = decided(decisions, |bytes| self.find_bytes(bytes, &mut output))?;
        Ok(literals(&output, count))
    }

    /// The exported call itself, on bytes; output and answer are those of [`find_bytes`](crate::find_bytes).
    ///
    /// It keeps nothing and takes nothing from the heap.
    pub fn find_bytes(&self, decisions: &[u8], output: &mut [u8]) -> Result<usize, Refusal> {
        of_leaf!(self, evolmino_find_with(decisions; output))
    }

    /// As [`finished`](crate::finished), on this leaf: the block rules are those of its edition, and each sized cell that is square is in a
    /// block of a size in its range.
    pub fn finished(&self, decisions: &[Literal]) -> Result<bool, Refusal> {
        decided(decisions, |bytes| self.finished_bytes(bytes))
    }

    /// The exported call itself, on bytes.
    ///
    /// It keeps nothing and takes nothing from the heap.
    pub fn finished_bytes(&self, decisions: &[u8]) -> Result<bool, Refusal> {
        of_leaf!(self, evolmino_finished_with(decisions)).map(|answer| answer != 0)
    }

    /// As [`certain`](crate::certain()), on this leaf: its find, and its finished boards.
    ///
    /// ```
    /// use evolmino::{Certain, Fact, Leaf, Problem, ProblemCell, Record};
    ///
    /// // A row of six cells with an arrow along its first four: in edition 2 a block of two or of three may follow.
    /// let problem = Problem {
    ///     cells: vec![vec![ProblemCell::Empty; 6]],
    ///     arrows: vec![(0..4).map(|x| (0, x)).collect()],
    /// };
    /// let record = Record::new(&problem).unwrap();
    /// let leaf = Leaf::new(record.bytes()).edition(2);
    /// let last_cell = |leaf: &Leaf| match leaf.certain(&[], 1_000).unwrap() {
    ///     Certain::Cells { cells, .. } => cells[5],
    ///     other => panic!("{other:?}"),
    /// };
    /// assert_eq!(last_cell(&leaf), Fact::Open);
    /// assert_eq!(last_cell(&leaf.clone().sizes(&[(3, 1, 2)])), Fact::Empty);
    /// assert_eq!(last_cell(&leaf.sizes(&[(3, 3, 3)])), Fact::Square);
    /// ```
    pub fn certain(&self, decisions: &[Literal], budget: u64) -> Result<Certain, Refusal> {
        asked(&self.record, decisions, budget, |bytes, budget, output| {
            self.certain_bytes(bytes, budget, output)
        })
    }

    /// As [`certain_given_first`](crate::certain_given_first), on this leaf.
    pub fn certain_given_first(
        &self,
        decisions: &[Literal],
        budget: u64,
    ) -> Result<Certain, Refusal> {
        self.certain(&given_first(&self.record, decisions), budget)
    }

    /// The exported call itself, on bytes; output and answer are those of [`certain_bytes`](crate::certain_bytes).
    ///
    /// It keeps nothing and takes nothing from the heap.
    pub fn certain_bytes(
        &self,
        decisions: &[u8],
        budget: u64,
        output: &mut [u8],
    ) -> Result<usize, Refusal> {
        of_leaf!(self, evolmino_certain_with(decisions, budget; output))
    }

    /// As [`blocks`](crate::blocks), on this leaf. The blocks of a board are the same in every edition and with any sizes; but a leaf that
    /// the other calls refuse is refused here too, by the same number.
    pub fn blocks(&self, decisions: &[Literal]) -> Result<Blocks, Refusal> {
        self.accepted()?;
        shades::blocks(&self.record, decisions)
    }

    /// As [`shades_bytes`](crate::shades_bytes), on this leaf, with the refusals of [`Leaf::blocks`]. So that
    /// [`Refusal::OutputShort`] and those of the decisions come behind [`Refusal::Sizes`], the leaf is opened twice.
    pub fn shades_bytes(&self, decisions: &[u8], output: &mut [u8]) -> Result<usize, Refusal> {
        self.accepted()?;
        shades::shades_bytes(&self.record, decisions, output)
    }

    /// A constraint for this leaf with nothing decided, or why the leaf can't be opened.
    ///
    /// ```
    /// use evolmino::{Leaf, Problem, ProblemCell, Record};
    ///
    /// // A row of five cells with an arrow along its first four.
    /// let problem = Problem {
    ///     cells: vec![vec![ProblemCell::Empty; 5]],
    ///     arrows: vec![(0..4).map(|x| (0, x)).collect()],
    /// };
    /// let record = Record::new(&problem).unwrap();
    /// let leaf = Leaf::new(record.bytes()).edition(2).sizes(&[(0, 2, 3)]);
    /// let mut constraint = leaf.constraint().unwrap();
    /// constraint.initialize_sat(5);
    /// constraint.notify(0, true);
    /// assert_eq!(constraint.find_inconsistency(), None);
    /// // No second square can join the first.
    /// constraint.notify(1, false);
    /// assert_eq!(constraint.find_inconsistency(), Some(vec![(0, true), (1, false)]));
    /// ```
    pub fn constraint(&self) -> Result<Constraint, Refusal> {
        self.accepted()?;
        let cells = number_of_cells(&self.record);
        Ok(Constraint::of_leaf(self.clone().into_owned(), cells))
    }

    /// A fresh board of this leaf, for a game, or why the leaf can't be opened.
    ///
    /// ```
    /// use evolmino::{Leaf, Problem, ProblemCell, Record};
    ///
    /// // A row of five cells with an arrow along its first four.
    /// let problem = Problem {
    ///     cells: vec![vec![ProblemCell::Empty; 5]],
    ///     arrows: vec![(0..4).map(|x| (0, x)).collect()],
    /// };
    /// let record = Record::new(&problem).unwrap();
    /// let leaf = Leaf::new(record.bytes()).edition(2).sizes(&[(0, 2, 3)]);
    /// let mut board = leaf.board().unwrap();
    /// // The block of cell 0 can't have two squares.
    /// board.decide(0, true).unwrap();
    /// board.decide(1, false).unwrap();
    /// assert_eq!(board.find(3), Ok(Some(vec![(0, true), (1, false)])));
    /// ```
    pub fn board(&self) -> Result<Board, Refusal> {
        let whole = self.sizes.chunks_exact(2);
        let left_over = !whole.remainder().is_empty();
        let mut words: Vec<u16> = whole
            .map(|two| u16::from_be_bytes([two[0], two[1]]))
            .collect();
        // A byte that is left over is of a range that the list ends inside.
        if left_over && words.len().is_multiple_of(3) {
            words.push(0);
        }
        Board::open_words(&self.record, self.edition, &words)
    }
}

/// Cell, lowest and highest as bytes. A cell that has no 16 bits is on no arrow, and neither is the last one that has them.
fn range(&(cell, lowest, highest): &Size) -> Vec<u8> {
    let cell = u16::try_from(cell).unwrap_or(u16::MAX);
    [cell, lowest, highest].map(u16::to_be_bytes).concat()
}
