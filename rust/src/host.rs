//! The exported calls, made safe.

use std::fmt;

extern "C" {
    fn evolmino_find(
        record: *const u8,
        record_len: usize,
        decisions: *const u8,
        decisions_len: usize,
        output: *mut u8,
        output_len: usize,
    ) -> i32;

    fn evolmino_finished(
        record: *const u8,
        record_len: usize,
        decisions: *const u8,
        decisions_len: usize,
    ) -> i32;
}

/// A cell's index, row × width + column, with its value: `true` for a square, `false` for empty.
pub type Literal = (usize, bool);

/// The literals that suffice for a reason on the largest grid.
pub(crate) const LITERALS: usize = 3 * 32 * 32 + 1;

/// The bytes that suffice for them.
pub(crate) const OUTPUT_LIMIT: usize = 2 * LITERALS;

/// Why there is no answer, by its number in README. [`Refusal::Board`], [`Refusal::Value`], [`Refusal::NothingDecided`] and
/// [`Refusal::Player`] are given of a [`Board`](crate::Board) alone: the calls that take a record open a board of their own, a decision in bytes has one
/// bit of value, nothing is undone, and they find as player 0. [`Refusal::Edition`] is given of a setter's file, of a
/// [`Leaf`](crate::Leaf) and where a board is opened, and [`Refusal::Sizes`] of the last two: the other calls are for edition 1 and leaves without sizes,
/// or for both editions. Those from [`Refusal::CertificateLength`] on are of a
/// [`Certificate`](crate::Certificate).
///
/// The table grows, so a `match` needs an arm for the refusals that it doesn't name.
#[derive(Clone, Copy, Debug, PartialEq, Eq, Hash)]
#[non_exhaustive]
pub enum Refusal {
    /// 1: the record ends inside a field, or before one that is due.
    RecordEnds,
    /// 2: cell code 3.
    CellCode,
    /// 3: an arrow's start or step is off the grid.
    OffGrid,
    /// 4: an arrow cell is used twice.
    UsedTwice,
    /// 5: a filler bit is not zero, or a byte follows it; in a setter's or player's file a filler bit of the record alone.
    Filler,
    /// 6: a board that no list of calls could leave.
    Board,
    /// 7: a decision's index is not below height × width.
    Index,
    /// 8: a decision's value is above 1.
    Value,
    /// 9: the cell is decided already.
    Decided,
    /// 10: nothing to undo.
    NothingDecided,
    /// 11: the output is too short for the longest answer about a board of this size.
    OutputShort,
    /// 12: a decision's five bits are not zero, or the list of decisions has an odd last byte.
    Decision,
    /// 13: the output is too short for the whole clause sheet.
    SheetShort,
    /// 14: the number of a turning is above 7.
    Turning,
    /// 15: the output is shorter than the record that is to be written.
    RecordOutputShort,
    /// 16: an edition that is not 1 or 2.
    Edition,
    /// 17: a player above 3.
    Player,
    /// 18: the two records that are to be joined are not of equal height.
    UnequalHeights,
    /// 19: the joined leaf would be wider than 32.
    TooWide,
    /// 20: what stands behind a file's record is too short or too long for its grade and solution, or its filler is not zero.
    Tail,
    /// 21: the solution of a setter's file is not finished in the edition.
    Unfinished,
    /// 22: the list of sizes ends inside a range, or one of its ranges starts at 0, is upside down, sits off an arrow or doesn't rise
    /// above the cell before it.
    Sizes,
    /// 23: the certificate is not whole words of three bytes, or has more than 2^23 of them.
    CertificateLength,
    /// 24: the certificate doesn't begin with the step of a claimed solution.
    NoSolutionStep,
    /// 25: the claimed solution is not finished in the edition and with the sizes.
    SolutionUnfinished,
    /// 26: a step of the certificate is not whole.
    StepCut,
    /// 27: a step's clause has more literals than the leaf has cells, or a word that is no literal of the leaf.
    NotALiteral,
    /// 28: a step's hint is not the place of an earlier step, decides no cell, or is false before the last hint.
    Hint,
    /// 29: a step doesn't close: no clash, no reason, and no arrow that is short of two cells that may be square.
    NotClosed,
    /// 30: the certificate ends without the step of no literals, or something follows it.
    CertificateEnd,
    /// Another number: the linked library has refusals that this package doesn't know.
    Unknown(u32),
}

impl Refusal {
    /// The refusal of this number, [`Refusal::Unknown`] where the table has none.
    pub fn from_number(number: u32) -> Refusal {
        match number {
            1 => Refusal::RecordEnds,
            2 => Refusal::CellCode,
            3 => Refusal::OffGrid,
            4 => Refusal::UsedTwice,
            5 => Refusal::Filler,
            6 => Refusal::Board,
            7 => Refusal::Index,
            8 => Refusal::Value,
            9 => Refusal::Decided,
            10 => Refusal::NothingDecided,
            11 => Refusal::OutputShort,
            12 => Refusal::Decision,
            13 => Refusal::SheetShort,
            14 => Refusal::Turning,
            15 => Refusal::RecordOutputShort,
            16 => Refusal::Edition,
            17 => Refusal::Player,
            18 => Refusal::UnequalHeights,
            19 => Refusal::TooWide,
            20 => Refusal::Tail,
            21 => Refusal::Unfinished,
            22 => Refusal::Sizes,
            23 => Refusal::CertificateLength,
            24 => Refusal::NoSolutionStep,
            25 => Refusal::SolutionUnfinished,
            26 => Refusal::StepCut,
            27 => Refusal::NotALiteral,
            28 => Refusal::Hint,
            29 => Refusal::NotClosed,
            30 => Refusal::CertificateEnd,
            _ => Refusal::Unknown(number),
        }
    }

    /// The number in README.
    pub fn number(self) -> u32 {
        match self {
            Refusal::RecordEnds => 1,
            Refusal::CellCode => 2,
            Refusal::OffGrid => 3,
            Refusal::UsedTwice => 4,
            Refusal::Filler => 5,
            Refusal::Board => 6,
            Refusal::Index => 7,
            Refusal::Value => 8,
            Refusal::Decided => 9,
            Refusal::NothingDecided => 10,
            Refusal::OutputShort => 11,
            Refusal::Decision => 12,
            Refusal::SheetShort => 13,
            Refusal::Turning => 14,
            Refusal::RecordOutputShort => 15,
            Refusal::Edition => 16,
            Refusal::Player => 17,
            Refusal::UnequalHeights => 18,
            Refusal::TooWide => 19,
            Refusal::Tail => 20,
            Refusal::Unfinished => 21,
            Refusal::Sizes => 22,
            Refusal::CertificateLength => 23,
            Refusal::NoSolutionStep => 24,
            Refusal::SolutionUnfinished => 25,
            Refusal::StepCut => 26,
            Refusal::NotALiteral => 27,
            Refusal::Hint => 28,
            Refusal::NotClosed => 29,
            Refusal::CertificateEnd => 30,
            Refusal::Unknown(number) => number,
        }
    }
}

impl fmt::Display for Refusal {
    fn fmt(&self, f: &mut fmt::Formatter<'_>) -> fmt::Result {
        let what = match self {
            Refusal::RecordEnds => "the record ends inside a field, or before one that is due",
            Refusal::CellCode => "cell code 3",
            Refusal::OffGrid => "an arrow's start or step is off the grid",
            Refusal::UsedTwice => "an arrow cell is used twice",
            Refusal::Filler => "a filler bit is not zero, or a byte follows it",
            Refusal::Board => "a board that no list of calls could leave",
            Refusal::Index => "a decision's index is off the grid",
            Refusal::Value => "a decision's value is above 1",
            Refusal::Decided => "the cell is decided already",
            Refusal::NothingDecided => "nothing to undo",
            Refusal::OutputShort => "the output is too short",
            Refusal::Decision => {
                "a decision's five bits are not zero, or a single byte is left over"
            }
            Refusal::SheetShort => "the output is too short for the whole clause sheet",
            Refusal::Turning => "the number of a turning is above 7",
            Refusal::RecordOutputShort => {
                "the output is shorter than the record that is to be written"
            }
            Refusal::Edition => "the edition is not 1 or 2",
            Refusal::Player => "the player is above 3",
            Refusal::UnequalHeights => "the two records are not of equal height",
            Refusal::TooWide => "the joined leaf would be wider than 32",
            Refusal::Tail => "what stands behind the file's record is not as long as it must be, or its filler is not zero",
            Refusal::Unfinished => "the file's solution is not finished in this edition",
            Refusal::Sizes => {
                "the sizes end inside a range, or one starts at 0, is upside down, sits off an arrow or doesn't rise above the cell before it"
            }
            Refusal::CertificateLength => "the certificate is not whole words, or has too many",
            Refusal::NoSolutionStep => "the certificate doesn't begin with the step of a claimed solution",
            Refusal::SolutionUnfinished => "the claimed solution is not finished",
            Refusal::StepCut => "a step of the certificate is not whole",
            Refusal::NotALiteral => "a step's clause is too long, or a word of it is no literal of the leaf",
            Refusal::Hint => "a step's hint is not the place of an earlier step, decides no cell, or is false before the last one",
            Refusal::NotClosed => "a step doesn't close",
            Refusal::CertificateEnd => "the certificate ends without the step of no literals, or something follows it",
            Refusal::Unknown(_) => "this package doesn't know why",
        };
        write!(f, "refused {}: {}", self.number(), what)
    }
}

impl std::error::Error for Refusal {}

/// The exported call itself, on bytes: a record, decisions of two bytes each, and an output. It returns the number of literals that
/// stand in the output's first bytes, two bytes each, 0 for none; behind them, and where it refuses, the output is unchanged.
///
/// It keeps nothing, takes nothing from the heap and up to about 105 kilobytes of stack.
pub fn find_bytes(record: &[u8], decisions: &[u8], output: &mut [u8]) -> Result<usize, Refusal> {
    written(evolmino_find, record, decisions, output)
}

/// One of the archive's calls for two slices of bytes, as a record and decisions are, and an output. It reads the first two, writes
/// only the third, and keeps none of them.
pub(crate) type Writing =
    unsafe extern "C" fn(*const u8, usize, *const u8, usize, *mut u8, usize) -> i32;

/// What such a call returns.
pub(crate) fn written(
    call: Writing,
    first: &[u8],
    second: &[u8],
    output: &mut [u8],
) -> Result<usize, Refusal> {
    // Safe: each pointer comes from a slice and goes with its length.
    let answer = unsafe {
        call(
            first.as_ptr(),
            first.len(),
            second.as_ptr(),
            second.len(),
            output.as_mut_ptr(),
            output.len(),
        )
    };
    counted(answer)
}

/// One of the archive's calls for one slice of bytes and an output. It reads the first, writes only the second, and keeps neither.
pub(crate) type WritingFromOne = unsafe extern "C" fn(*const u8, usize, *mut u8, usize) -> i32;

/// What such a call returns.
pub(crate) fn written_from_one(
    call: WritingFromOne,
    bytes: &[u8],
    output: &mut [u8],
) -> Result<usize, Refusal> {
    // Safe: each pointer comes from a slice and goes with its length.
    let answer = unsafe {
        call(
            bytes.as_ptr(),
            bytes.len(),
            output.as_mut_ptr(),
            output.len(),
        )
    };
    counted(answer)
}

/// One that takes a number between them, as that of a turning or an edition.
pub(crate) type WritingBy = unsafe extern "C" fn(*const u8, usize, u32, *mut u8, usize) -> i32;

/// What such a call returns.
pub(crate) fn written_by(
    call: WritingBy,
    bytes: &[u8],
    number: u32,
    output: &mut [u8],
) -> Result<usize, Refusal> {
    // Safe: each pointer comes from a slice and goes with its length.
    let answer = unsafe {
        call(
            bytes.as_ptr(),
            bytes.len(),
            number,
            output.as_mut_ptr(),
            output.len(),
        )
    };
    counted(answer)
}

/// What an exported call returned: its number, or the negated number of a refusal.
pub(crate) fn counted(answer: i32) -> Result<usize, Refusal> {
    usize::try_from(answer).map_err(|_| Refusal::from_number(answer.unsigned_abs()))
}

/// Opens the record, decides in order and finds: why no board that agrees with the decisions can be finished, or `None`.
///
/// Each literal of a reason is one of the decisions; one may stand twice. An index that doesn't fit a decision's ten bits is
/// [`Refusal::Index`].
pub fn find(record: &[u8], decisions: &[Literal]) -> Result<Option<Vec<Literal>>, Refusal> {
    let mut output = [0; OUTPUT_LIMIT];
    let count = decided(decisions, |bytes| find_bytes(record, bytes, &mut output))?;
    Ok(literals(&output, count))
}

/// The exported call that tells whether a leaf is finished, on bytes: a record, and decisions of two bytes each.
///
/// It keeps nothing, takes nothing from the heap and up to about 45 kilobytes of stack.
pub fn finished_bytes(record: &[u8], decisions: &[u8]) -> Result<bool, Refusal> {
    // Safe: each pointer comes from a slice and goes with its length; the call reads both and keeps neither.
    let answer = unsafe {
        evolmino_finished(
            record.as_ptr(),
            record.len(),
            decisions.as_ptr(),
            decisions.len(),
        )
    };
    Ok(counted(answer)? != 0)
}

/// Opens the record, decides in order and tells whether the leaf is finished: every cell is decided, black cells are empty, given
/// squares are square, the block rules hold, and two squares or more stand on every arrow.
///
/// An index that doesn't fit a decision's ten bits is [`Refusal::Index`].
///
/// ```
/// use evolmino::{Problem, ProblemCell, Record};
///
/// // A row of five cells with an arrow along its first four.
/// let problem = Problem {
///     cells: vec![vec![ProblemCell::Empty; 5]],
///     arrows: vec![(0..4).map(|x| (0, x)).collect()],
/// };
/// let record = Record::new(&problem).unwrap();
/// let leaf = |squares: &[usize]| -> Vec<_> {
///     (0..5).map(|cell| (cell, squares.contains(&cell))).collect()
/// };
/// // A block of one square, then a block of two.
/// assert_eq!(evolmino::finished(record.bytes(), &leaf(&[0, 3, 4])), Ok(true));
/// // No block at all: there is no reason against it, but the arrow passes no two blocks.
/// assert_eq!(evolmino::finished(record.bytes(), &leaf(&[])), Ok(false));
/// ```
pub fn finished(record: &[u8], decisions: &[Literal]) -> Result<bool, Refusal> {
    decided(decisions, |bytes| finished_bytes(record, bytes))
}

/// What a call says of decisions, which it takes as bytes. One whose index has more than ten bits can't be among them: it is
/// refused as the call would refuse it, after all that come before it.
pub(crate) fn decided<T>(
    decisions: &[Literal],
    call: impl FnOnce(&[u8]) -> Result<T, Refusal>,
) -> Result<T, Refusal> {
    let fit: Vec<[u8; 2]> = decisions.iter().map_while(|&d| encode(d)).collect();
    let answer = call(&fit.concat())?;
    if fit.len() < decisions.len() {
        return Err(Refusal::Index);
    }
    Ok(answer)
}

/// The first `count` literals of an output, `None` where there are none.
pub(crate) fn literals(output: &[u8], count: usize) -> Option<Vec<Literal>> {
    if count == 0 {
        return None;
    }
    Some(output[..2 * count].chunks_exact(2).map(decode).collect())
}

/// A decision as two bytes: value (1 bit), five zero bits, index (10); nothing where the index has more bits.
pub(crate) fn encode((index, value): Literal) -> Option<[u8; 2]> {
    if index >= 1 << 10 {
        return None;
    }
    Some(((value as u16) << 15 | index as u16).to_be_bytes())
}

/// The literal in two bytes.
pub(crate) fn decode(pair: &[u8]) -> Literal {
    literal(u16::from_be_bytes([pair[0], pair[1]]))
}

/// The literal in a number of 16 bits, value × 32,768 + index.
pub(crate) fn literal(word: u16) -> Literal {
    (usize::from(word % 32_768), word >= 32_768)
}

#[cfg(test)]
mod tests {
    use super::{counted, Refusal};

    #[test]
    fn what_is_returned() {
        assert_eq!(counted(0), Ok(0));
        assert_eq!(counted(3073), Ok(3073));
        assert_eq!(counted(-12), Err(Refusal::Decision));
        assert_eq!(counted(-100), Err(Refusal::Unknown(100)));
        assert_eq!(counted(i32::MIN), Err(Refusal::Unknown(1 << 31)));
    }
}
