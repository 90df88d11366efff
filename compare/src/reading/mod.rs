//! A literal reading of document 01, one module for each of its sections and in their order, of the
//! requests of document 02, and of the certificates of README.
//!
//! It is written from the documents, not from the original, and for the reader: where the document
//! says "each" there is a loop, and nothing is clever.

pub mod board;
pub mod certain;
pub mod certificate;
pub mod clauses;
pub mod file;
pub mod finished;
pub mod grid;
pub mod groups;
pub mod host;
pub mod join;
pub mod kinds;
pub mod leaf;
pub mod lent;
pub mod program;
pub mod reasons;
pub mod record;
pub mod shades;
pub mod sizes;
pub mod turn;

#[cfg(test)]
mod leaves;

/// What is returned when no result can be, by the numbers of the documents and under the names of
/// `../rust`.
///
/// A `Board` of this reading is made by `open` and changed by calls alone: 6, a board that no list of calls
/// could leave, is said in `lent`, of memory that the caller lends.
#[derive(Clone, Copy, Debug, PartialEq, Eq)]
pub enum Refusal {
    RecordEnds = 1,
    CellCode = 2,
    OffGrid = 3,
    UsedTwice = 4,
    Filler = 5,
    Board = 6,
    Index = 7,
    Value = 8,
    Decided = 9,
    NothingDecided = 10,
    OutputShort = 11,
    Decision = 12,
    SheetShort = 13,
    Turning = 14,
    RecordOutputShort = 15,
    Edition = 16,
    Player = 17,
    UnequalHeights = 18,
    TooWide = 19,
    Tail = 20,
    Unfinished = 21,
    Sizes = 22,
    CertificateLength = 23,
    NoSolutionStep = 24,
    SolutionUnfinished = 25,
    StepCut = 26,
    NotALiteral = 27,
    Hint = 28,
    NotClosed = 29,
    CertificateEnd = 30,
}

impl Refusal {
    pub fn number(self) -> u8 {
        self as u8
    }
}

/// What the later of two blocks adds to the earlier one (document 02 §7): exactly one square, or one
/// or more.
#[derive(Clone, Copy, Debug, PartialEq, Eq)]
pub enum Edition {
    ExactlyOne = 1,
    OneOrMore = 2,
}

impl Edition {
    pub const BOTH: [Edition; 2] = [Edition::ExactlyOne, Edition::OneOrMore];

    /// 1 or 2; another number is refused.
    pub fn numbered(number: u32) -> Result<Edition, Refusal> {
        match number {
            1 => Ok(Edition::ExactlyOne),
            2 => Ok(Edition::OneOrMore),
            _ => Err(Refusal::Edition),
        }
    }

    pub fn number(self) -> u8 {
        self as u8
    }
}

/// An index with a value, 0 or 1: a standing decision, or a literal of a reason.
pub type Literal = (usize, u8);
