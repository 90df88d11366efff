//! Setter's file and player's file: the exported calls, made safe, and a writer of such files.
//!
//! One file holds the record, then from the next byte a grade (3 bits), the solution (one bit a cell, row by row) and zero filler.

use crate::host::{finished_bytes, written_by, written_from_one, Refusal};
use crate::record::{number_of_cells, Bits};
use std::fmt;

extern "C" {
    fn evolmino_setter_file(
        file: *const u8,
        file_len: usize,
        edition: u32,
        output: *mut u8,
        output_len: usize,
    ) -> i32;

    fn evolmino_player_file(
        file: *const u8,
        file_len: usize,
        output: *mut u8,
        output_len: usize,
    ) -> i32;
}

/// The bytes that suffice for the grade and the cells of the largest grid: 1 + 32 × 32.
const OUTPUT_LIMIT: usize = 1 + 32 * 32;

/// The largest grade: it has 3 bits.
const GRADE_LIMIT: u8 = 7;

/// The edition of the rules that a leaf is played in. The file doesn't tell it.
#[derive(Clone, Copy, Debug, PartialEq, Eq, Hash)]
pub enum Edition {
    /// 1: along an arrow a block is the one before it and exactly one square more.
    ExactlyOne,
    /// 2, free growth: the one before it and one square more, or several.
    OneOrMore,
}

impl Edition {
    /// 1 or 2.
    pub fn number(self) -> u32 {
        match self {
            Edition::ExactlyOne => 1,
            Edition::OneOrMore => 2,
        }
    }
}

/// What a setter's reader gives.
#[derive(Clone, Debug, PartialEq, Eq)]
pub struct SetterFile<'a> {
    /// The record: the file's first bytes.
    pub record: &'a [u8],
    /// The grade, 0 to 7.
    pub grade: u8,
    /// The solution, a cell each in row order: `true` for a square, `false` for empty.
    pub solution: Vec<bool>,
}

/// What a player's reader gives, the same for every solution that the file could have.
#[derive(Clone, Copy, Debug, PartialEq, Eq)]
pub struct PlayerFile<'a> {
    /// The record: the file's first bytes.
    pub record: &'a [u8],
    /// The grade, 0 to 7.
    pub grade: u8,
}

/// The exported call for setters, on bytes: a file, the number of an edition, and an output. It returns the record's length in bytes,
/// and writes the grade, one byte, and then one byte for each cell in row order, 1 for a square and 0 for empty; behind them, and where
/// it refuses, the output is unchanged.
///
/// It refuses as [`find_bytes`](crate::find_bytes) what has no record at its front, but a whole byte behind the record is none of
/// [`Refusal::Filler`]; then [`Refusal::OutputShort`] for an output below 1 + height × width bytes, [`Refusal::Tail`],
/// [`Refusal::Edition`], and last [`Refusal::Unfinished`]. It keeps nothing, takes nothing from the heap and up to about 45 kilobytes
/// of stack.
pub fn setter_file_bytes(file: &[u8], edition: u32, output: &mut [u8]) -> Result<usize, Refusal> {
    written_by(evolmino_setter_file, file, edition, output)
}

/// The exported call for players, on bytes: a file and an output. It returns the record's length in bytes, and writes the grade, one
/// byte; behind it, and where it refuses, the output is unchanged. Nothing of the solution reaches number or output.
///
/// It refuses as [`setter_file_bytes`] the record, then [`Refusal::OutputShort`] for an output without a byte, and last
/// [`Refusal::Tail`]. It keeps nothing, takes nothing from the heap and up to about 10 kilobytes of stack.
pub fn player_file_bytes(file: &[u8], output: &mut [u8]) -> Result<usize, Refusal> {
    written_from_one(evolmino_player_file, file, output)
}

/// A setter's file: its record, its grade and its solution, which is finished in that edition.
///
/// ```
/// use evolmino::{Edition, Problem, ProblemCell, Record, Refusal};
///
/// // A row of six cells with an arrow along its first four.
/// let problem = Problem {
///     cells: vec![vec![ProblemCell::Empty; 6]],
///     arrows: vec![(0..4).map(|x| (0, x)).collect()],
/// };
/// let record = Record::new(&problem).unwrap();
/// // A block of one square, and then one of three.
/// let solution = [true, false, false, true, true, true];
/// let file = evolmino::write_file(record.bytes(), 5, &solution).unwrap();
/// let read = evolmino::setter_file(&file, Edition::OneOrMore).unwrap();
/// assert_eq!((read.record, read.grade), (record.bytes(), 5));
/// assert_eq!(read.solution, solution);
/// assert_eq!(evolmino::setter_file(&file, Edition::ExactlyOne), Err(Refusal::Unfinished));
/// ```
pub fn setter_file(file: &[u8], edition: Edition) -> Result<SetterFile<'_>, Refusal> {
    let mut output = [0; OUTPUT_LIMIT];
    let length = setter_file_bytes(file, edition.number(), &mut output)?;
    let record = &file[..length];
    let (grade, cells) = (output[0], &output[1..=number_of_cells(record)]);
    Ok(SetterFile {
        record,
        grade,
        solution: cells.iter().map(|&cell| cell == 1).collect(),
    })
}

/// A player's file: its record and its grade. Two files that differ in solution bits alone give the same.
///
/// ```
/// // Strip S, one row of three cells with an arrow along it, and then grade 5 (101), a solution of 1, 0, 1, and two zero bits.
/// let file = [0x00, 0x80, 0x08, 0x00, 0x00, 0x05, 0xE0, 0b1011_0100];
/// let read = evolmino::player_file(&file).unwrap();
/// assert_eq!((read.record, read.grade), (&file[..7], 5));
/// ```
pub fn player_file(file: &[u8]) -> Result<PlayerFile<'_>, Refusal> {
    let mut output = [0];
    let length = player_file_bytes(file, &mut output)?;
    Ok(PlayerFile {
        record: &file[..length],
        grade: output[0],
    })
}

/// Why there is no file.
///
/// It may gain cases, so a `match` needs an arm for those that it doesn't name.
#[derive(Clone, Copy, Debug, PartialEq, Eq)]
#[non_exhaustive]
pub enum FileError {
    /// The library refuses the record.
    Record(Refusal),
    /// The grade is above 7.
    Grade(u8),
    /// The solution has so many cells, and not as many as the record.
    Cells(usize),
}

impl fmt::Display for FileError {
    fn fmt(&self, f: &mut fmt::Formatter<'_>) -> fmt::Result {
        match self {
            FileError::Record(refusal) => write!(f, "the record is {refusal}"),
            FileError::Grade(grade) => write!(f, "the grade {grade} is above 7"),
            FileError::Cells(cells) => write!(f, "a solution of {cells} cells isn't the record's"),
        }
    }
}

impl std::error::Error for FileError {}

/// The file of a record, a grade from 0 to 7 and a solution, a cell each in row order, `true` for a square.
///
/// It doesn't ask whether the solution is finished: the file knows no edition. A setter reads it back with [`setter_file`], which does.
///
/// ```
/// use evolmino::FileError;
///
/// // Strip S: one row of three cells, an arrow along it.
/// let record = [0x00, 0x80, 0x08, 0x00, 0x00, 0x05, 0xE0];
/// let file = evolmino::write_file(&record, 5, &[true, false, true]).unwrap();
/// assert_eq!(file, [0x00, 0x80, 0x08, 0x00, 0x00, 0x05, 0xE0, 0b1011_0100]);
/// assert_eq!(evolmino::write_file(&record, 8, &[true; 3]), Err(FileError::Grade(8)));
/// assert_eq!(evolmino::write_file(&record, 5, &[true; 4]), Err(FileError::Cells(4)));
/// ```
pub fn write_file(record: &[u8], grade: u8, solution: &[bool]) -> Result<Vec<u8>, FileError> {
    // With no cell decided, the record alone can be refused.
    finished_bytes(record, &[]).map_err(FileError::Record)?;
    if grade > GRADE_LIMIT {
        return Err(FileError::Grade(grade));
    }
    if solution.len() != number_of_cells(record) {
        return Err(FileError::Cells(solution.len()));
    }
    let mut tail = Bits::default();
    tail.put(usize::from(grade), 3);
    for &square in solution {
        tail.put(usize::from(square), 1);
    }
    Ok([record, &tail.bytes].concat())
}
