//! The clause sheet of a puzzle, for other solvers.

use crate::host::{decode, written_from_one, Literal, Refusal};
use std::fmt::Write;

extern "C" {
    fn evolmino_clauses(
        record: *const u8,
        record_len: usize,
        output: *mut u8,
        output_len: usize,
    ) -> i32;
}

/// The bytes of the longest clause sheet: one arrow runs through all cells of a grid of 32 by 32, and each is black or given. An output
/// of this length is never [`Refusal::SheetShort`].
///
/// With m of the 1,024 cells off the arrows, the four parts have at most 4 × 1,024, 6 × 2 × 31 × 32, 48 × m and 2 × (1,024 − m)² bytes,
/// together most where m is 0.
pub const SHEET_LIMIT: usize = 4 * 1024 + 6 * 2 * 31 * 32 + 2 * 1024 * 1024;

/// The exported call itself, on bytes: a record, and an output for the whole sheet. It returns the number of bytes written, which are the
/// output's first; behind them, and where it refuses, the output is unchanged.
///
/// A clause is a 16-bit count, high byte first, and that many literals of two bytes each, as in [`find_bytes`](crate::find_bytes). The
/// call refuses an output that is too short for the whole sheet with [`Refusal::SheetShort`], after the record's own refusals. It keeps
/// nothing, takes nothing from the heap and up to about 21 kilobytes of stack.
pub fn clauses_bytes(record: &[u8], output: &mut [u8]) -> Result<usize, Refusal> {
    written_from_one(evolmino_clauses, record, output)
}

/// The clauses of a puzzle for a solver that takes plain ones: those that the original's `solve_evolmino` adds, in its order.
///
/// A full board satisfies a clause where one of the clause's literals agrees with it. It satisfies all of them and the block rules
/// exactly when it is [`finished`](crate::finished). So a solver gets these clauses, and for each full board that it then proposes the
/// literals of [`find`](crate::find)'s reason, each turned round, as one clause more, until there is no reason; `examples/solve.rs` does
/// so with a SAT solver.
///
/// In order they are: black cells empty and given ones square; two arrow cells that touch not both square, the cell below before the cell
/// to the right; a cell off the arrows and two of its neighbours on arrows not all square; for each arrow cell, another square on its
/// arrow. An arrow of one cell gives a clause without literals, which no board satisfies.
///
/// ```
/// use evolmino::{Problem, ProblemCell, Record};
///
/// // One row of three cells with an arrow along it.
/// let problem = Problem {
///     cells: vec![vec![ProblemCell::Empty; 3]],
///     arrows: vec![vec![(0, 0), (0, 1), (0, 2)]],
/// };
/// let record = Record::new(&problem).unwrap();
/// let clauses = evolmino::clauses(record.bytes()).unwrap();
/// assert_eq!(clauses.len(), 5);
/// // Cells 0 and 1 touch; beside cell 0 there is a square on cell 1 or 2.
/// assert_eq!(clauses[0], [(0, false), (1, false)]);
/// assert_eq!(clauses[2], [(1, true), (2, true)]);
/// ```
pub fn clauses(record: &[u8]) -> Result<Vec<Vec<Literal>>, Refusal> {
    // The system hands over zeros without writing them, so that a short sheet costs no more than its own bytes.
    let mut output = vec![0; SHEET_LIMIT];
    let length = clauses_bytes(record, &mut output)?;
    Ok(parted(&output[..length]))
}

/// The clauses of a whole sheet.
fn parted(mut sheet: &[u8]) -> Vec<Vec<Literal>> {
    let mut clauses = Vec::new();
    while let [high, low, rest @ ..] = sheet {
        let count = u16::from_be_bytes([*high, *low]);
        let (literals, behind) = rest.split_at(2 * usize::from(count));
        clauses.push(literals.chunks_exact(2).map(decode).collect());
        sheet = behind;
    }
    clauses
}

/// Clauses in DIMACS CNF, the format that SAT solvers read. Variable k + 1 says that cell k is a square, and there are as many variables
/// as cells.
///
/// ```
/// // Strip S: one row of three cells, an arrow along it.
/// let record = [0x00, 0x80, 0x08, 0x00, 0x00, 0x05, 0xE0];
/// let clauses = evolmino::clauses(&record).unwrap();
/// assert_eq!(
///     evolmino::dimacs(3, &clauses),
///     "p cnf 3 5\n-1 -2 0\n-2 -3 0\n2 3 0\n1 3 0\n1 2 0\n"
/// );
/// ```
pub fn dimacs(cells: usize, clauses: &[Vec<Literal>]) -> String {
    let mut text = format!("p cnf {cells} {}\n", clauses.len());
    for clause in clauses {
        for &(index, value) in clause {
            let sign = if value { "" } else { "-" };
            write!(text, "{sign}{} ", index + 1).expect("a string takes every text");
        }
        text.push_str("0\n");
    }
    text
}
