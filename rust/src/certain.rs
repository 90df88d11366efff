//! Cells that are certain: the exported call, made safe, and the same with black and given cells decided first.

use crate::host::{counted, decided, encode, Literal, Refusal};
use crate::record::{cells_of, ProblemCell};

extern "C" {
    fn evolmino_certain(
        record: *const u8,
        record_len: usize,
        decisions: *const u8,
        decisions_len: usize,
        budget: u64,
        output: *mut u8,
        output_len: usize,
    ) -> i32;
}

/// The bytes of the number of steps, at the front of the output.
const STEPS: usize = 8;

/// The bytes that suffice for the largest grid: the number of steps, and one for each cell.
const OUTPUT_LIMIT: usize = STEPS + 32 * 32;

/// What is certain of a cell.
#[derive(Clone, Copy, Debug, PartialEq, Eq, Hash)]
pub enum Fact {
    /// It is empty in every finished board that agrees with the decisions.
    Empty,
    /// It is square in every one.
    Square,
    /// It is square in some and empty in others.
    Open,
}

/// What the search found, with the number of its steps.
#[derive(Clone, Debug, PartialEq, Eq, Hash)]
pub enum Certain {
    /// There is a finished board that agrees with the decisions: what is certain of each cell, in row order.
    Cells { cells: Vec<Fact>, steps: u64 },
    /// There is none.
    NoBoard { steps: u64 },
    /// The whole search has more steps than the budget, so that nothing is told. The steps made are the budget.
    Spent { steps: u64 },
}

impl Certain {
    /// How often the search called find.
    pub fn steps(&self) -> u64 {
        match *self {
            Certain::Cells { steps, .. }
            | Certain::NoBoard { steps }
            | Certain::Spent { steps } => steps,
        }
    }
}

/// The exported call itself, on bytes: a record, decisions of two bytes each, a budget of steps, and an output of 8 + height × width
/// bytes or more. It returns 0 where it tells what is certain, 1 where there is no such board, 2 where the budget is spent. The output's
/// first eight bytes are then the number of steps, most significant first, and after 0 one byte follows for each cell in row order: 0
/// for empty, 1 for square, 2 for open. The bytes behind these, and where it refuses the whole output, are unchanged.
///
/// It refuses in the order of [`find_bytes`](crate::find_bytes). It keeps nothing, takes nothing from the heap and up to about
/// 265 kilobytes of stack, on a large grid.
pub fn certain_bytes(
    record: &[u8],
    decisions: &[u8],
    budget: u64,
    output: &mut [u8],
) -> Result<usize, Refusal> {
    // Safe: each pointer comes from a slice and goes with its length; the call reads the first two, writes only the third, and
    // keeps none of them.
    let answer = unsafe {
        evolmino_certain(
            record.as_ptr(),
            record.len(),
            decisions.as_ptr(),
            decisions.len(),
            budget,
            output.as_mut_ptr(),
            output.len(),
        )
    };
    counted(answer)
}

/// Opens the record, decides in order and tells of each cell whether it is square in every finished board that agrees with the
/// decisions, empty in every one, or open; or that there is no such board.
///
/// The search calls find once on each board that it reaches, the given one first. It turns back on a reason; else it tries the lowest
/// undecided cell, square and then empty; a full board counts if it is [`finished`](crate::finished). It walks the whole tree. Each find
/// is a step. Where the tree has more steps than the budget the answer is [`Certain::Spent`]; a larger budget alters no other answer.
///
/// These steps are prescribed. So black and given cells do not bind the search: a black cell is tried as a square too, and what comes
/// of it is dropped when the board is full. [`certain_given_first`] decides these cells first, and mostly has far fewer steps.
///
/// An index that doesn't fit a decision's ten bits is [`Refusal::Index`].
///
/// ```
/// use evolmino::{Certain, Fact, Problem, ProblemCell, Record};
///
/// // A row of five cells with an arrow along its first four.
/// let problem = Problem {
///     cells: vec![vec![ProblemCell::Empty; 5]],
///     arrows: vec![(0..4).map(|x| (0, x)).collect()],
/// };
/// let record = Record::new(&problem).unwrap();
/// // Two squares make the second block, which is at the end; the first block is cell 0 or cell 1.
/// let certain = evolmino::certain(record.bytes(), &[], 1_000).unwrap();
/// let cells = vec![Fact::Open, Fact::Open, Fact::Empty, Fact::Square, Fact::Square];
/// assert_eq!(certain, Certain::Cells { cells, steps: 37 });
/// // The search has 37 steps, and no answer within 36.
/// let spent = evolmino::certain(record.bytes(), &[], 36).unwrap();
/// assert_eq!(spent, Certain::Spent { steps: 36 });
/// ```
pub fn certain(record: &[u8], decisions: &[Literal], budget: u64) -> Result<Certain, Refusal> {
    asked(record, decisions, budget, |bytes, budget, output| {
        certain_bytes(record, bytes, budget, output)
    })
}

/// What a call for decisions, a budget and an output says of the cells of a record.
pub(crate) fn asked(
    record: &[u8],
    decisions: &[Literal],
    budget: u64,
    call: impl FnOnce(&[u8], u64, &mut [u8]) -> Result<usize, Refusal>,
) -> Result<Certain, Refusal> {
    // Decisions that can't be handed over are refused whatever is found, so that nothing has to be searched then.
    let budget = match decisions.iter().all(|&decision| encode(decision).is_some()) {
        true => budget,
        false => 0,
    };
    told(
        |output| decided(decisions, |bytes| call(bytes, budget, output)),
        || cells_of(record).len(),
    )
}

/// What a call that writes to an output says of the cells of a grid, so many of them where it accepts.
pub(crate) fn told(
    call: impl FnOnce(&mut [u8]) -> Result<usize, Refusal>,
    cells: impl FnOnce() -> usize,
) -> Result<Certain, Refusal> {
    let mut output = [0; OUTPUT_LIMIT];
    let answer = call(&mut output)?;
    let (count, facts) = output.split_at(STEPS);
    let steps = u64::from_be_bytes(count.try_into().expect("eight bytes"));
    Ok(match answer {
        0 => {
            let told = &facts[..cells()];
            Certain::Cells {
                cells: told.iter().map(|&byte| fact(byte)).collect(),
                steps,
            }
        }
        1 => Certain::NoBoard { steps },
        2 => Certain::Spent { steps },
        _ => unreachable!("the call returns 0, 1 or 2"),
    })
}

/// What is certain of a cell, by its byte.
fn fact(byte: u8) -> Fact {
    match byte {
        0 => Fact::Empty,
        1 => Fact::Square,
        _ => Fact::Open,
    }
}

/// As [`certain`], with black and given cells decided first: behind the decisions, each of these cells that they leave undecided is
/// decided, a black one as empty and a given one as a square.
///
/// Every finished board keeps black and given cells, so both ways tell the same wherever neither is [`Certain::Spent`]; only the number of
/// steps differs. This way refuses what [`certain`] refuses.
///
/// How far the whole tree reaches: the median of its steps over 11 leaves of each size that have a finished board, a quarter of their
/// cells black or given, and how many of the searches ended within 1,000,000 steps (`compare steps`, seed 1). A step takes about
/// 1.1 microseconds at 6 × 6.
///
/// | size | `certain` | ended | `certain_given_first` | ended |
/// |---|---|---|---|---|
/// | 3 × 3 | 211 | 11 | 61 | 11 |
/// | 4 × 4 | 4,383 | 11 | 783 | 11 |
/// | 5 × 5 | 716,525 | 8 | 3,909 | 11 |
/// | 6 × 6 | > 1,000,000 | 0 | 39,353 | 11 |
/// | 7 × 7 | | | > 1,000,000 | 2 |
/// | 8 × 8 | | | > 1,000,000 | 2 |
///
/// ```
/// use evolmino::{certain, certain_given_first, Certain, Fact, Problem, ProblemCell, Record};
///
/// // A row of five cells with an arrow along its first four; the first cell is black, the last one given.
/// let mut cells = vec![vec![ProblemCell::Empty; 5]];
/// cells[0][0] = ProblemCell::Black;
/// cells[0][4] = ProblemCell::Square;
/// let arrows = vec![(0..4).map(|x| (0, x)).collect()];
/// let record = Record::new(&Problem { cells, arrows }).unwrap();
/// let cells = vec![Fact::Empty, Fact::Square, Fact::Empty, Fact::Square, Fact::Square];
/// let given_first = certain_given_first(record.bytes(), &[], 1_000).unwrap();
/// assert_eq!(given_first, Certain::Cells { cells: cells.clone(), steps: 13 });
/// // The same cells without, in more steps.
/// let without = certain(record.bytes(), &[], 1_000).unwrap();
/// assert_eq!(without, Certain::Cells { cells, steps: 37 });
/// ```
pub fn certain_given_first(
    record: &[u8],
    decisions: &[Literal],
    budget: u64,
) -> Result<Certain, Refusal> {
    certain(record, &given_first(record, decisions), budget)
}

/// The decisions, and behind them black cells as empty and given ones as squares, where they are undecided.
pub(crate) fn given_first(record: &[u8], decisions: &[Literal]) -> Vec<Literal> {
    let undecided = |&(cell, _): &Literal| decisions.iter().all(|&(other, _)| other != cell);
    let given = cells_of(record).into_iter().enumerate();
    let given = given.filter_map(|(cell, code)| match code {
        ProblemCell::Empty => None,
        ProblemCell::Black => Some((cell, false)),
        ProblemCell::Square => Some((cell, true)),
    });
    decisions
        .iter()
        .copied()
        .chain(given.filter(undecided))
        .collect()
}
