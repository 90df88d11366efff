//! A leaf: what the rules read. It is the puzzle of a record, the edition that it is played in (document
//! 02 §7), and the sizes beside some of its arrow cells (§12).

use super::record::{decode, Puzzle};
use super::sizes::{numbers, ranges, Range};
use super::{Edition, Refusal};

#[derive(Clone, Debug, PartialEq, Eq)]
pub struct Leaf {
    pub puzzle: Puzzle,
    pub edition: Edition,
    /// Cells rising.
    pub sizes: Vec<Range>,
}

impl Leaf {
    /// A leaf without sizes.
    pub fn unsized_in(edition: Edition, puzzle: &Puzzle) -> Leaf {
        Leaf {
            puzzle: puzzle.clone(),
            edition,
            sizes: Vec::new(),
        }
    }

    /// Refusals: the record's 1 to 5, then 16, then 22.
    pub fn open(record: &[u8], edition: u32, sizes: &[u16]) -> Result<Leaf, Refusal> {
        let puzzle = decode(record)?;
        let edition = Edition::numbered(edition)?;
        let sizes = ranges(&puzzle, sizes)?;
        Ok(Leaf {
            puzzle,
            edition,
            sizes,
        })
    }
}

/// What the exported calls open: a record, an edition, and the numbers of the sizes as bytes.
#[derive(Clone, Copy, Debug)]
pub struct Opening<'a> {
    pub record: &'a [u8],
    pub edition: u32,
    pub sizes: &'a [u8],
}

impl Opening<'_> {
    /// Edition 1 and no sizes, which the calls have that take neither.
    pub fn of(record: &[u8]) -> Opening<'_> {
        Opening {
            record,
            edition: 1,
            sizes: &[],
        }
    }

    /// Refusals: 1 to 5, 16, 22.
    pub fn leaf(self) -> Result<Leaf, Refusal> {
        let (sizes, left_over) = numbers(self.sizes);
        let leaf = Leaf::open(self.record, self.edition, &sizes)?;
        match left_over {
            true => Err(Refusal::Sizes),
            false => Ok(leaf),
        }
    }
}
