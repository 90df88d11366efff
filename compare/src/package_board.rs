//! The package's board, with the feature `host`.

use crate::progress::Outcome;
use crate::reading::board::{Cell, Hints};
use crate::reading::lent::{LentCall, Said, SIZE};
use crate::reading::Literal;

/// A board of the package; what it refuses is told by the number.
pub trait KeptBoard {
    /// Makes a call, and says where the package says something else than the reading.
    fn call(&mut self, call: LentCall, said: &Said) -> Outcome;
    fn hints(&self) -> Result<Hints, u32>;
    fn cells(&self) -> Result<Vec<Cell>, u32>;
    fn decisions(&self) -> Result<Vec<Literal>, u32>;
    fn bytes(&self) -> [u8; SIZE];
}

/// A board, or the number of a refusal.
pub type Opened = Result<Box<dyn KeptBoard>, u32>;

/// The two ways to a board.
#[derive(Clone, Copy)]
pub struct PackageBoard {
    /// Record, edition, ranges.
    pub open: fn(&[u8], u32, &[[u16; 3]]) -> Opened,
    pub of_bytes: fn(&[u8; SIZE]) -> Box<dyn KeptBoard>,
}

/// The package's board, if this program was built with it.
#[cfg(feature = "host")]
pub const PACKAGE_BOARD: Option<PackageBoard> = Some(linked::BOARD);
#[cfg(not(feature = "host"))]
pub const PACKAGE_BOARD: Option<PackageBoard> = None;

#[cfg(feature = "host")]
mod linked {
    use super::{
        Cell, Hints, KeptBoard, LentCall, Literal, Opened, Outcome, PackageBoard, Said, SIZE,
    };
    use crate::host::{answered, package_sizes, unpackaged};
    use evolmino::{Board, Refusal};
    use std::fmt::Debug;

    pub const BOARD: PackageBoard = PackageBoard {
        open: opened,
        of_bytes: |bytes| Box::new(Board::from_bytes(bytes)),
    };

    fn opened(record: &[u8], edition: u32, ranges: &[[u16; 3]]) -> Opened {
        match Board::open(record, edition, &package_sizes(ranges)) {
            Ok(board) => Ok(Box::new(board)),
            Err(refusal) => Err(refusal.number()),
        }
    }

    impl KeptBoard for Board {
        fn call(&mut self, call: LentCall, said: &Said) -> Outcome {
            let cells = self.size().map_or(0, |(height, width)| height * width);
            let done = |said: &Said| (*said == Said::Done).then_some(());
            match call {
                LentCall::Decide { index, value } if value < 2 => {
                    same(self.decide(index, value == 1), said, done)
                }
                LentCall::Decide { index, value } => {
                    same(self.decide_byte(index, value), said, done)
                }
                LentCall::Undo => same(self.undo(), said, done),
                LentCall::Find { player, buffer } if buffer > 3 * cells => {
                    same(self.find(player).map(unpackaged), said, |said| match said {
                        Said::Found(reason) => Some(reason.as_ref().map(|it| it.literals.clone())),
                        _ => None,
                    })
                }
                // these are refused
                LentCall::Find { player, buffer } => {
                    same(self.find_words(player, &mut vec![0; buffer]), said, |_| {
                        None
                    })
                }
                LentCall::Certain { budget, output } if output < 8 + cells => same(
                    self.certain_bytes(budget, &mut vec![0; output]),
                    said,
                    |_| None,
                ),
                LentCall::Certain { budget, .. } => {
                    same_number(answered(self.certain(budget)), said, |said| match said {
                        Said::Certain(answer) => Some(answer.clone()),
                        _ => None,
                    })
                }
                LentCall::Finished => same(self.finished(), said, |said| match said {
                    Said::Finished(yes) => Some(*yes),
                    _ => None,
                }),
                LentCall::Hints { player } => {
                    same(Board::hints(self, player), said, |said| match said {
                        Said::Hints(count) => Some(*count),
                        _ => None,
                    })
                }
            }
        }

        fn hints(&self) -> Result<Hints, u32> {
            let mut counts = [0; 4];
            for (player, count) in counts.iter_mut().enumerate() {
                *count = numbered(Board::hints(self, player as u8))?;
            }
            Ok(counts)
        }

        fn cells(&self) -> Result<Vec<Cell>, u32> {
            let cell = |cell: evolmino::Cell| match cell {
                evolmino::Cell::Undecided => Cell::Undecided,
                evolmino::Cell::Empty => Cell::Empty,
                evolmino::Cell::Square => Cell::Square,
            };
            let cells = numbered(Board::cells(self))?;
            Ok(cells.into_iter().map(cell).collect())
        }

        fn decisions(&self) -> Result<Vec<Literal>, u32> {
            let decisions = numbered(Board::decisions(self))?;
            Ok(unpackaged(Some(decisions)).expect("a list was given"))
        }

        fn bytes(&self) -> [u8; SIZE] {
            self.to_bytes()
        }
    }

    fn numbered<T>(answer: Result<T, Refusal>) -> Result<T, u32> {
        answer.map_err(|refusal| refusal.number())
    }

    fn same<T: PartialEq + Debug>(
        answer: Result<T, Refusal>,
        said: &Said,
        read: impl FnOnce(&Said) -> Option<T>,
    ) -> Outcome {
        same_number(numbered(answer), said, read)
    }

    /// What the package says is what the reading says, which the last function takes out of it.
    fn same_number<T: PartialEq + Debug>(
        answer: Result<T, u32>,
        said: &Said,
        read: impl FnOnce(&Said) -> Option<T>,
    ) -> Outcome {
        let due = match said {
            Said::Refused(refusal) => Some(Err(u32::from(refusal.number()))),
            _ => read(said).map(Ok),
        };
        match due {
            Some(due) if due == answer => Ok(()),
            _ => Err(format!("the package says {answer:?}, the reading {said:?}")),
        }
    }
}
