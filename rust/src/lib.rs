//! The proved Evolmino constraint, for Rust.
//!
//! [`find`] asks the proved library why a board can't be finished, [`finished`] whether it is, [`certain()`] which of its cells are certain,
//! [`blocks`] which blocks it has, [`clauses`] gives a puzzle's clauses for other solvers, [`turn()`] turns a record for the page, [`join()`] puts
//! two on one leaf, and [`setter_file`] and [`player_file`] read a file with grade and solution, which [`write_file`] writes; [`Record`] writes a
//! [`Problem`] in the form that they read; and [`Constraint`] has `notify`, `undo` and `find_inconsistency` with the signatures of cspuz_core's
//! `SimpleCustomConstraint`, so that it can stand where `EvolminoConstraint` stood. All of them are for edition 1 of the rules (README, The
//! puzzle) and leaves without sizes, but [`setter_file`] takes the [`Edition`]; records that are turned or joined are so for both editions. A
//! [`Leaf`] is a record in either edition and with sizes: the same questions are its methods. A [`Board`] is a leaf that is opened for a game: it keeps
//! decisions and counts of hints from call to call. [`Leaf::unique`] checks a [`Certificate`] that the leaf has one solution only, and
//! [`Leaf::certify`] makes one with a SAT solver.
//!
//! What is proved are the library's exported calls. This package around them, which writes records, keeps decisions, makes certificates and
//! reads the answer, is plain Rust: `compare constraint` holds it beside the original.
//!
//! ```
//! use evolmino::{Problem, ProblemCell, Record};
//!
//! // One row of three cells with an arrow along it.
//! let problem = Problem {
//!     cells: vec![vec![ProblemCell::Empty; 3]],
//!     arrows: vec![vec![(0, 0), (0, 1), (0, 2)]],
//! };
//! let record = Record::new(&problem).unwrap();
//! // Cells 0 and 1 are square: one block would have two arrow cells.
//! let reason = evolmino::find(record.bytes(), &[(0, true), (1, true)]).unwrap();
//! assert_eq!(reason, Some(vec![(0, true), (1, true)]));
//! ```

mod board;
mod certain;
mod clauses;
mod constraint;
mod file;
mod host;
mod join;
mod leaf;
mod maker;
mod record;
mod shades;
mod turn;
mod unique;

pub use board::{Board, Cell};
pub use certain::{certain, certain_bytes, certain_given_first, Certain, Fact};
pub use clauses::{clauses, clauses_bytes, dimacs, SHEET_LIMIT};
pub use constraint::Constraint;
pub use file::{
    player_file, player_file_bytes, setter_file, setter_file_bytes, write_file, Edition, FileError,
    PlayerFile, SetterFile,
};
pub use host::{find, find_bytes, finished, finished_bytes, Literal, Refusal};
pub use join::{join, join_bytes};
pub use leaf::{Leaf, Size};
pub use maker::{MakerError, Solver};
pub use record::{Problem, ProblemCell, Record, RecordError};
pub use shades::{blocks, shades_bytes, Block, Blocks};
pub use turn::{turn, turn_bytes, Turning};
pub use unique::{Certificate, Counts, Step};
