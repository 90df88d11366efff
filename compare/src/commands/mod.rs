//! The subcommands.

pub mod bench;
pub mod board;
mod board_beside;
mod board_calls;
pub mod calls;
pub mod certain;
pub mod certify;
mod checkings;
pub mod clauses;
#[cfg(feature = "host")]
pub mod constraint;
pub mod file;
mod filings;
pub mod finds;
pub mod finished;
pub mod fuzz;
pub mod groups;
pub mod host;
pub mod join;
mod joinings;
mod parts;
pub mod program;
pub mod records;
pub mod shades;
mod sheets;
mod sized_beside;
mod sized_calls;
mod sized_small;
pub mod sizes;
pub mod small;
pub mod soak;
pub mod steps;
pub mod touches;
pub mod turn;
mod turnings;
pub mod unique;
pub mod verdict;
