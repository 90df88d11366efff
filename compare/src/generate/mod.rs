//! Input: random, deterministic by seed, and drawn by hand.

pub mod boards;
pub mod calls;
pub mod certificates;
mod drawn;
pub mod files;
pub mod hosts;
mod layout;
pub mod lent;
pub mod long;
pub mod met;
pub mod mutations;
pub mod patterns;
pub mod puzzles;
pub mod records;
pub mod sizes;
pub mod small;
pub mod solved;
pub mod unique;
