//! The original behind calls that can be compared: its panics become values.

#[cfg(not(original))]
use crate::absent as evolmino;
#[cfg(original)]
use crate::evolmino;

pub use evolmino::{problem, Access, Problem};

use crate::reading::record::Puzzle;
use crate::reading::Literal;
use std::cell::Cell;
use std::panic::{catch_unwind, set_hook, take_hook, AssertUnwindSafe};
use std::sync::Once;

/// Whether the original's files were found when this program was built.
pub const AT_HAND: bool = cfg!(original);

/// The commit of semiexp/cspuz_core that the original is.
pub const COMMIT: &str = "2fba19520b";

/// An assertion of the original, or of what stands where it stood, failed.
#[derive(Clone, Copy, Debug, PartialEq, Eq)]
pub struct Panicked;

#[derive(Clone)]
pub struct Original {
    pub access: Access,
}

impl Original {
    /// None where an arrow cell is used twice.
    pub fn open(puzzle: &Puzzle) -> Option<Original> {
        let access = Access::new(&problem(puzzle))?;
        Some(Original { access })
    }

    /// The constraint after these decisions, which must be of different cells.
    pub fn after(puzzle: &Puzzle, decisions: &[Literal]) -> Original {
        let mut original = Original::open(puzzle).expect("no arrow cell is used twice");
        for &(index, value) in decisions {
            original.access.notify(index, value == 1);
        }
        original
    }

    /// The clauses that `solve_evolmino` adds to its solver, in order.
    pub fn clauses(puzzle: &Puzzle) -> Vec<Vec<Literal>> {
        let literal = |(index, value)| (index, u8::from(value));
        let clause = |clause: Vec<(usize, bool)>| clause.into_iter().map(literal).collect();
        let clauses = evolmino::clauses(&problem(puzzle)).into_iter();
        clauses.map(clause).collect()
    }

    pub fn decide(&mut self, index: usize, value: bool) -> Result<(), Panicked> {
        caught(|| self.access.notify(index, value))
    }

    pub fn undo(&mut self) -> Result<(), Panicked> {
        caught(|| self.access.undo())
    }

    pub fn find(&mut self) -> Result<Option<Vec<Literal>>, Panicked> {
        let literal = |(index, value)| (index, u8::from(value));
        caught(|| {
            let reason = self.access.find_inconsistency()?;
            Some(reason.into_iter().map(literal).collect())
        })
    }
}

thread_local! {
    static PANICS_ARE_EXPECTED: Cell<bool> = const { Cell::new(false) };
}

/// Runs a call of the original, or of what stands where it stood. Their assertions come before any
/// change, so that they can be used further after a panic.
pub fn caught<T>(call: impl FnOnce() -> T) -> Result<T, Panicked> {
    static HOOK: Once = Once::new();
    HOOK.call_once(|| {
        let usual = take_hook();
        set_hook(Box::new(move |info| {
            if !PANICS_ARE_EXPECTED.get() {
                usual(info);
            }
        }));
    });
    PANICS_ARE_EXPECTED.set(true);
    let result = catch_unwind(AssertUnwindSafe(call));
    PANICS_ARE_EXPECTED.set(false);
    result.map_err(|_| Panicked)
}
