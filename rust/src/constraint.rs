//! A constraint with the original's calls.

use crate::host::{decode, encode, literals, Literal};
use crate::leaf::Leaf;
use crate::record::{Problem, Record, RecordError};

/// Stands where `EvolminoConstraint` stood: the calls of cspuz_core's `SimpleCustomConstraint`, with the same signatures, the same
/// answers in the same order, and a panic where the original panics. The proof ends at the library's call: this type is plain Rust, and
/// `compare constraint` holds it beside the original.
///
/// The trait is cspuz_core's, so a solver that uses it wraps this type in one of its own and hands each call on. It is `Clone`, which
/// `util::wrap_reason_verifier_on_test` asks for, through which `solve_evolmino` hands over its constraint:
///
/// ```
/// # trait SimpleCustomConstraint {
/// #     fn initialize_sat(&mut self, num_inputs: usize);
/// #     fn notify(&mut self, index: usize, value: bool);
/// #     fn find_inconsistency(&mut self) -> Option<Vec<(usize, bool)>>;
/// #     fn undo(&mut self);
/// #     fn lazy_propagation(&self) -> bool;
/// # }
/// # fn wrap_reason_verifier_on_test<'a, T: SimpleCustomConstraint + Clone + 'a>(_: T) {}
/// # fn solve_evolmino(constraint: evolmino::Constraint) {
/// #     wrap_reason_verifier_on_test(Evolmino(constraint));
/// # }
/// #[derive(Clone)]
/// struct Evolmino(evolmino::Constraint);
///
/// impl SimpleCustomConstraint for Evolmino {
///     fn initialize_sat(&mut self, num_inputs: usize) {
///         self.0.initialize_sat(num_inputs)
///     }
///     fn notify(&mut self, index: usize, value: bool) {
///         self.0.notify(index, value)
///     }
///     fn find_inconsistency(&mut self) -> Option<Vec<(usize, bool)>> {
///         self.0.find_inconsistency()
///     }
///     fn undo(&mut self) {
///         self.0.undo()
///     }
///     fn lazy_propagation(&self) -> bool {
///         self.0.lazy_propagation()
///     }
/// }
/// ```
#[derive(Clone, Debug)]
pub struct Constraint {
    /// One that the exported call accepts.
    leaf: Leaf<'static>,
    decided: Vec<bool>,
    /// The decisions that stand, in order, as the exported call takes them.
    decisions: Vec<u8>,
    /// Room for the longest reason of this leaf, kept from call to call.
    output: Vec<u8>,
}

impl Constraint {
    /// A constraint for a puzzle in edition 1 and without sizes, as the original's, with nothing decided.
    /// [`Leaf::constraint`] has one in either edition and with sizes.
    ///
    /// The original has `None` for a puzzle that uses an arrow cell twice, and `solve_evolmino` hands it on, as it says `None` for a puzzle
    /// without a solution. `Constraint::new(&problem).ok()?` in its place would say so of every puzzle that has no record, also of one 33
    /// cells wide, which the original solves. Only [`RecordError::UsedTwice`] is the original's `None`; any other error says nothing of
    /// solutions, and goes to the caller:
    ///
    /// ```
    /// use evolmino::{Constraint, Problem, ProblemCell, RecordError};
    ///
    /// fn constraint(problem: &Problem) -> Result<Option<Constraint>, RecordError> {
    ///     match Constraint::new(problem) {
    ///         Err(RecordError::UsedTwice(_)) => Ok(None),
    ///         other => other.map(Some),
    ///     }
    /// }
    ///
    /// let wide = Problem {
    ///     cells: vec![vec![ProblemCell::Empty; 33]],
    ///     arrows: vec![],
    /// };
    /// assert_eq!(constraint(&wide).unwrap_err(), RecordError::Width(33));
    /// let used_twice = Problem {
    ///     cells: vec![vec![ProblemCell::Empty; 2]],
    ///     arrows: vec![vec![(0, 0), (0, 1)], vec![(0, 1)]],
    /// };
    /// assert!(constraint(&used_twice).unwrap().is_none());
    /// ```
    pub fn new(problem: &Problem) -> Result<Constraint, RecordError> {
        let record = Record::new(problem)?;
        let cells = record.height() * record.width();
        let leaf = Leaf::new(record.bytes()).into_owned();
        Ok(Constraint::of_leaf(leaf, cells))
    }

    /// A constraint for a leaf that is accepted and has so many cells.
    pub(crate) fn of_leaf(leaf: Leaf<'static>, cells: usize) -> Constraint {
        Constraint {
            leaf,
            decided: vec![false; cells],
            decisions: vec![],
            output: vec![0; 2 * (3 * cells + 1)],
        }
    }

    /// `true`, as in the original: the solver asks for an inconsistency only when no further value waits to be notified.
    pub fn lazy_propagation(&self) -> bool {
        true
    }

    /// # Panics
    /// If the number of inputs is not the number of cells.
    pub fn initialize_sat(&mut self, num_inputs: usize) {
        assert_eq!(num_inputs, self.decided.len());
    }

    /// The cell at `index` is decided: a square (`true`) or empty.
    ///
    /// # Panics
    /// If there is no such cell, or it is decided already.
    pub fn notify(&mut self, index: usize, value: bool) {
        assert!(!self.decided[index], "cell {index} is decided already");
        let pair = encode((index, value)).expect("a cell's index has ten bits");
        self.decided[index] = true;
        self.decisions.extend_from_slice(&pair);
    }

    /// The latest decision is taken back.
    ///
    /// # Panics
    /// If nothing is decided.
    pub fn undo(&mut self) {
        let kept = self
            .decisions
            .len()
            .checked_sub(2)
            .expect("a decision stands");
        let (index, _) = decode(&self.decisions[kept..]);
        self.decisions.truncate(kept);
        self.decided[index] = false;
    }

    /// A list of decisions that no board that meets the block rules agrees with, if the decisions that stand give one. A decision may
    /// stand in it twice, as in the original.
    pub fn find_inconsistency(&mut self) -> Option<Vec<Literal>> {
        let count = self
            .leaf
            .find_bytes(&self.decisions, &mut self.output)
            .expect("an accepted leaf and decisions tested by notify are accepted");
        literals(&self.output, count)
    }
}
