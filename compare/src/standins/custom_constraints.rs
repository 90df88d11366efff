//! Stands in for `cspuz_core::custom_constraints`.

/// The original needs only that every constraint is one of these.
pub trait PropagatorGenerator {}

impl<T: SimpleCustomConstraint> PropagatorGenerator for T {}

pub trait SimpleCustomConstraint {
    fn initialize_sat(&mut self, num_inputs: usize);
    fn notify(&mut self, index: usize, value: bool);
    fn find_inconsistency(&mut self) -> Option<Vec<(usize, bool)>>;
    fn undo(&mut self);

    fn lazy_propagation(&self) -> bool {
        false
    }
}
