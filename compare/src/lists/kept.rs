//! Leaves of one solution, whose certificates a SAT solver made: `compare certify` wrote them, and they
//! are kept for the tests of `../rust`. So a list with them is written without a solver.

#[path = "../../../rust/tests/unique_list/mod.rs"]
mod unique_list;

use crate::commands::unique::Input;
use unique_list::{entries, Entry};

/// The smaller leaves first.
pub fn inputs() -> Vec<Input> {
    let input = |entry: Entry| Input {
        record: entry.record,
        edition: entry.edition,
        sizes: entry.sizes,
        certificate: entry.certificate,
    };
    entries().into_iter().map(input).collect()
}

#[cfg(test)]
mod tests {
    use super::*;
    use crate::reading::certificate::unique_call;

    #[test]
    fn each_is_accepted() {
        let inputs = inputs();
        assert!(!inputs.is_empty());
        for input in inputs {
            assert_eq!(unique_call(input.opening(), &input.certificate), 1);
        }
    }
}
