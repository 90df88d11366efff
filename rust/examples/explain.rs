//! Decides some cells of a small puzzle and prints why it can't be finished.

use evolmino::{Constraint, Problem, ProblemCell};

fn main() {
    // Two rows of five plain cells, one arrow along the upper row.
    let problem = Problem {
        cells: vec![vec![ProblemCell::Empty; 5]; 2],
        arrows: vec![(0..5).map(|x| (0, x)).collect()],
    };
    let mut constraint = Constraint::new(&problem).expect("within the limits");
    constraint.initialize_sat(10);
    for (index, value) in [
        (0, true),
        (4, true),
        (8, true),
        (9, true),
        (1, false),
        (5, false),
    ] {
        constraint.notify(index, value);
    }
    println!("so far: {:?}", constraint.find_inconsistency());
    constraint.notify(2, false);
    println!("with cell 2 empty: {:?}", constraint.find_inconsistency());
    constraint.undo();
    println!("undone: {:?}", constraint.find_inconsistency());
}
