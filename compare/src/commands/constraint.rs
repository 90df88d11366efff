//! `compare constraint`: the package's `Constraint`, and the record that it makes, beside the
//! original. All that the package does about the proved call is plain Rust, which no proof speaks
//! of.

use crate::generate::boards::{any_board, Decided};
use crate::generate::calls::{calls, Call};
use crate::generate::puzzles::add_short_arrows;
use crate::original::{caught, Original, Panicked};
use crate::progress::{facts, hexadecimal, repeatedly, Outcome};
use crate::random::Random;
use crate::reading::record::{encode, Code, Puzzle};
use crate::shrink::shrunk;
use evolmino::{Constraint, Literal, Problem, ProblemCell, Record, RecordError};

/// What a call answers: a reason where it is a find that has one, or a panic.
type Answer = Result<Option<Vec<Literal>>, Panicked>;

#[derive(Default)]
struct Counts {
    calls: usize,
    reasons: usize,
    panics: usize,
    used_twice: usize,
}

pub fn run(seed: u64, count: usize) -> Outcome {
    let mut counts = Counts::default();
    repeatedly("constraint", seed, count, |random| {
        let goal = any_board(random);
        compare_opening(random, &goal.puzzle, &mut counts)?;
        compare_beginning(&goal.puzzle)?;
        let calls = calls_of_both(random, &goal);
        compare_calls(&goal.puzzle, &calls, &mut counts)
    })?;
    println!(
        "constraint: {count} lists of {} calls, {} reasons, {} panics on both sides; \
         {} puzzles with an arrow cell used twice",
        counts.calls, counts.reasons, counts.panics, counts.used_twice
    );
    Ok(())
}

/// The package's form of a puzzle.
fn problem(puzzle: &Puzzle) -> Problem {
    let size = puzzle.size;
    let cell = |code: &Code| match code {
        Code::Plain => ProblemCell::Empty,
        Code::Black => ProblemCell::Black,
        Code::Given => ProblemCell::Square,
    };
    let row = |codes: &[Code]| codes.iter().map(cell).collect();
    let place = |&cell: &usize| (size.row(cell), size.column(cell));
    let arrow = |cells: &Vec<usize>| cells.iter().map(place).collect();
    Problem {
        cells: puzzle.codes.chunks(size.width).map(row).collect(),
        arrows: puzzle.arrows.iter().map(arrow).collect(),
    }
}

fn opened(puzzle: &Puzzle) -> (Constraint, Original) {
    let constraint = Constraint::new(&problem(puzzle)).expect("the puzzle has a record");
    let original = Original::open(puzzle).expect("no arrow cell is used twice");
    (constraint, original)
}

/// The record is the reading's. With arrows that may overlap there is none exactly where the
/// original has None.
fn compare_opening(random: &mut Random, puzzle: &Puzzle, counts: &mut Counts) -> Outcome {
    let mut puzzle = puzzle.clone();
    add_short_arrows(random, &mut puzzle);
    let record = encode(&puzzle);
    let expected = Original::open(&puzzle).map(|_| record.as_slice());
    let made = Record::new(&problem(&puzzle));
    let same = match &made {
        Ok(made) => expected == Some(made.bytes()),
        Err(RecordError::UsedTwice(_)) => expected.is_none(),
        Err(_) => false,
    };
    if !same {
        return Err(format!(
            "{}: the package makes {made:?}, and the original's None is {}",
            hexadecimal(&record),
            expected.is_none()
        ));
    }
    counts.used_twice += usize::from(expected.is_none());
    Ok(())
}

/// The calls that a solver makes first: both take the number of cells and panic at another.
fn compare_beginning(puzzle: &Puzzle) -> Outcome {
    let (mut constraint, mut original) = opened(puzzle);
    let access = &mut original.access;
    let cells = puzzle.size.cells();
    let mut same = constraint.lazy_propagation() == access.lazy_propagation();
    for number in [0, cells - 1, cells, cells + 1] {
        let taken = caught(|| constraint.initialize_sat(number));
        same &= taken == caught(|| access.initialize_sat(number));
    }
    match same {
        true => Ok(()),
        false => Err(format!(
            "{}: lazy_propagation or initialize_sat",
            facts(puzzle, &[])
        )),
    }
}

/// Calls that both have: neither takes a value above 1, and only the original has cells to look at.
fn calls_of_both(random: &mut Random, goal: &Decided) -> Vec<Call> {
    let wanted = random.between(1, 20 + 2 * goal.decisions.len().min(100));
    let mut calls = calls(random, goal, wanted);
    calls.retain(|call| match call {
        Call::Decide { value, .. } => *value < 2,
        Call::Undo | Call::Find { .. } => true,
        Call::Cells => false,
    });
    calls
}

fn compare_calls(puzzle: &Puzzle, calls: &[Call], counts: &mut Counts) -> Outcome {
    let Some(_) = difference(puzzle, calls, counts) else {
        return Ok(());
    };
    let different = |calls: &[Call]| difference(puzzle, calls, &mut Counts::default());
    let calls = shrunk(calls, |calls| different(calls).is_some());
    let (constraint, original) = different(&calls).expect("it stays while it shrinks");
    Err(format!(
        "{}\ncalls {calls:?}\nthe package says {constraint:?}\nthe original says {original:?}",
        facts(puzzle, &[]),
    ))
}

/// The first two answers that differ.
fn difference(puzzle: &Puzzle, calls: &[Call], counts: &mut Counts) -> Option<(Answer, Answer)> {
    let (mut constraint, mut original) = opened(puzzle);
    let access = &mut original.access;
    for &call in calls {
        let answers = match call {
            Call::Decide { index, value } => (
                caught(|| constraint.notify(index, value == 1)).map(|()| None),
                caught(|| access.notify(index, value == 1)).map(|()| None),
            ),
            Call::Undo => (
                caught(|| constraint.undo()).map(|()| None),
                caught(|| access.undo()).map(|()| None),
            ),
            Call::Find { .. } => (
                caught(|| constraint.find_inconsistency()),
                caught(|| access.find_inconsistency()),
            ),
            Call::Cells => continue,
        };
        if answers.0 != answers.1 {
            return Some(answers);
        }
        counts.calls += 1;
        match answers.0 {
            Ok(None) => {}
            Ok(Some(_)) => counts.reasons += 1,
            Err(Panicked) => counts.panics += 1,
        }
    }
    None
}
