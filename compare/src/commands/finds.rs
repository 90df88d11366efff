//! `compare finds`: find by the reading and by the original, literal for literal in order.

use crate::generate::boards::{any_board, Decided};
use crate::generate::long::long_reasons;
use crate::generate::met::met_again;
use crate::original::{Original, Panicked};
use crate::progress::{facts, Outcome, Progress};
use crate::random::Random;
use crate::reading::board::Board;
use crate::reading::reasons::{find, most_literals, Reason};
use crate::reading::record::Puzzle;
use crate::reading::{Edition, Literal};
use crate::shrink::shrunk;
use crate::tally::Tally;

pub fn run(seed: u64, count: usize) -> Outcome {
    let mut random = Random::new(seed);
    let mut progress = Progress::new("finds", count);
    let mut tally = Tally::default();
    let mut most = 0;
    let fixed = long_reasons().into_iter().chain(met_again());
    let boards = fixed.chain(std::iter::repeat_with(|| any_board(&mut random)));
    for (done, board) in boards.take(count).enumerate() {
        progress.at(done);
        let reason = compare(&board)?;
        most = most.max(reason.as_ref().map_or(0, |reason| reason.literals.len()));
        tally.add(board.puzzle.size, reason.as_ref());
    }
    println!("finds: {count} boards, {}", tally.line());
    println!("the longest reason has {most} literals");
    tally.print();
    Ok(())
}

/// The reading's reason, if the original has the same.
pub fn compare(board: &Decided) -> Result<Option<Reason>, String> {
    let reading = by_reading(&board.puzzle, &board.decisions);
    if same(&reading, &by_original(&board.puzzle, &board.decisions)) {
        return Ok(reading);
    }
    let Decided { puzzle, decisions } = smallest(board);
    Err(format!(
        "{}\nthe reading has {:?}\nthe original has {:?}",
        facts(&puzzle, &decisions),
        by_reading(&puzzle, &decisions),
        by_original(&puzzle, &decisions),
    ))
}

/// With the fewest arrows and decisions that still differ.
fn smallest(board: &Decided) -> Decided {
    let mut puzzle = board.puzzle.clone();
    let differs = |puzzle: &Puzzle, decisions: &[Literal]| {
        !same(
            &by_reading(puzzle, decisions),
            &by_original(puzzle, decisions),
        )
    };
    let with_arrows = |arrows: &[Vec<usize>]| Puzzle {
        arrows: arrows.to_vec(),
        ..board.puzzle.clone()
    };
    puzzle.arrows = shrunk(&puzzle.arrows, |arrows| {
        differs(&with_arrows(arrows), &board.decisions)
    });
    let decisions = shrunk(&board.decisions, |decisions| differs(&puzzle, decisions));
    Decided { puzzle, decisions }
}

/// From the board after the calls.
fn by_reading(puzzle: &Puzzle, decisions: &[Literal]) -> Option<Reason> {
    let mut board = Board::after(puzzle, Edition::ExactlyOne, decisions);
    find(&mut board, 0, most_literals(puzzle.size)).expect("the buffer is long enough")
}

fn by_original(puzzle: &Puzzle, decisions: &[Literal]) -> Result<Option<Vec<Literal>>, Panicked> {
    Original::after(puzzle, decisions).find()
}

fn same(reading: &Option<Reason>, original: &Result<Option<Vec<Literal>>, Panicked>) -> bool {
    match (reading, original) {
        (None, Ok(None)) => true,
        (Some(reason), Ok(Some(literals))) => reason.literals == *literals,
        _ => false,
    }
}
