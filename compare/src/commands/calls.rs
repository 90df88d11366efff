//! `compare calls`: lists of decide, undo and find, refused ones among them, by any players.

use crate::answers::{by_original, by_reading, Answer};
use crate::generate::boards::any_board;
use crate::generate::calls::{any_hints, by_players, calls, other_calls, two_players, Call};
use crate::original::Original;
use crate::progress::{facts, repeatedly, Outcome};
use crate::random::Random;
use crate::reading::board::{Board, Hints};
use crate::reading::record::Puzzle;
use crate::reading::Edition;
use crate::shrink::shrunk;

#[derive(Default)]
struct Counts {
    calls: usize,
    compared: usize,
    found: usize,
    /// The counts of hints that lists leave at 65,535.
    full: usize,
    /// By refusal number.
    refused: [usize; 18],
}

pub fn run(seed: u64, count: usize) -> Outcome {
    let mut counts = Counts::default();
    repeatedly("calls", seed, count, |random| {
        let goal = any_board(random);
        let wanted = random.between(1, 20 + 2 * goal.decisions.len().min(100));
        let calls = calls(random, &goal, wanted);
        let calls = by_players(random, &calls);
        let handed_in = any_hints(random);
        let left = compare(&goal.puzzle, handed_in, &calls, &mut counts)?;
        compare_players(random, left, &calls)
    })?;
    println!(
        "calls: {count} lists of {} calls, {} answers compared with the original, {} reasons; \
         {} counts of hints at 65,535; refused 7 to 11: {:?}, 17: {}",
        counts.calls,
        counts.compared,
        counts.found,
        counts.full,
        &counts.refused[7..=11],
        counts.refused[17],
    );
    Ok(())
}

/// What a list of calls leaves, by the reading and by the original.
struct Left {
    board: Board,
    original: Original,
}

fn compare(
    puzzle: &Puzzle,
    handed_in: Hints,
    calls: &[Call],
    counts: &mut Counts,
) -> Result<Left, String> {
    let made = |calls: &[Call]| make_calls(puzzle, handed_in, calls, &mut Counts::default()).err();
    make_calls(puzzle, handed_in, calls, counts).map_err(|_| {
        let calls = shrunk(calls, |calls| made(calls).is_some());
        let difference = made(&calls).expect("it stays while it shrinks");
        let facts = facts(puzzle, &[]);
        format!("{facts}\ncounts {handed_in:?}, calls {calls:?}\n{difference}")
    })
}

/// Makes the calls on a board that is handed in with these counts, up to the first difference.
fn make_calls(
    puzzle: &Puzzle,
    handed_in: Hints,
    calls: &[Call],
    counts: &mut Counts,
) -> Result<Left, String> {
    let mut board = Board::with_hints(puzzle.clone(), Edition::ExactlyOne, handed_in);
    let mut original = Original::open(puzzle).expect("no arrow cell is used twice");
    let mut asked = handed_in.map(usize::from);
    for &call in calls {
        let reading = by_reading(&mut board, call);
        if let Some(original) = by_original(&board, &mut original, call) {
            if original != reading {
                return Err(format!(
                    "the reading says {reading:?}\nthe original says {original:?}"
                ));
            }
            counts.compared += 1;
        }
        counts.calls += 1;
        match reading {
            Answer::Found(Some(_)) => counts.found += 1,
            Answer::Refused(refusal) => counts.refused[refusal.number() as usize] += 1,
            _ => {}
        }
        if let (Call::Find { player, .. }, Answer::Found(_)) = (call, reading) {
            asked[usize::from(player)] += 1;
        }
        compare_counts(asked, board.hints())?;
    }
    let full = |count: &&u16| **count == 65_535;
    counts.full += board.hints().iter().filter(full).count();
    Ok(Left { board, original })
}

/// A player's count is what that player asked, or 65,535 where it is more.
fn compare_counts(asked: [usize; 4], hints: Hints) -> Outcome {
    if hints.map(usize::from) == asked.map(|asked| asked.min(65_535)) {
        return Ok(());
    }
    Err(format!("the counts are {hints:?} after {asked:?} hints"))
}

/// After the calls, and after others that leave the same cells, finds by two different players: the
/// same answer, which is the original's.
fn compare_players(random: &mut Random, left: Left, calls: &[Call]) -> Outcome {
    let Left {
        mut board,
        mut original,
    } = left;
    let puzzle = board.puzzle().clone();
    let mut other = Board::with_hints(puzzle.clone(), board.edition(), any_hints(random));
    let other_calls = other_calls(random, puzzle.size, &board.cells());
    for &call in &other_calls {
        by_reading(&mut other, call);
    }
    let same_cells = board.cells() == other.cells();
    let players = two_players(random);
    let finds = players.map(|player| Call::long_find(player, puzzle.size));
    let answers = [
        by_reading(&mut board, finds[0]),
        by_reading(&mut other, finds[1]),
        original.find().map_or(Answer::Panicked, Answer::Found),
    ];
    if same_cells && answers.iter().all(|answer| *answer == answers[0]) {
        return Ok(());
    }
    Err(format!(
        "{}\ncalls {calls:?}\nothers {other_calls:?}\nafter them {players:?} and the original find \
         {answers:?}",
        facts(&puzzle, &[]),
    ))
}
