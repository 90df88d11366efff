//! `compare finished`: the linked call that tells whether a leaf is finished, beside the reading, on
//! every full board of small leaves, and on the finished ones with a cell undecided.

use crate::generate::small::{decisions, small_puzzle};
use crate::host::{FinishedCall, FINISHED_CALL, MISSING};
use crate::progress::{facts, repeatedly, Outcome};
use crate::reading::host::{finished_call, literal_bytes};
use crate::reading::record::{encode, Puzzle};
use crate::reading::Literal;

pub fn run(seed: u64, count: usize) -> Outcome {
    let call = FINISHED_CALL.ok_or(MISSING)?;
    let (mut boards, mut finished) = (0, 0);
    repeatedly("finished", seed, count, |random| {
        let puzzle = small_puzzle(random);
        let record = encode(&puzzle);
        let cells = puzzle.size.cells();
        for number in 0..1 << cells {
            let full = decisions(number, cells, 2);
            boards += 1;
            if compare(call, &puzzle, &record, &full)? == 1 && !puzzle.arrows.is_empty() {
                finished += 1;
                let mut open = full;
                open.remove(random.below(cells));
                compare(call, &puzzle, &record, &open)?;
            }
        }
        Ok(())
    })?;
    if finished == 0 {
        return Err("no leaf with an arrow is finished: more puzzles are needed".to_string());
    }
    println!(
        "finished: {count} puzzles with {boards} full boards; with an arrow {finished} finished"
    );
    Ok(())
}

/// The number that both return.
fn compare(
    call: FinishedCall,
    puzzle: &Puzzle,
    record: &[u8],
    decisions: &[Literal],
) -> Result<i32, String> {
    let bytes = literal_bytes(decisions);
    let expected = finished_call(record, &bytes);
    let returned = call(record, &bytes);
    if returned != expected {
        return Err(format!(
            "{}\nthe call returns {returned} and not {expected}",
            facts(puzzle, decisions)
        ));
    }
    Ok(returned)
}
