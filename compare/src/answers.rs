//! One call, answered by the reading and by the original.

use crate::generate::boards::Decided;
use crate::generate::calls::Call;
use crate::generate::hosts::HostInput;
use crate::original::{Original, Panicked};
use crate::progress::{facts, hexadecimal};
use crate::reading::board::{Board, Cell};
use crate::reading::host::{host_call, literal};
use crate::reading::reasons::{find, most_literals};
use crate::reading::record::decode;
use crate::reading::{Edition, Literal, Refusal};

#[derive(Clone, Debug, PartialEq, Eq)]
pub enum Answer {
    Done,
    Refused(Refusal),
    Found(Option<Vec<Literal>>),
    Cells(Vec<Cell>),
    /// The original's find failed an assertion: never the reading's answer.
    Panicked,
}

fn done_or_refused(result: Result<(), Refusal>) -> Answer {
    result.map_or_else(Answer::Refused, |()| Answer::Done)
}

pub fn by_reading(board: &mut Board, call: Call) -> Answer {
    match call {
        Call::Decide { index, value } => done_or_refused(board.decide(index, value)),
        Call::Undo => done_or_refused(board.undo()),
        Call::Find { player, buffer } => match find(board, player, buffer) {
            Err(refusal) => Answer::Refused(refusal),
            Ok(reason) => Answer::Found(reason.map(|reason| reason.literals)),
        },
        Call::Cells => Answer::Cells(board.cells()),
    }
}

/// None where the original has no such answer: it takes no value above 1, no player and no buffer, and
/// finds in edition 1 and without sizes only. Its panics are refusals 7 and 9 of decide and 10 of undo.
pub fn by_original(board: &Board, original: &mut Original, call: Call) -> Option<Answer> {
    let size = board.puzzle().size;
    let or_refused = |result: Result<(), Panicked>, refusal: Refusal| {
        done_or_refused(result.map_err(|Panicked| refusal))
    };
    match call {
        Call::Decide { value, .. } if value > 1 => None,
        Call::Decide { index, value } => {
            let refusal = if index < size.cells() {
                Refusal::Decided
            } else {
                Refusal::Index
            };
            Some(or_refused(original.decide(index, value == 1), refusal))
        }
        Call::Undo => Some(or_refused(original.undo(), Refusal::NothingDecided)),
        Call::Find { player, buffer } if player > 3 || buffer < most_literals(size) => None,
        Call::Find { .. } if board.edition() != Edition::ExactlyOne => None,
        Call::Find { .. } if !board.leaf().sizes.is_empty() => None,
        Call::Find { .. } => Some(original.find().map_or(Answer::Panicked, Answer::Found)),
        Call::Cells => Some(Answer::Cells(original.access.cells())),
    }
}

/// The number that the host call returns, with the output as it leaves it. Refusals are the
/// reading's; where it finds, the original must find the same.
pub fn of_host(input: &HostInput, output: &mut [u8]) -> Result<i32, String> {
    let number = host_call(&input.record, &input.decisions, output);
    if number < 0 {
        return Ok(number);
    }
    let written = literals(&output[..2 * number as usize]);
    let board = Decided {
        puzzle: decode(&input.record).expect("the host call read it"),
        decisions: literals(&input.decisions),
    };
    let found = Original::after(&board.puzzle, &board.decisions).find();
    if found == Ok((number > 0).then_some(written)) {
        Ok(number)
    } else {
        let facts = facts(&board.puzzle, &board.decisions);
        Err(format!("{facts}: the original finds {found:?}"))
    }
}

/// The literals in bytes that the host call has read or written.
fn literals(bytes: &[u8]) -> Vec<Literal> {
    let read = |two: &[u8]| literal([two[0], two[1]]).expect("the five bits are zero");
    bytes.chunks_exact(2).map(read).collect()
}

/// A host call as it can be typed in again.
pub fn host_facts(input: &HostInput) -> String {
    format!(
        "record {}, decisions {}, output of {} bytes",
        hexadecimal(&input.record),
        hexadecimal(&input.decisions),
        input.output
    )
}
