//! The exported calls: a record, decisions and, for find, an output as bytes, a number back. They find
//! as player 0 (document 02 §9). Those that take no edition stay with edition 1 and have no sizes (§7,
//! §12).

use super::board::Board;
use super::finished::finished;
use super::leaf::Opening;
use super::reasons::{find, most_literals, Reason};
use super::{Literal, Refusal};

/// The literal count, 0 for none, or the negated refusal number; only literals are written.
pub fn host_call(record: &[u8], decisions: &[u8], output: &mut [u8]) -> i32 {
    match answer(record, decisions, output.len()) {
        Err(refusal) => -i32::from(refusal.number()),
        Ok(literals) => {
            output[..2 * literals.len()].copy_from_slice(&literal_bytes(&literals));
            literals.len() as i32
        }
    }
}

/// The literals of what is found; no literals for none.
pub fn answer(
    record: &[u8],
    decisions: &[u8],
    output_length: usize,
) -> Result<Vec<Literal>, Refusal> {
    let reason = opened_and_found(record, decisions, output_length)?;
    Ok(reason.map_or(Vec::new(), |reason| reason.literals))
}

/// Opens, decides in order and finds.
/// Refusals: 1 to 5, 11, then per decision 12, 7, 9, the odd byte last.
pub fn opened_and_found(
    record: &[u8],
    decisions: &[u8],
    output_length: usize,
) -> Result<Option<Reason>, Refusal> {
    found_with(Opening::of(record), decisions, output_length)
}

/// The same in an edition and with sizes: 16 and 22 come behind 1 to 5.
pub fn found_with(
    opening: Opening,
    decisions: &[u8],
    output_length: usize,
) -> Result<Option<Reason>, Refusal> {
    let mut board = Board::fresh(opening.leaf()?);
    if output_length < 2 * most_literals(board.puzzle().size) {
        return Err(Refusal::OutputShort);
    }
    decide_all(&mut board, decisions)?;
    find(&mut board, 0, output_length / 2)
}

/// 1 for a finished leaf, 0 for another, or the negated refusal number (document 02 §1).
pub fn finished_call(record: &[u8], decisions: &[u8]) -> i32 {
    match opened_and_judged(record, decisions) {
        Err(refusal) => -i32::from(refusal.number()),
        Ok(yes) => i32::from(yes),
    }
}

/// Opens, decides in order and tells whether the leaf is finished.
/// Refusals: 1 to 5, then per decision 12, 7, 9, the odd byte last.
pub fn opened_and_judged(record: &[u8], decisions: &[u8]) -> Result<bool, Refusal> {
    judged_with(Opening::of(record), decisions)
}

/// The same in an edition and with sizes: 16 and 22 come behind 1 to 5.
pub fn judged_with(opening: Opening, decisions: &[u8]) -> Result<bool, Refusal> {
    let mut board = Board::fresh(opening.leaf()?);
    decide_all(&mut board, decisions)?;
    Ok(finished(&board))
}

/// Per decision 12, 7, 9, the odd byte last.
pub fn decide_all(board: &mut Board, decisions: &[u8]) -> Result<(), Refusal> {
    let whole = decisions.chunks_exact(2);
    let odd_byte = !whole.remainder().is_empty();
    for decision in whole {
        let (index, value) = literal([decision[0], decision[1]])?;
        board.decide(index, value)?;
    }
    if odd_byte {
        return Err(Refusal::Decision);
    }
    Ok(())
}

/// Most significant first: value (1 bit), five zero bits, index (10).
pub fn literal([high, low]: [u8; 2]) -> Result<Literal, Refusal> {
    if high >> 2 & 0b11111 != 0 {
        return Err(Refusal::Decision);
    }
    let index = usize::from(high & 0b11) * 256 + usize::from(low);
    Ok((index, high >> 7))
}

/// The bytes of literals, one after another.
pub fn literal_bytes(literals: &[Literal]) -> Vec<u8> {
    literals
        .iter()
        .flat_map(|&literal| two_bytes(literal))
        .collect()
}

pub fn two_bytes((index, value): Literal) -> [u8; 2] {
    (u16::from(value) * 32_768 + index as u16).to_be_bytes()
}
