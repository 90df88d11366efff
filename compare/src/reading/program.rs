//! The program `reason`: what it prints for what it reads.

use super::host::answer;
use super::{Literal, Refusal};

pub fn reason(input: &[u8]) -> String {
    match answer_to(input) {
        Err(refusal) => format!("refused {}\n", refusal.number()),
        Ok(literals) if literals.is_empty() => "none\n".to_string(),
        Ok(literals) => {
            let mut printed = format!("reason {}\n", literals.len());
            for (index, value) in literals {
                printed += &format!("{index} {value}\n");
            }
            printed
        }
    }
}

/// The record's length in 2 bytes, the record, decisions. Input that is too long has the number of a
/// wrong decision.
fn answer_to(input: &[u8]) -> Result<Vec<Literal>, Refusal> {
    if input.len() > 8_192 {
        return Err(Refusal::Decision);
    }
    if input.len() < 2 {
        return Err(Refusal::RecordEnds);
    }
    let (length, rest) = input.split_at(2);
    let length = usize::from(length[0]) * 256 + usize::from(length[1]);
    if rest.len() < length {
        return Err(Refusal::RecordEnds);
    }
    let (record, decisions) = rest.split_at(length);
    // the program's own output is never too short
    answer(record, decisions, usize::MAX)
}
