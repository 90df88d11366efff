//! `inputs.list`: standard inputs of the program `reason`, with what it prints.

use super::{strip, List};
use crate::commands::program::{any_input, expected, joined, LONGEST};
use crate::generate::long::long_reasons;
use crate::generate::puzzles::square;
use crate::random::Random;
use crate::reading::host::literal_bytes;
use crate::reading::record::{encode, plain};
use crate::reading::Literal;

const FORMAT: [&str; 5] = [
    "Refusals and their order are document 01's, by the literal reading.",
    "6, 8, 10 and 11 can't be met: the program's board comes from calls alone, a value has one bit,",
    "  nothing is undone, and the program's own output is long enough for every record.",
    "Entries to the end of the file: u16 input length, the input, u16 text length, the text.",
    "A u16 has its high byte first.",
];

pub fn inputs(seed: u64) -> Result<List, String> {
    let what = "Standard inputs of the program `reason` with what it prints.";
    let mut list = List::of_the_original("inputs.list", 250_000, seed, what);
    list.lines(&FORMAT);
    let mut random = Random::new(seed);
    let mut inputs = fixed_inputs();
    while inputs.len() < 900 {
        let input = any_input(&mut random);
        if input.len() <= 300 {
            inputs.push(input);
        }
    }
    for input in &inputs {
        let text = expected(input)?;
        list.entries += 1;
        list.long_bytes(input);
        list.long_bytes(text.as_bytes());
    }
    Ok(list)
}

/// The same inputs always: `compare program` runs the program on each of them first.
pub fn fixed_inputs() -> Vec<Vec<u8>> {
    let mut inputs = on_the_strip();
    inputs.extend(leaves());
    inputs.extend(about_the_lengths());
    inputs.extend(long_inputs());
    inputs
}

/// The program's example first; then each refusal on strip S, alone and before those that come after it.
fn on_the_strip() -> Vec<Vec<u8>> {
    let mut records = strip::records();
    let good = records[0].clone();
    // 5 again, for a byte behind the filler
    records.push([&good[..], &[0x00]].concat());
    let decisions: [&[u8]; 14] = [
        &[0x80, 0x00, 0x80, 0x02],
        &[],
        &[0x80, 0x00],
        &[0x80, 0x00, 0x80, 0x01],
        &[0x00, 0x00, 0x00, 0x01, 0x00, 0x02],
        // 7, 9 with either value, 12 by an odd byte
        &[0x80, 0x03],
        &[0x80, 0x00, 0x80, 0x00],
        &[0x80, 0x00, 0x00, 0x00],
        &[0x80],
        &[0x80, 0x00, 0x80],
        // 12 comes before 7 in one decision, the first decision's fault counts, the odd byte comes last
        &[0x84, 0x03],
        &[0x80, 0x03, 0x84, 0x00],
        &[0x80, 0x03, 0x80],
        &[0x80, 0x00, 0x80, 0x00, 0x80],
    ];
    let mut inputs = Vec::new();
    for record in &records {
        for decisions in decisions {
            inputs.push(joined(record.len(), record, decisions));
        }
    }
    for decision in strip::five_bits() {
        inputs.push(joined(good.len(), &good, &decision));
    }
    inputs
}

/// Document 01's leaves on the other records.
fn leaves() -> Vec<Vec<u8>> {
    let pair = encode(&plain(1, 2, vec![]));
    let grid = encode(&plain(2, 5, vec![(0..5).collect()]));
    let some = [
        0x80, 0x00, 0x80, 0x04, 0x80, 0x08, 0x80, 0x09, 0x00, 0x01, 0x00, 0x05,
    ];
    vec![
        joined(pair.len(), &pair, &[0x80, 0x01]),
        joined(pair.len(), &pair, &[0x00, 0x00, 0x80, 0x01]),
        joined(grid.len(), &grid, &some),
        joined(grid.len(), &grid, &[&some[..], &[0x00, 0x02]].concat()),
    ]
}

/// Too few bytes for the length or the record, a length that takes decisions in or leaves some of the record out,
/// its high byte, and inputs about the limit.
fn about_the_lengths() -> Vec<Vec<u8>> {
    let good = encode(&strip::strip());
    let decisions = [0x80, 0x00, 0x80, 0x02];
    let mut inputs = vec![vec![], vec![0x00], vec![0x07], vec![0xFF]];
    for length in 0..=12 {
        inputs.push(joined(length, &good, &decisions));
    }
    for length in [0xFF, 0x0100, 0x0107, 0x0700, 0xFFFF] {
        inputs.push(joined(length, &good, &decisions));
    }
    // 255 to 258 bytes for a record of 256 bytes, all zero
    for bytes in 255..=258 {
        inputs.push(joined(0x0100, &vec![0; bytes], &[]));
    }
    for length in [LONGEST, LONGEST + 1] {
        // 9 at the limit, 12 above it
        let mut input = joined(good.len(), &good, &[0x80, 0x00].repeat(LONGEST));
        input.truncate(length);
        inputs.push(input);
        // 1 at the limit: a record of no bytes, and one that would be longer than the input
        inputs.push(vec![0; length]);
        inputs.push(vec![0xFF; length]);
    }
    inputs
}

/// Long reasons, with indices of one to four digits; the longest record, fresh, and with every cell decided.
fn long_inputs() -> Vec<Vec<u8>> {
    let mut inputs = Vec::new();
    for board in long_reasons() {
        let record = encode(&board.puzzle);
        let decisions = literal_bytes(&board.decisions);
        inputs.push(joined(record.len(), &record, &decisions));
    }
    let side = square(32).height;
    let longest = encode(&plain(
        side,
        side,
        (0..side * side).map(|c| vec![c]).collect(),
    ));
    inputs.push(joined(longest.len(), &longest, &[]));
    for value in [0, 1] {
        let all: Vec<Literal> = (0..side * side).map(|c| (c, value)).collect();
        inputs.push(joined(longest.len(), &longest, &literal_bytes(&all)));
    }
    inputs
}

#[cfg(test)]
mod tests {
    use super::fixed_inputs;
    use crate::reading::program::reason;
    use std::collections::BTreeSet;

    /// The example comes first, and every answer that the program can give is met.
    #[test]
    fn every_answer() {
        let texts: Vec<String> = fixed_inputs().iter().map(|input| reason(input)).collect();
        assert_eq!(texts[0], "reason 3\n0 1\n2 1\n0 1\n");
        let met: BTreeSet<&str> = texts
            .iter()
            .map(|text| match text.starts_with("reason ") {
                true => "reason",
                false => text.trim_end(),
            })
            .collect();
        let refused = [1, 2, 3, 4, 5, 7, 9, 12].map(|number| format!("refused {number}"));
        let mut all: BTreeSet<&str> = refused.iter().map(String::as_str).collect();
        all.extend(["none", "reason"]);
        assert_eq!(met, all);
    }
}
