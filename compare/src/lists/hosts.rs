//! `hosts.list`: host calls, refused ones among them.

use super::{strip, List};
use crate::answers::of_host;
use crate::generate::boards::{any_board, board_of_size, Decided};
use crate::generate::hosts::{host_input, HostInput};
use crate::generate::long::long_reasons;
use crate::generate::puzzles::square;
use crate::random::Random;
use crate::reading::grid::Size;
use crate::reading::host::literal_bytes;
use crate::reading::reasons::most_literals;
use crate::reading::record::encode;

const FORMAT: [&str; 6] = [
    "Refusals and their order are document 01's, by the literal reading.",
    "Entries to the end of the file: u16 record length, the record, u16 length of the decisions in",
    "  bytes, the decisions, u16 length of the output in bytes, then the expected answer:",
    "  i32, in 4 bytes two's complement; if it is positive, that many u16 literals.",
    "Whatever the answer, the bytes of the output behind the literals keep what they had.",
    "A decision or literal is value * 32768 + index.",
];

pub fn hosts(seed: u64) -> Result<List, String> {
    let mut list =
        List::of_the_original("hosts.list", 200_000, seed, "Calls of the host function.");
    list.lines(&FORMAT);
    for input in on_the_strip() {
        add_entry(&mut list, &input)?;
    }
    let mut random = Random::new(seed);
    for _ in 0..3 {
        for (height, width) in [(1, 1), (1, 32), (32, 1), (16, 16), (32, 32)] {
            let board = board_of_size(&mut random, Size { height, width });
            add_entry(&mut list, &host_input(&mut random, &board))?;
        }
    }
    for side in [1, 2, 3, 8, 32] {
        let board = board_of_size(&mut random, square(side));
        for input in output_limits(&board) {
            add_entry(&mut list, &input)?;
        }
    }
    for board in long_reasons() {
        let [_, _, just_enough, _] = output_limits(&board);
        add_entry(&mut list, &just_enough)?;
    }
    while list.entries < 1_200 {
        let board = any_board(&mut random);
        let input = host_input(&mut random, &board);
        if board.puzzle.size.cells() <= 64 && input.record.len() <= 64 {
            add_entry(&mut list, &input)?;
        }
    }
    Ok(list)
}

fn add_entry(list: &mut List, input: &HostInput) -> Result<(), String> {
    let mut output = vec![0; input.output];
    let number = of_host(input, &mut output)?;
    list.entries += 1;
    list.long_bytes(&input.record);
    list.long_bytes(&input.decisions);
    list.u16(input.output);
    list.bytes(&number.to_be_bytes());
    list.bytes(&output[..2 * number.max(0) as usize]);
    Ok(())
}

/// Each refusal on document 01's strip S, alone and before each that comes after it.
fn on_the_strip() -> Vec<HostInput> {
    let mut records = strip::records();
    let good = records[0].clone();
    records.push(vec![]);
    let square_0 = [0x80, 0x00];
    let square_2 = [0x80, 0x02];
    let decisions: [Vec<u8>; 15] = [
        vec![],
        square_0.to_vec(),
        [square_0, square_2].concat(),
        vec![0x80, 0x00, 0x80, 0x01],
        vec![0x00, 0x00, 0x00, 0x01, 0x00, 0x02],
        // an odd byte alone, behind good decisions, behind each fault
        vec![0x80],
        vec![0x80, 0x00, 0x80],
        vec![0x84, 0x00, 0x80],
        vec![0x80, 0x03, 0x80],
        vec![0x80, 0x00, 0x00, 0x00, 0x80],
        // 12 before 7 in one decision; the first decision's fault counts
        vec![0x84, 0x03],
        vec![0x80, 0x03, 0x84, 0x00],
        vec![0x80, 0x00, 0x80, 0x00, 0x80, 0x03],
        vec![0x83, 0xFF, 0x80, 0x00, 0x80, 0x00],
        vec![0x80, 0x00, 0x84, 0x00, 0x80, 0x00],
    ];
    let mut inputs = Vec::new();
    for record in &records {
        for decisions in &decisions {
            for output in [0, 19, 20, 21] {
                inputs.push(HostInput {
                    record: record.clone(),
                    decisions: decisions.clone(),
                    output,
                });
            }
        }
    }
    for decision in strip::five_bits() {
        inputs.push(HostInput {
            record: good.clone(),
            decisions: decision.to_vec(),
            output: 20,
        });
    }
    inputs
}

/// Outputs about the limit, from two bytes below to one above.
fn output_limits(board: &Decided) -> [HostInput; 4] {
    let limit = 2 * most_literals(board.puzzle.size);
    [limit - 2, limit - 1, limit, limit + 1].map(|output| HostInput {
        record: encode(&board.puzzle),
        decisions: literal_bytes(&board.decisions),
        output,
    })
}
