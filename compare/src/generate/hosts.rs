//! Random input of the host call: good, damaged, and with outputs about the limit.

use super::boards::{any_board, Decided};
use super::records::damaged;
use crate::random::Random;
use crate::reading::host::two_bytes;
use crate::reading::reasons::most_literals;
use crate::reading::record::encode;

#[derive(Clone, Debug)]
pub struct HostInput {
    pub record: Vec<u8>,
    pub decisions: Vec<u8>,
    /// The output's length in bytes.
    pub output: usize,
}

pub fn any_host_input(random: &mut Random) -> HostInput {
    let board = any_board(random);
    host_input(random, &board)
}

pub fn host_input(random: &mut Random, board: &Decided) -> HostInput {
    let record = match random.percent(15) {
        true => damaged(random, &board.puzzle).record,
        false => encode(&board.puzzle),
    };
    let limit = 2 * most_literals(board.puzzle.size);
    HostInput {
        record,
        decisions: decisions(random, board),
        output: output(random, limit),
    }
}

/// The board's decisions, in a third of the cases with one or two faults.
fn decisions(random: &mut Random, board: &Decided) -> Vec<u8> {
    let cells = board.puzzle.size.cells();
    let mut whole: Vec<[u8; 2]> = board.decisions.iter().map(|&l| two_bytes(l)).collect();
    let mut odd = None;
    if random.percent(33) {
        for _ in 0..random.between(1, 2) {
            match random.below(4) {
                0 => five_bits(random, &mut whole),
                1 => wrong_index(random, &mut whole, cells),
                2 => decided_twice(random, &mut whole, cells),
                _ => odd = Some(random.byte()),
            }
        }
    }
    whole.into_iter().flatten().chain(odd).collect()
}

fn five_bits(random: &mut Random, whole: &mut [[u8; 2]]) {
    if !whole.is_empty() {
        let place = random.below(whole.len());
        whole[place][0] |= 1 << random.between(2, 6);
    }
}

fn wrong_index(random: &mut Random, whole: &mut Vec<[u8; 2]>, cells: usize) {
    if cells < 1_024 {
        let any = random.between(cells, 1_023);
        let index = random.pick(&[cells, any, 1_023]);
        let literal = (index, random.below(2) as u8);
        let place = random.below(whole.len() + 1);
        whole.insert(place, two_bytes(literal));
    }
}

fn decided_twice(random: &mut Random, whole: &mut Vec<[u8; 2]>, cells: usize) {
    let literal = (random.below(cells), random.below(2) as u8);
    let place = random.below(whole.len() + 1);
    whole.insert(place, two_bytes(literal));
}

fn output(random: &mut Random, limit: usize) -> usize {
    match random.below(24) {
        0 => limit - 1,
        1 => limit - 2,
        2 => random.below(limit),
        3 => limit + 1,
        4 => limit + random.below(100),
        _ => limit,
    }
}
