//! What stands beside the calls in an edition and with sizes: those that take neither, and the package's leaf.

use super::sizes::{any_damage, any_edition};
use crate::generate::boards::Decided;
use crate::generate::hosts::HostInput;
use crate::generate::sizes::{any_sizes, size_bytes};
use crate::host::{
    CertainCall, FinishedCall, HostCall, OfLeaf, PackageLeaf, WithCalls, CERTAIN_CALL,
    FINISHED_CALL, HOST_CALL, MISSING,
};
use crate::progress::{hexadecimal, Outcome};
use crate::random::Random;
use crate::reading::board::Board;
use crate::reading::certain::certain;
use crate::reading::groups::blocks;
use crate::reading::host::{found_with, judged_with, literal_bytes};
use crate::reading::leaf::Opening;
use crate::reading::record::encode;
use crate::reading::{Literal, Refusal};

/// The calls without an edition and sizes.
pub struct Older {
    find: HostCall,
    finished: FinishedCall,
    certain: CertainCall,
}

impl Older {
    pub fn new() -> Result<Older, String> {
        Ok(Older {
            find: HOST_CALL.ok_or(MISSING)?,
            finished: FINISHED_CALL.ok_or(MISSING)?,
            certain: CERTAIN_CALL.ok_or(MISSING)?,
        })
    }

    /// Each says what the newer one says in edition 1 and without sizes, and leaves the same bytes.
    pub fn beside(
        &self,
        random: &mut Random,
        calls: &WithCalls,
        input: &HostInput,
        budget: u64,
    ) -> Outcome {
        let leaf = Opening::of(&input.record);
        let (record, decisions) = (&input.record[..], &input.decisions[..]);
        let salt = random.below(256);
        let before: Vec<u8> = (0..input.output)
            .map(|place| (41 * place + salt) as u8)
            .collect();
        let both = |old: &dyn Fn(&mut [u8]) -> i32, new: &dyn Fn(&mut [u8]) -> i32| {
            let [mut by_old, mut by_new] = [before.clone(), before.clone()];
            old(&mut by_old) == new(&mut by_new) && by_old == by_new
        };
        let same = both(
            &|output| (self.find)(record, decisions, output),
            &|output| (calls.find)(leaf, decisions, output),
        ) && both(&|_| (self.finished)(record, decisions), &|_| {
            (calls.finished)(leaf, decisions)
        }) && both(
            &|output| (self.certain)(record, decisions, budget, output),
            &|output| (calls.certain)(leaf, decisions, budget, output),
        );
        match same {
            true => Ok(()),
            false => Err(format!(
                "record {}, decisions {}, output of {} bytes, budget {budget}: \
                 the calls in edition 1 without sizes are not the older ones",
                hexadecimal(record),
                hexadecimal(decisions),
                input.output
            )),
        }
    }
}

/// What the package's leaf says, beside the reading: with good and bad editions, and with lists of whole
/// ranges, good and bad.
pub fn package_leaf(
    random: &mut Random,
    package: PackageLeaf,
    board: &Decided,
    budget: u64,
) -> Outcome {
    let mut ranges = any_sizes(random, board);
    if random.percent(10) {
        let damaged = any_damage(random, &board.puzzle, &ranges);
        let numbers: Vec<u16> = damaged
            .chunks_exact(2)
            .map(|two| u16::from_be_bytes([two[0], two[1]]))
            .collect();
        ranges = numbers
            .chunks_exact(3)
            .map(|r| [r[0], r[1], r[2]])
            .collect();
    }
    let edition = any_edition(random);
    let record = match random.percent(5) {
        true => encode(&board.puzzle)[1..].to_vec(),
        false => encode(&board.puzzle),
    };
    let sizes = size_bytes(&ranges);
    let opening = Opening {
        record: &record,
        edition,
        sizes: &sizes,
    };
    // another record may have fewer cells, and a constraint panics at a decision off its grid
    let cells = opening.leaf().map_or(0, |leaf| leaf.puzzle.size.cells());
    let mut decisions = board.decisions.clone();
    decisions.retain(|&(cell, _)| cell < cells);
    let said = package(&record, edition, &ranges, &decisions, budget);
    let due = of_leaf(opening, &decisions, budget);
    match said == due {
        true => Ok(()),
        false => Err(format!(
            "record {}, edition {edition}, sizes {ranges:?}, decisions {decisions:?}, budget {budget}\n\
             the package's leaf says {said:?}\nand not {due:?}",
            hexadecimal(&record)
        )),
    }
}

/// The same by the reading.
fn of_leaf(opening: Opening, decisions: &[Literal], budget: u64) -> OfLeaf {
    let number = |refusal: Refusal| u32::from(refusal.number());
    let board = opening.leaf().map(|leaf| Board::of_leaf(&leaf, decisions));
    let find = |decisions: &[Literal]| {
        let found = found_with(opening, &literal_bytes(decisions), usize::MAX);
        found
            .map(|reason| reason.map(|reason| reason.literals))
            .map_err(number)
    };
    let first_half = &decisions[..decisions.len() / 2];
    let search = |board: &Board| certain(board, budget);
    let given_first = |board: &Board| {
        let mut board = board.clone();
        for (cell, value) in board.puzzle().black_and_given() {
            // one that is decided already is left
            let _ = board.decide(cell, value);
        }
        certain(&board, budget)
    };
    let all_blocks = |board: &Board| {
        let groups = blocks(board.puzzle().size, &board.cells());
        let block = |&name: &usize| (name, groups.cells(name).len(), groups.cells(name));
        groups.names.iter().map(block).collect()
    };
    OfLeaf {
        find: find(decisions),
        finished: judged_with(opening, &literal_bytes(decisions)).map_err(number),
        certain: [
            board.as_ref().map(search).map_err(|it| number(*it)),
            board.as_ref().map(given_first).map_err(|it| number(*it)),
        ],
        blocks: board.as_ref().map(all_blocks).map_err(|it| number(*it)),
        constraint: find(decisions).and_then(|all| Ok([all.clone(), find(first_half)?, all])),
    }
}
