//! `compare fuzz`: the linked calls on mutated input, for a run under a memory checker.
//!
//! Record, decisions and output lie in boxes of exactly their length, so that a checker sees every
//! byte that is read or written beside them; in some calls the output has guard bytes about it in
//! its box (`guarded`). The answers are compared with the reading's. No original is needed.

use super::certain::FuzzedCertain;
use super::clauses::FuzzedSheets;
use super::file::FuzzedFiles;
use super::join::FuzzedJoins;
use super::shades::FuzzedShades;
use super::sizes::FuzzedSizes;
use super::turn::FuzzedTurnings;
use super::unique::FuzzedCertificates;
use crate::answers::host_facts;
use crate::generate::boards::{board_of_size, Decided};
use crate::generate::hosts::{host_input, HostInput};
use crate::generate::mutations::mutated;
use crate::generate::puzzles::{any_size, size_up_to};
use crate::generate::small::finished_leaves;
use crate::guarded::{self, Due};
use crate::host::{FinishedCall, HostCall, FINISHED_CALL, HOST_CALL, MISSING};
use crate::progress::{Outcome, Progress};
use crate::random::Random;
use crate::reading::host::{finished_call, literal_bytes, opened_and_found};
use crate::reading::reasons::Reason;
use crate::reading::Refusal;
use crate::tally::Tally;
use std::time::Instant;

/// So many calls on mutations of the same input.
const CALLS_OF_A_BOARD: usize = 10;

/// So many finished leaves, of which some calls are mutations.
const FINISHED: usize = 50;

#[derive(Default)]
struct Counts {
    /// None, and reasons 1, 2, 3, 4 (a) and 4 (b).
    found: [usize; Tally::COLUMNS],
    /// By refusal number.
    refused: [usize; 13],
    /// Leaves that are finished.
    finished: usize,
}

pub fn run(seed: u64, count: usize) -> Outcome {
    let host_call = HOST_CALL.ok_or(MISSING)?;
    let finished = FINISHED_CALL.ok_or(MISSING)?;
    let start = Instant::now();
    let mut random = Random::new(seed);
    let mut progress = Progress::new("fuzz", count);
    let mut counts = Counts::default();
    let mut sheets = FuzzedSheets::new(seed)?;
    let mut shades = FuzzedShades::new(seed)?;
    let mut turnings = FuzzedTurnings::new(seed)?;
    let mut certain = FuzzedCertain::new(seed)?;
    let mut joins = FuzzedJoins::new(seed)?;
    let mut files = FuzzedFiles::new(seed)?;
    let mut sizes = FuzzedSizes::new(seed)?;
    let mut certificates = FuzzedCertificates::new(seed)?;
    let leaves = finished_leaves(&mut random, FINISHED);
    let mut done = 0;
    while done < count {
        progress.at(done);
        let board = match random.percent(5) {
            true => leaves[random.below(leaves.len())].clone(),
            false => board(&mut random),
        };
        let input = host_input(&mut random, &board);
        for _ in 0..CALLS_OF_A_BOARD.min(count - done) {
            let input = mutated(&mut random, &input);
            sheets.check(&input.record)?;
            counts.finished += usize::from(check_finished(finished, &input)?);
            shades.check(&input)?;
            turnings.check(&input.record)?;
            certain.check(&input)?;
            joins.check(&input.record)?;
            files.check(&board)?;
            sizes.check(&board, &input)?;
            certificates.check()?;
            match check(&mut random, host_call, &input)? {
                Ok(reason) => counts.found[Tally::column(reason.as_ref())] += 1,
                Err(refusal) => counts.refused[usize::from(refusal.number())] += 1,
            }
            done += 1;
        }
    }
    println!(
        "fuzz: {count} calls with seed {seed} in {} seconds",
        start.elapsed().as_secs()
    );
    println!(
        "none, reasons 1, 2, 3, 4(a), 4(b): {:?}; refused 1 to 12: {:?}",
        counts.found,
        &counts.refused[1..]
    );
    println!("finished: {} leaves", counts.finished);
    println!("{}", sheets.line());
    println!("{}", shades.line());
    println!("{}", turnings.line());
    println!("{}", certain.line());
    println!("{}", joins.line());
    files.print();
    println!("{}", sizes.line());
    println!("{}", certificates.line());
    Ok(())
}

/// Mostly small ones: they meet every reason too, and a memory checker makes calls slow.
fn board(random: &mut Random) -> Decided {
    let size = match random.percent(10) {
        true => any_size(random),
        false => size_up_to(random, 6),
    };
    board_of_size(random, size)
}

/// What the reading says, if the host call says the same and leaves every byte as it should.
fn check(
    random: &mut Random,
    host_call: HostCall,
    input: &HostInput,
) -> Result<Result<Option<Reason>, Refusal>, String> {
    let expected = opened_and_found(&input.record, &input.decisions, input.output);
    let found = expected.as_ref().map(|reason| match reason {
        None => Vec::new(),
        Some(reason) => literal_bytes(&reason.literals),
    });
    let due = match &found {
        Err(refusal) => Due::refused(**refusal),
        Ok(bytes) => Due {
            number: bytes.len() as i32 / 2,
            front: bytes,
        },
    };
    guarded::check(random, "the host call", input, due, host_call)?;
    Ok(expected)
}

/// Whether the leaf of the same input is finished, if the call that tells it says as the reading.
fn check_finished(finished: FinishedCall, input: &HostInput) -> Result<bool, String> {
    let expected = finished_call(&input.record, &input.decisions);
    let record: Box<[u8]> = input.record.as_slice().into();
    let decisions: Box<[u8]> = input.decisions.as_slice().into();
    let returned = finished(&record, &decisions);
    if returned != expected {
        let facts = host_facts(input);
        return Err(format!(
            "{facts}\nfinished: the call returns {returned} and not {expected}"
        ));
    }
    if record[..] != input.record[..] || decisions[..] != input.decisions[..] {
        let facts = host_facts(input);
        return Err(format!(
            "{facts}\nfinished: the record or the decisions are changed"
        ));
    }
    Ok(returned == 1)
}
