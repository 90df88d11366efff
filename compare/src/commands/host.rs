//! `compare host`: the linked host call against the original, with guard bytes about the output.

use crate::answers::{host_facts, of_host};
use crate::generate::hosts::{any_host_input, HostInput};
use crate::host::{HostCall, HOST_CALL, MISSING};
use crate::progress::{repeatedly, Outcome};
use crate::random::Random;
use crate::shrink::shrunk;

/// So many bytes before and behind the output.
const GUARD: usize = 64;

#[derive(Default)]
struct Counts {
    none: usize,
    reasons: usize,
    /// By refusal number.
    refused: [usize; 13],
}

pub fn run(seed: u64, count: usize) -> Outcome {
    let host_call = HOST_CALL.ok_or(MISSING)?;
    let mut counts = Counts::default();
    repeatedly("host", seed, count, |random| {
        match compare(host_call, &any_host_input(random))? {
            0 => counts.none += 1,
            number if number > 0 => counts.reasons += 1,
            number => counts.refused[-number as usize] += 1,
        }
        Ok(())
    })?;
    println!(
        "host: {count} calls, {} none, {} reasons; refused 1 to 12: {:?}",
        counts.none,
        counts.reasons,
        &counts.refused[1..]
    );
    Ok(())
}

/// The number that both return, if they also leave the same bytes in and about the output.
fn compare(host_call: HostCall, input: &HostInput) -> Result<i32, String> {
    let Some(_) = difference(host_call, input)? else {
        return of_host(input, &mut vec![0; input.output]);
    };
    let with = |decisions: &[&[u8]]| HostInput {
        decisions: decisions.concat(),
        ..input.clone()
    };
    let differs = |decisions: &[&[u8]]| {
        let difference = difference(host_call, &with(decisions));
        difference.is_ok_and(|difference| difference.is_some())
    };
    let decisions: Vec<&[u8]> = input.decisions.chunks(2).collect();
    let smallest = with(&shrunk(&decisions, differs));
    let difference = difference(host_call, &smallest)?.expect("it stays while it shrinks");
    Err(format!("{}\n{difference}", host_facts(&smallest)))
}

/// How the host call differs from the original, if it does.
fn difference(host_call: HostCall, input: &HostInput) -> Result<Option<String>, String> {
    let inside = GUARD..GUARD + input.output;
    let mut random = Random::new(input.output as u64);
    let before: Vec<u8> = (0..input.output + 2 * GUARD)
        .map(|_| random.byte())
        .collect();
    let mut expected = before.clone();
    let number = of_host(input, &mut expected[inside.clone()])?;
    let mut written = before;
    let returned = host_call(&input.record, &input.decisions, &mut written[inside]);
    if returned != number {
        return Ok(Some(format!(
            "the host call returns {returned} and not {number}"
        )));
    }
    let place = (0..written.len()).find(|&place| written[place] != expected[place]);
    Ok(place.map(|place| {
        format!(
            "the byte at {} of the output is {:02X} and not {:02X}",
            place as i64 - GUARD as i64,
            written[place],
            expected[place],
        )
    }))
}
