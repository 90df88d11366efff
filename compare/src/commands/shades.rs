//! `compare shades`: the linked call for blocks, their first cells and their sizes, beside the
//! reading and, where it is at hand, beside the original's blocks; and the package's iterator of
//! blocks beside the same. `compare fuzz` makes these calls too.

use crate::generate::boards::{any_board, Decided};
use crate::generate::hosts::{host_input, HostInput};
use crate::generate::mutations::mutated;
use crate::guarded::{self, Due};
use crate::host::{HostCall, PackageBlocks, MISSING, PACKAGE_BLOCKS, SHADES_CALL};
use crate::original::{Original, AT_HAND};
use crate::progress::{facts, repeatedly, Outcome};
use crate::random::Random;
use crate::reading::board::Board;
use crate::reading::groups::blocks;
use crate::reading::host::literal_bytes;
use crate::reading::record::encode;
use crate::reading::shades::{opened_and_shaded, shade_bytes, shades};
use crate::reading::{Edition, Refusal};

/// So many lengths of an output below the shortest that is long enough, and so many from it on.
const LENGTHS: usize = 6;

pub fn run(seed: u64, count: usize) -> Outcome {
    let call = SHADES_CALL.ok_or(MISSING)?;
    let package = PACKAGE_BLOCKS.ok_or(MISSING)?;
    let mut counts = Counts::default();
    let mut blocks = 0;
    repeatedly("shades", seed, count, |random| {
        let board = any_board(random);
        blocks += compare(random, call, package, &board, &mut counts)?;
        let input = host_input(random, &board);
        for input in [mutated(random, &input), input] {
            let output = input.output / 6 * 4 + random.pick(&[0, 0, 0, 1, 3]);
            let _ = check(random, call, &HostInput { output, ..input }, &mut counts)?;
        }
        Ok(())
    })?;
    let beside = match AT_HAND {
        true => "the original and the reading",
        false => "the reading",
    };
    println!("shades: {count} boards with {blocks} blocks, beside {beside}");
    println!("{}", counts.line());
    Ok(())
}

/// Compares the shades of a board, with outputs of every length about the limit; how many blocks it
/// has.
fn compare(
    random: &mut Random,
    call: HostCall,
    package: PackageBlocks,
    board: &Decided,
    counts: &mut Counts,
) -> Result<usize, String> {
    let Decided { puzzle, decisions } = board;
    let cells = Board::after(puzzle, Edition::ExactlyOne, decisions).cells();
    let expected = shade_bytes(&shades(puzzle.size, &cells));
    let groups = blocks(puzzle.size, &cells);
    let lists: Vec<Vec<usize>> = groups
        .names
        .iter()
        .map(|&name| groups.cells(name))
        .collect();
    let differ = |what: &str| Err(format!("{}\n{what} differ", facts(puzzle, decisions)));
    if AT_HAND {
        let access = Original::after(puzzle, decisions).access;
        if access.blocks(&access.simple()) != lists {
            return differ("the original's blocks");
        }
    }
    let record = encode(puzzle);
    let own = package(&record, decisions).map(|own| {
        let same = |(first, size, cells): &(usize, usize, Vec<usize>)| {
            *first == cells[0] && *size == cells.len()
        };
        own.iter().all(same) && own.into_iter().map(|(_, _, cells)| cells).eq(lists.clone())
    });
    if own != Ok(true) {
        return differ("the package's blocks");
    }
    let limit = expected.len();
    for output in limit.saturating_sub(LENGTHS)..limit + LENGTHS {
        let input = HostInput {
            record: record.clone(),
            decisions: literal_bytes(decisions),
            output,
        };
        let answer = check(random, call, &input, counts)?;
        let due = match output < limit {
            true => Err(Refusal::OutputShort),
            false => Ok(limit),
        };
        if answer != due {
            return differ("what is returned");
        }
    }
    Ok(lists.len())
}

/// What the calls said.
#[derive(Default)]
pub struct Counts {
    written: usize,
    /// By refusal number.
    refused: [usize; 13],
}

impl Counts {
    pub fn line(&self) -> String {
        format!(
            "shades: {} written; refused 1 to 12: {:?}",
            self.written,
            &self.refused[1..]
        )
    }
}

/// How many bytes are written, or the refusal, if the call says as the reading and leaves every byte
/// as it should.
fn check(
    random: &mut Random,
    call: HostCall,
    input: &HostInput,
    counts: &mut Counts,
) -> Result<Result<usize, Refusal>, String> {
    let expected = opened_and_shaded(&input.record, &input.decisions, input.output);
    let due = Due::written(&expected);
    guarded::check(random, "the call for shades", input, due, call)?;
    match &expected {
        Ok(_) => counts.written += 1,
        Err(refusal) => counts.refused[usize::from(refusal.number())] += 1,
    }
    Ok(expected.map(|bytes| bytes.len()))
}

/// The calls for shades among those of `compare fuzz`, with random numbers of their own.
pub struct FuzzedShades {
    call: HostCall,
    random: Random,
    counts: Counts,
}

impl FuzzedShades {
    pub fn new(seed: u64) -> Result<FuzzedShades, String> {
        Ok(FuzzedShades {
            call: SHADES_CALL.ok_or(MISSING)?,
            random: Random::new(seed),
            counts: Counts::default(),
        })
    }

    /// The shades of the same input, with an output that is about as long for them as it is for
    /// find.
    pub fn check(&mut self, input: &HostInput) -> Outcome {
        let more = self.random.pick(&[0, 0, 0, 1, 3]);
        let input = HostInput {
            output: input.output / 6 * 4 + more,
            ..input.clone()
        };
        check(&mut self.random, self.call, &input, &mut self.counts).map(|_| ())
    }

    pub fn line(&self) -> String {
        self.counts.line()
    }
}
