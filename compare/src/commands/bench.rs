//! `compare bench`: the original and, where it is linked, the host call, on the same boards; then
//! their parts.

use super::checkings;
use super::filings;
use super::joinings;
use super::parts;
use super::sheets;
use super::turnings;
use crate::generate::boards::{usual_board, Decided};
use crate::generate::puzzles::square;
use crate::host::{HostCall, HOST_CALL, MISSING};
use crate::original::{problem, Access, Problem};
use crate::processor::{processor_time, Whose};
use crate::progress::Outcome;
use crate::quota::{boards_of_each_kind, Known};
use crate::random::Random;
use crate::reading::host::literal_bytes;
use crate::reading::reasons::most_literals;
use crate::reading::record::encode;
use crate::reading::Literal;
use std::hint::black_box;
use std::time::Duration;

const SIDES: [usize; 6] = [6, 8, 10, 14, 20, 32];

/// Boards with none, which cost most and are most of a solver's calls, and of each reason.
const BOARDS: [usize; 6] = [30, 6, 6, 6, 6, 6];

/// A board in the forms that the measured calls take.
struct Prepared {
    problem: Problem,
    decisions: Vec<Literal>,
    record: Vec<u8>,
    decision_bytes: Vec<u8>,
    output: Vec<u8>,
}

pub fn run(seed: u64, rounds: usize) -> Outcome {
    println!(
        "microseconds of processor time per call, the best of {rounds} rounds over {} boards of each size",
        BOARDS.iter().sum::<usize>()
    );
    println!(
        "({} none, {:?} of reasons 1, 2, 3, 4(a), 4(b))",
        BOARDS[0],
        &BOARDS[1..]
    );
    println!("original: building the constraint, notify of all decisions, find_inconsistency");
    println!("host: the whole host call; ratio: host / original");
    println!("    size  original      host     ratio");
    let _above_the_room = room_in_the_heap();
    let mut boards_by_side = Vec::new();
    for side in SIDES {
        let boards = boards(seed, side)?;
        let mut prepared: Vec<Prepared> = boards.iter().map(prepared).collect();
        println!("{}", row(side, &mut prepared, rounds));
        boards_by_side.push((side, boards));
    }
    if HOST_CALL.is_none() {
        println!("{MISSING}");
    }
    sheets::run(seed, &SIDES, rounds)?;
    turnings::run(seed, &SIDES, rounds)?;
    joinings::run(seed, &SIDES, rounds)?;
    filings::run(seed, &SIDES, rounds)?;
    checkings::run(rounds)?;
    parts::run(&boards_by_side)
}

/// Leaves free memory in the middle of the heap, below what it returns. Without it the allocator
/// may, as the heap happens to lie, return memory to the system after each call of the original
/// and fetch it again, which doubles its time on the largest boards.
fn room_in_the_heap() -> Vec<u8> {
    let below: Vec<Vec<u8>> = (0..64).map(|_| vec![1; 1 << 16]).collect();
    let above = vec![1; 1 << 16];
    drop(below);
    above
}

fn boards(seed: u64, side: usize) -> Result<Vec<Known>, String> {
    let mut random = Random::new(seed);
    boards_of_each_kind(BOARDS, || usual_board(&mut random, square(side)))
}

fn prepared((board, _): &Known) -> Prepared {
    let Decided { puzzle, decisions } = board;
    Prepared {
        problem: problem(puzzle),
        record: encode(puzzle),
        decision_bytes: literal_bytes(decisions),
        output: vec![0; 2 * most_literals(puzzle.size)],
        decisions: decisions.clone(),
    }
}

/// A line of the table. The calls take turns, so that they meet the same load of the machine.
fn row(side: usize, boards: &mut [Prepared], rounds: usize) -> String {
    let mut best = [Duration::MAX; 2];
    for _ in 0..rounds {
        let times = [
            time_original(boards),
            HOST_CALL.map_or(Duration::MAX, |host_call| time_host(boards, host_call)),
        ];
        for (best, time) in best.iter_mut().zip(times) {
            *best = (*best).min(time);
        }
    }
    let microseconds = |time: Duration| time.as_secs_f64() * 1e6;
    let [original, host] = best.map(microseconds);
    let size = format!("{side} x {side}");
    let measured = format!("{size:>8}{original:>10.2}");
    match HOST_CALL {
        None => format!("{measured}{:>10}{:>10}", "-", "-"),
        Some(_) => format!("{measured}{host:>10.2}{:>10.2}", host / original),
    }
}

/// The time of one call, from one for each board. A first pass is not timed: it finds the caches
/// and the allocator as another kind of call left them.
fn per_call(boards: &mut [Prepared], mut call: impl FnMut(&mut Prepared)) -> Duration {
    boards.iter_mut().for_each(&mut call);
    let start = processor_time(Whose::Own);
    boards.iter_mut().for_each(&mut call);
    (processor_time(Whose::Own) - start) / boards.len() as u32
}

fn time_original(boards: &mut [Prepared]) -> Duration {
    per_call(boards, |board| {
        let mut access = Access::new(&board.problem).expect("no arrow cell is used twice");
        for &(index, value) in &board.decisions {
            access.notify(index, value == 1);
        }
        black_box(access.find_inconsistency());
    })
}

fn time_host(boards: &mut [Prepared], host_call: HostCall) -> Duration {
    per_call(boards, |board| {
        let output = &mut board.output;
        black_box(host_call(&board.record, &board.decision_bytes, output));
    })
}
