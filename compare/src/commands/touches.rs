//! `compare touches`: what the calls on a lent board cost, and how much of it is the test of the board.

use crate::generate::boards::usual_board;
use crate::generate::puzzles::square;
use crate::host::{MISSING, WITH_CALLS};
use crate::lent::{BoardCalls, Memory, BOARD_CALLS};
use crate::original::{Original, AT_HAND};
use crate::processor::{processor_time, Whose};
use crate::progress::Outcome;
use crate::random::Random;
use crate::reading::host::literal_bytes;
use crate::reading::leaf::Opening;
use crate::reading::lent::SIZE;
use crate::reading::record::encode;
use crate::reading::Literal;
use std::hint::black_box;
use std::time::Duration;

const SIDES: [usize; 4] = [6, 10, 20, 32];

const BOARDS: usize = 60;

/// Each pass over the boards is made so often, so that it is long enough for the clock.
const PASSES: u32 = 5;

/// The original's notify and undo are made so often, because they are too short for the clock.
const AGAIN: u32 = 100;

/// A board on which its decisions stand, in the forms that the measured calls take.
struct Prepared {
    record: Vec<u8>,
    decisions: Vec<u8>,
    last: Literal,
    memory: Box<Memory>,
    /// With nothing decided.
    fresh: Box<Memory>,
    literals: Vec<u16>,
    output: Vec<u8>,
    original: Option<Original>,
}

/// What is measured, in the order of the table.
const COLUMNS: [&str; 10] = [
    "open", "decide", "undo", "find", "finished", "test", "empty", "with", "o.decide", "o.find",
];

pub fn run(seed: u64, rounds: usize) -> Outcome {
    let calls = BOARD_CALLS.ok_or(MISSING)?;
    println!(
        "microseconds of processor time per call on a lent board, the best of {rounds} rounds over {BOARDS} boards \
         of each size"
    );
    println!(
        "decide, undo: of one decision, behind the others; find: on the board with all of them"
    );
    println!(
        "test: hints by player 4, refused by 17 right behind the test of the board, all decided"
    );
    println!("empty: undo on the board with nothing decided, refused by 10 right behind the test");
    println!("with: evolmino_find_with on the same record and decisions");
    println!("o.decide, o.find: the original's notify with undo, and find_inconsistency, on a kept constraint");
    print!("{:>8}", "size");
    for name in COLUMNS {
        print!("{name:>10}");
    }
    println!();
    for side in SIDES {
        let mut random = Random::new(seed);
        let mut boards: Vec<Prepared> = (0..BOARDS)
            .map(|_| prepared(&mut random, &calls, side))
            .collect();
        let mut best = [Duration::MAX; COLUMNS.len()];
        for _ in 0..rounds {
            for (best, time) in best.iter_mut().zip(times(&calls, &mut boards)) {
                *best = (*best).min(time);
            }
        }
        print!("{:>8}", format!("{side} x {side}"));
        for (name, time) in COLUMNS.iter().zip(best) {
            let microseconds = time.as_secs_f64() * 1e6;
            match name.starts_with("o.") && !AT_HAND {
                true => print!("{:>10}", "-"),
                false if microseconds < 0.1 => print!("{microseconds:>10.3}"),
                false => print!("{microseconds:>10.2}"),
            }
        }
        println!();
    }
    Ok(())
}

fn prepared(random: &mut Random, calls: &BoardCalls, side: usize) -> Prepared {
    let board = loop {
        let board = usual_board(random, square(side));
        if !board.decisions.is_empty() {
            break board;
        }
    };
    let record = encode(&board.puzzle);
    let mut fresh = Box::new(Memory([0; SIZE]));
    assert_eq!((calls.open)(&record, 1, &[], &mut fresh), 0);
    let mut memory = fresh.clone();
    for &(index, value) in &board.decisions {
        assert_eq!((calls.decide)(&mut memory, index, value), 0);
    }
    let last = board.decisions.len() - 1;
    Prepared {
        record,
        decisions: literal_bytes(&board.decisions),
        last: board.decisions[last],
        memory,
        fresh,
        literals: vec![0; 3 * side * side + 1],
        output: vec![0; 2 * (3 * side * side + 1)],
        original: AT_HAND.then(|| Original::after(&board.puzzle, &board.decisions)),
    }
}

/// The time of each call. Undo and decide take turns, so that the boards are the same again.
fn times(calls: &BoardCalls, boards: &mut [Prepared]) -> [Duration; COLUMNS.len()] {
    let with = WITH_CALLS.expect("the calls are linked").find;
    let mut opened = Box::new(Memory([0; SIZE]));
    let open = timed(boards, |board| {
        black_box((calls.open)(&board.record, 1, &[], &mut opened));
    });
    let mut undo = Duration::ZERO;
    let mut decide = Duration::ZERO;
    for _ in 0..PASSES {
        undo += pass(boards, |board| {
            black_box((calls.undo)(&mut board.memory));
        });
        decide += pass(boards, |board| {
            let (index, value) = board.last;
            black_box((calls.decide)(&mut board.memory, index, value));
        });
    }
    let find = timed(boards, |board| {
        black_box((calls.find)(&mut board.memory, 0, &mut board.literals));
    });
    let finished = timed(boards, |board| {
        black_box((calls.finished)(&board.memory));
    });
    let test = timed(boards, |board| {
        black_box((calls.hints)(&board.memory, 4));
    });
    let empty = timed(boards, |board| {
        black_box((calls.undo)(&mut board.fresh));
    });
    let with = timed(boards, |board| {
        let leaf = Opening::of(&board.record);
        black_box(with(leaf, &board.decisions, &mut board.output));
    });
    let [original_decide, original_find] = original_times(boards);
    let [undo, decide] = [undo, decide].map(|time| time / PASSES);
    [
        open,
        decide,
        undo,
        find,
        finished,
        test,
        empty,
        with,
        original_decide,
        original_find,
    ]
}

/// Of notify with undo, and of find_inconsistency, on a constraint that is kept.
fn original_times(boards: &mut [Prepared]) -> [Duration; 2] {
    if !AT_HAND {
        return [Duration::ZERO; 2];
    }
    let decide = timed(boards, |board| {
        let (index, value) = board.last;
        let access = &mut board.original.as_mut().expect("it is at hand").access;
        for _ in 0..AGAIN {
            access.undo();
            black_box(&mut *access).notify(index, value == 1);
        }
    });
    let find = timed(boards, |board| {
        let access = &mut board.original.as_mut().expect("it is at hand").access;
        black_box(access.find_inconsistency());
    });
    [decide / AGAIN, find]
}

/// The time of one call, from some passes over the boards. A first one is not timed.
fn timed(boards: &mut [Prepared], mut call: impl FnMut(&mut Prepared)) -> Duration {
    boards.iter_mut().for_each(&mut call);
    let passes = (0..PASSES).map(|_| pass(boards, &mut call));
    passes.sum::<Duration>() / PASSES
}

/// The time of one call, from one for each board.
fn pass(boards: &mut [Prepared], call: impl FnMut(&mut Prepared)) -> Duration {
    let start = processor_time(Whose::Own);
    boards.iter_mut().for_each(call);
    (processor_time(Whose::Own) - start) / boards.len() as u32
}
