//! `compare soak`: a million calls on one lent board, beside the reading, the original and the package; and a
//! million on another, in edition 2 and with sizes. The whole memory is compared after each.

use super::board_beside::Beside;
use super::board_calls::Checker;
use crate::generate::boards::{board_of_puzzle, Decided};
use crate::generate::lent::lent_calls;
use crate::generate::puzzles::square;
use crate::generate::sizes::kept_sizes;
use crate::generate::solved::solved_leaf;
use crate::lent::Lent;
use crate::progress::{leaf_facts, Outcome, Progress};
use crate::random::Random;
use crate::reading::board::Board;
use crate::reading::leaf::Leaf;
use crate::reading::lent::{LentCall, Said, SIZE};
use crate::reading::reasons::most_literals;
use crate::reading::sizes::ranges;
use crate::reading::Edition;

/// The side of the board.
const SIDE: usize = 6;

/// So many calls work towards each goal, and so many finds of one player follow.
const TOWARDS: usize = 60;
const FINDS: usize = 60;

pub fn run(seed: u64, count: usize) -> Outcome {
    let mut random = Random::new(seed);
    for edition in Edition::BOTH {
        let solved = solved_leaf(&mut random, square(SIDE), edition);
        let sizes = match edition {
            Edition::ExactlyOne => Vec::new(),
            Edition::OneOrMore => kept_sizes(&mut random, &solved),
        };
        let leaf = Leaf {
            sizes: ranges(&solved.puzzle, sizes.as_flattened()).expect("a good list"),
            ..Leaf::unsized_in(edition, &solved.puzzle)
        };
        soak(&mut random, &leaf, &solved, count).map_err(|what| {
            let facts = leaf_facts(&leaf, &[]);
            format!("{facts}, seed {seed}\n{what}")
        })?;
    }
    Ok(())
}

fn soak(random: &mut Random, leaf: &Leaf, solved: &Decided, count: usize) -> Outcome {
    let mut checker = Checker::new()?;
    let mut progress = Progress::new("soak", count);
    let mut lent = Lent::new(false, &[0; SIZE]);
    let mut board = checker.open_leaf(&mut lent, leaf)?;
    let mut beside = Beside::new(leaf, true, None)?;
    let mut asked = [0u64; 4];
    let mut compared = [0; 2];
    let mut done = 0;
    while done < count {
        progress.at(done);
        for call in some_calls(random, &board, solved) {
            let before = board.clone();
            let said = checker.check(random, &mut lent, &mut board, call);
            let said = said.map_err(|what| format!("call {done}: {what}"))?;
            let others = beside.call(&before, &board, call, &said)?;
            compared[0] += others[0];
            compared[1] += others[1];
            if let (LentCall::Find { player, .. }, Said::Found(_)) = (call, &said) {
                asked[usize::from(player)] += 1;
            }
            done += 1;
        }
        beside.at_the_end(&board, lent.bytes())?;
        if board.hints().map(u64::from) != asked.map(|asked| asked.min(65_535)) {
            return Err(format!("hints {:?} after {asked:?}", board.hints()));
        }
    }
    println!(
        "soak: {done} calls on one board in edition {}, {} answers compared with the original, {} with the \
         package; finds accepted {asked:?}, hints {:?}",
        leaf.edition.number(),
        compared[0],
        compared[1],
        board.hints()
    );
    for line in checker.met.lines().lines().skip(1) {
        println!("soak: {line}");
    }
    Ok(())
}

/// Calls towards some other cells than those that stand, and finds of one player. Sometimes all is taken
/// back first, and sometimes the game is then finished.
fn some_calls(random: &mut Random, board: &Board, solved: &Decided) -> Vec<LentCall> {
    let mut calls = Vec::new();
    let back = vec![LentCall::Undo; board.standing().len() + 1];
    match random.below(8) {
        0 => {
            calls.extend(back);
            calls.extend(finishing(random, solved));
        }
        1..=3 => {
            calls.extend(back);
            calls.extend(towards(random, board));
        }
        _ => calls.extend(towards(random, board)),
    }
    let find = LentCall::Find {
        player: random.below(4) as u8,
        buffer: most_literals(board.puzzle().size),
    };
    calls.extend(vec![find; FINDS]);
    calls
}

fn towards(random: &mut Random, board: &Board) -> Vec<LentCall> {
    let goal = board_of_puzzle(random, board.puzzle().clone());
    lent_calls(random, &goal, TOWARDS)
}

/// The cells of a finished board in any order, and a look whether it is one.
fn finishing(random: &mut Random, solved: &Decided) -> Vec<LentCall> {
    let mut decisions = solved.decisions.clone();
    random.shuffle(&mut decisions);
    let decide = |(index, value)| LentCall::Decide { index, value };
    let mut calls: Vec<LentCall> = decisions.into_iter().map(decide).collect();
    calls.push(LentCall::Finished);
    calls
}
