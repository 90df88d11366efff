//! `compare small`: on small grids, in both editions, without sizes and with them, each reason against
//! every full board, and full boards against the block rules.

use super::finds::compare;
use crate::generate::boards::{board_of_puzzle, Decided};
use crate::generate::sizes::{as_read, small_sizes};
use crate::generate::small::{decisions, small_puzzle};
use crate::original::AT_HAND;
use crate::progress::{leaf_facts, repeatedly, Outcome};
use crate::random::Random;
use crate::reading::board::{Board, Cell};
use crate::reading::finished::finished;
use crate::reading::groups::{block_rules_hold, blocks};
use crate::reading::leaf::Leaf;
use crate::reading::reasons::{find_reason, Reason};
use crate::reading::record::{Code, Puzzle};
use crate::reading::{Edition, Literal};
use crate::tally::Tally;
use std::collections::HashSet;

/// Grids up to this size have all their boards tried, larger ones random boards.
const ALL_BOARDS: usize = 8;
const RANDOM_BOARDS: usize = 500;

pub fn run(seed: u64, count: usize) -> Outcome {
    let mut met = KINDS.map(|kind| (kind, Met::default()));
    repeatedly("small", seed, count, |random| {
        let puzzle = small_puzzle(random);
        let boards = boards(random, puzzle.clone());
        let sizes = small_sizes(random, &puzzle);
        for ((edition, sized), met) in &mut met {
            let leaf = Leaf {
                puzzle: puzzle.clone(),
                edition: *edition,
                sizes: match sized {
                    true => as_read(&sizes),
                    false => Vec::new(),
                },
            };
            met.every_board(&leaf, &boards)?;
        }
        Ok(())
    })?;
    for ((edition, sized), met) in &met {
        let sizes = match sized {
            true => "with sizes",
            false => "without sizes",
        };
        println!(
            "small: {count} puzzles in edition {}, {sizes}; reasons tried against every full board:",
            edition.number()
        );
        met.partly.print();
        let solved = met.solved;
        println!("every full board of these puzzles ({solved} meet the block rules):");
        met.full.print();
        if count >= ENOUGH && !met.all_kinds(*edition, *sized) {
            return Err("not every reason was met".to_string());
        }
    }
    Ok(())
}

/// Each edition without sizes and with them.
const KINDS: [(Edition, bool); 4] = [
    (Edition::ExactlyOne, false),
    (Edition::OneOrMore, false),
    (Edition::ExactlyOne, true),
    (Edition::OneOrMore, true),
];

/// Among so many puzzles each reason is met, and full boards that meet the rules.
const ENOUGH: usize = 200;

/// The boards met on leaves of one kind.
#[derive(Default)]
struct Met {
    partly: Tally,
    full: Tally,
    /// How many full boards meet the block rules.
    solved: usize,
}

impl Met {
    /// Every full board of a leaf, and the reasons on these boards against all of them.
    fn every_board(&mut self, leaf: &Leaf, boards: &[Decided]) -> Outcome {
        let rules = every_full_board(leaf, &mut self.full)?;
        self.solved += rules.iter().filter(|&&hold| hold).count();
        for board in boards {
            let reason = find(leaf, &board.decisions)?;
            if let Some(reason) = &reason {
                sound(leaf, &board.decisions, &reason.literals, &rules)?;
            }
            self.partly.add(leaf.puzzle.size, reason.as_ref());
        }
        Ok(())
    }

    /// Whether none and each reason that there is on such leaves were met, partly decided and full.
    fn all_kinds(&self, edition: Edition, sized: bool) -> bool {
        let exists = |column: usize| match column {
            5 => edition == Edition::ExactlyOne,
            _ => sized || column < Tally::COLUMNS,
        };
        let met = |tally: &Tally| {
            let sums = tally.sums();
            (0..sums.len()).all(|column| (sums[column] > 0) == exists(column))
        };
        met(&self.partly) && met(&self.full) && self.solved > 0
    }
}

/// All boards of a puzzle where there are few, else some.
fn boards(random: &mut Random, puzzle: Puzzle) -> Vec<Decided> {
    let cells = puzzle.size.cells();
    if cells <= ALL_BOARDS {
        let board = |number| Decided {
            puzzle: puzzle.clone(),
            decisions: decisions(number, cells, 3),
        };
        return (0..3usize.pow(cells as u32)).map(board).collect();
    }
    let board = |_| board_of_puzzle(random, puzzle.clone());
    (0..RANDOM_BOARDS).map(board).collect()
}

/// The reading's reason; in edition 1, without sizes, and where the original is at hand, it has the same.
fn find(leaf: &Leaf, decisions: &[Literal]) -> Result<Option<Reason>, String> {
    if AT_HAND && leaf.edition == Edition::ExactlyOne && leaf.sizes.is_empty() {
        return compare(&Decided {
            puzzle: leaf.puzzle.clone(),
            decisions: decisions.to_vec(),
        });
    }
    let cells = Board::of_leaf(leaf, decisions).cells();
    Ok(find_reason(leaf, &cells))
}

/// For each full board, by its number, whether the block rules hold. Find says none exactly then,
/// and it is finished exactly when black and given cells are kept too, and each arrow passes two
/// different blocks or more.
fn every_full_board(leaf: &Leaf, tally: &mut Tally) -> Result<Vec<bool>, String> {
    let size = leaf.puzzle.size;
    let mut rules = Vec::new();
    for number in 0..1 << size.cells() {
        let full = decisions(number, size.cells(), 2);
        let after = Board::of_leaf(leaf, &full);
        let cells = after.cells();
        let hold = block_rules_hold(leaf, &cells);
        let reason = find(leaf, &full)?;
        tally.add(size, reason.as_ref());
        let solved = hold && kept(&leaf.puzzle, &cells) && passes_two_blocks(&leaf.puzzle, &cells);
        if hold != reason.is_none() || finished(&after) != solved {
            return Err(format!(
                "{}\nthe block rules: {hold}, finished: {}, find: {reason:?}",
                leaf_facts(leaf, &full),
                finished(&after),
            ));
        }
        rules.push(hold);
    }
    Ok(rules)
}

fn kept(puzzle: &Puzzle, cells: &[Cell]) -> bool {
    (0..cells.len()).all(|cell| match puzzle.codes[cell] {
        Code::Plain => true,
        Code::Black => cells[cell] == Cell::Empty,
        Code::Given => cells[cell] == Cell::Square,
    })
}

/// Each arrow passes two different blocks or more.
fn passes_two_blocks(puzzle: &Puzzle, cells: &[Cell]) -> bool {
    let blocks = blocks(puzzle.size, cells);
    puzzle.arrows.iter().all(|arrow| {
        let names: HashSet<usize> = arrow.iter().filter_map(|&i| blocks.name_of[i]).collect();
        names.len() >= 2
    })
}

/// Every literal stands, and no full board that agrees with all of them meets the block rules.
pub fn sound(leaf: &Leaf, standing: &[Literal], literals: &[Literal], rules: &[bool]) -> Outcome {
    let stands = |literal: &Literal| standing.contains(literal);
    let agrees = |number: usize| {
        let value = |index: usize| (number >> index & 1) as u8;
        literals.iter().all(|&(index, v)| value(index) == v)
    };
    let counterexample = (0..rules.len()).find(|&number| rules[number] && agrees(number));
    if literals.iter().all(stands) && counterexample.is_none() {
        return Ok(());
    }
    Err(format!(
        "{}\n{literals:?} is refuted by the full board {:?}",
        leaf_facts(leaf, standing),
        counterexample.map(|number| decisions(number, leaf.puzzle.size.cells(), 2)),
    ))
}
