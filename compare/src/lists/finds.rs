//! `finds.list`: boards in both editions with their reason, in edition 1 the original's, and whether
//! they are finished.

use super::List;
use crate::commands::finds::compare;
use crate::generate::boards::{board_of_size, Decided};
use crate::generate::long::long_reasons;
use crate::generate::met::met_again;
use crate::generate::puzzles::{any_size, square};
use crate::generate::small::{finished_leaves, freely_grown_leaves, is_finished};
use crate::quota::{boards_of_each_kind, Known};
use crate::random::Random;
use crate::reading::board::Board;
use crate::reading::grid::Size;
use crate::reading::reasons::{find_reason, Reason, Which};
use crate::reading::record::encode;
use crate::reading::Edition;
use crate::tally::Tally;
use std::ops::RangeInclusive;

const FORMAT: [&str; 6] = [
    "The original has edition 1 only; edition 2 and finished are document 02's, by the reading.",
    "u16 rounds: how often find is called on each board before its answer is compared.",
    "Entries to the end of the file: u16 record length, the record, u8 edition, u16 number of",
    "  decisions, that many u16 decisions, then u16 count (0 for none) and that many u16 literals,",
    "  and a byte, 1 for a finished board and 0 for another.",
    "A decision or literal is value * 32768 + index.",
];

/// So many boards of none and of each reason, on grids of so many cells.
const QUOTAS: [(RangeInclusive<usize>, [usize; Tally::COLUMNS]); 3] = [
    (1..=100, [400, 350, 350, 400, 400, 400]),
    (101..=256, [30; Tally::COLUMNS]),
    (400..=1_024, [7; Tally::COLUMNS]),
];

/// So many finished leaves beside them, in each edition.
const FINISHED: usize = 100;

/// Boards of up to so many cells stand there in edition 2 too, and larger ones where edition 1 has
/// the reason that edition 2 hasn't, 4(b).
const IN_BOTH: usize = 12;
const IN_BOTH_WITH_4_B: usize = 256;

pub fn finds(seed: u64) -> Result<List, String> {
    let mut random = Random::new(seed);
    let mut boards = Vec::new();
    for board in every_shape(&mut random).into_iter().chain(long_reasons()) {
        let reason = compare(&board)?;
        boards.push((board, reason));
    }
    for (cells, wanted) in QUOTAS {
        let next = || board_with_cells(&mut random, &cells);
        boards.extend(boards_of_each_kind(wanted, next)?);
    }
    let leaves = finished_leaves(&mut random, FINISHED);
    for board in leaves.into_iter().chain(met_again()) {
        let reason = compare(&board)?;
        boards.push((board, reason));
    }
    let free_boards = in_edition_2(&mut random, &boards);
    let boards = [
        (Edition::ExactlyOne, boards),
        (Edition::OneOrMore, free_boards),
    ];

    let what = "Boards with what find and finished say.";
    let mut list = List::of_the_original("finds.list", 500_000, seed, what);
    for (edition, boards) in &boards {
        describe(&mut list, *edition, boards);
    }
    list.lines(&FORMAT);
    list.u16(1);
    for (edition, boards) in &boards {
        for (board, reason) in boards {
            add_entry(&mut list, board, *edition, reason.as_ref());
        }
    }
    Ok(list)
}

/// Some of these boards, which are of edition 1, and leaves finished in edition 2 alone, with the
/// reading's reason in edition 2.
fn in_edition_2(random: &mut Random, boards: &[Known]) -> Vec<Known> {
    let edition = Edition::OneOrMore;
    let stays = |(board, reason): &&Known| {
        let most = match reason.as_ref().map(|reason| reason.which) {
            Some(Which::FourB) => IN_BOTH_WITH_4_B,
            _ => IN_BOTH,
        };
        board.puzzle.size.cells() <= most
    };
    let some = boards.iter().filter(stays).map(|(board, _)| board.clone());
    let with_reason = |board: Decided| {
        let after = Board::after(&board.puzzle, edition, &board.decisions);
        let reason = find_reason(after.leaf(), &after.cells());
        (board, reason)
    };
    let grown = freely_grown_leaves(random, FINISHED);
    some.chain(grown).map(with_reason).collect()
}

/// How many boards of an edition the list has, in its head.
fn describe(list: &mut List, edition: Edition, boards: &[Known]) {
    let mut tally = Tally::default();
    for (board, reason) in boards {
        tally.add(board.puzzle.size, reason.as_ref());
    }
    let finished = boards
        .iter()
        .filter(|(board, _)| is_finished(board, edition))
        .count();
    let (number, boards) = (edition.number(), boards.len());
    list.line(&format!(
        "Edition {number}: {boards} boards, {finished} of them finished:"
    ));
    list.line(&format!("  {}.", tally.line()));
}

/// The bytes of a list with this board alone and this many rounds.
pub fn timed(rounds: usize, board: &Decided, reason: Option<&Reason>) -> Vec<u8> {
    let mut list = List::passing("A board whose find is timed.");
    list.u16(rounds);
    add_entry(&mut list, board, Edition::ExactlyOne, reason);
    list.file()
}

fn add_entry(list: &mut List, board: &Decided, edition: Edition, reason: Option<&Reason>) {
    list.entries += 1;
    list.long_bytes(&encode(&board.puzzle));
    list.u8(edition.number());
    list.literals(&board.decisions);
    list.literals(reason.map_or(&[][..], |reason| &reason.literals));
    list.u8(u8::from(is_finished(board, edition)));
}

/// The largest grid, strips of each length, squares up to 16 by 16.
fn every_shape(random: &mut Random) -> Vec<Decided> {
    let mut sizes = vec![square(32), square(32)];
    for length in 1..=32 {
        sizes.push(Size {
            height: 1,
            width: length,
        });
        sizes.push(Size {
            height: length,
            width: 1,
        });
        if length <= 16 {
            sizes.push(square(length));
        }
    }
    let board = |size| board_of_size(random, size);
    sizes.into_iter().map(board).collect()
}

fn board_with_cells(random: &mut Random, cells: &RangeInclusive<usize>) -> Decided {
    loop {
        let size = any_size(random);
        if cells.contains(&size.cells()) {
            return board_of_size(random, size);
        }
    }
}
