//! `groups.list`: groups, kinds, reach and fence of whole boards.

use super::numbers::{kind_and_owner, names};
use super::List;
use crate::commands::groups::compare_with_original;
use crate::generate::boards::{any_board, decided, Decided};
use crate::generate::met::met_again;
use crate::generate::patterns::{INSIDE_AND_OUTSIDE, PATTERNS};
use crate::generate::puzzles::{puzzle, puzzle_of_size, square, Arrows};
use crate::random::Random;
use crate::reading::board::{Board, Cell};
use crate::reading::grid::Size;
use crate::reading::groups::{blocks, potential_groups};
use crate::reading::kinds::Kinds;
use crate::reading::Edition;

const FORMAT: [&str; 18] = [
    "Kinds, reach and fence are compared with the original where no block has two arrow cells: it",
    "has them there only. Elsewhere they are document 01's, by the literal reading.",
    "u16 and u16 rounds: how often the labels and how often the kinds of each board are computed",
    "before they are compared.",
    "Entries to the end of the file: u16 record length, the record, u16 number of decisions, that",
    "many u16 decisions (value * 32768 + index), then with n = height * width:",
    "  n u16 names of potential groups: the index of the group's first cell, or 1024 for none",
    "  n u16 counts of their squares: for each cell, as a name, 0 where no group has it",
    "  n u16 counts of their arrow cells, likewise",
    "  n u16 names of blocks, n u16 counts of their squares and n u16 of their arrow cells, likewise",
    "  n bytes, the kinds: 0 empty, 1 in an arrow block, 2 neighbour, 3 barrier, 4 floating",
    "  n u16 owners: the first cell of the arrow block for kinds 1 and 2, of the floating group for",
    "    kind 4, 1024 for the others",
    "  u16 number of arrow blocks, and for each, rising:",
    "    u16 name, its first cell",
    "    u16 number of cells in its reach",
    "    n bytes, 1 for a cell in its reach and 0 for another",
    "    u16 number of literals of its fence, and that many u16 literals",
];

pub fn groups(seed: u64) -> Result<List, String> {
    let what = "Boards with their groups, kinds, reach and fence.";
    let mut list = List::of_the_original("groups.list", 600_000, seed, what);
    list.lines(&FORMAT);
    let mut random = Random::new(seed);
    let mut boards = patterns(&mut random);
    boards.extend(large_patterns(&mut random));
    while boards.len() < 460 {
        let board = any_board(&mut random);
        if board.puzzle.size.cells() <= 100 {
            boards.push(board);
        }
    }
    boards.extend(met_again());
    list.numbers(&[1, 1]);
    for board in &boards {
        compare_with_original(board)?;
        add_entry(&mut list, board);
    }
    Ok(list)
}

/// The bytes of a list with this board alone and these rounds, of the labels and of the kinds.
pub fn timed(rounds: [usize; 2], board: &Decided) -> Vec<u8> {
    let mut list = List::passing("A board whose groups are timed.");
    list.numbers(&rounds);
    add_entry(&mut list, board);
    list.file()
}

/// Every pattern on small grids and strips.
fn patterns(random: &mut Random) -> Vec<Decided> {
    let mut boards = Vec::new();
    for (height, width) in [(1, 1), (1, 32), (32, 1), (5, 6), (7, 7)] {
        let size = Size { height, width };
        for pattern in PATTERNS {
            for (inside, outside) in INSIDE_AND_OUTSIDE {
                let cells = pattern.cells(size, inside, outside);
                let puzzle = puzzle_of_size(random, size);
                boards.push(decided(random, puzzle, &cells));
            }
        }
    }
    boards
}

/// On 32 by 32 with few arrow blocks, since each takes more than 1,024 bytes.
fn large_patterns(random: &mut Random) -> Vec<Decided> {
    let mut boards = Vec::new();
    for (pattern, &(inside, outside)) in PATTERNS.iter().zip(&INSIDE_AND_OUTSIDE) {
        let cells = pattern.cells(square(32), inside, outside);
        let puzzle = puzzle(random, square(32), Arrows::Sparse);
        boards.push(decided(random, puzzle, &cells));
    }
    for all in [Cell::Square, Cell::Undecided, Cell::Empty] {
        let puzzle = puzzle(random, square(32), Arrows::Snake);
        boards.push(decided(random, puzzle, &[all; 1_024]));
    }
    boards
}

fn add_entry(list: &mut List, decided: &Decided) {
    list.board(decided);
    let size = decided.puzzle.size;
    let cells = Board::after(&decided.puzzle, Edition::ExactlyOne, &decided.decisions).cells();
    let kinds = Kinds::of(&decided.puzzle, &cells);
    let kinds_and_owners = kinds.kind_of.iter().map(|&kind| kind_and_owner(kind));
    let (numbers, owners): (Vec<u8>, Vec<usize>) = kinds_and_owners.unzip();
    let on_arrow = decided.puzzle.arrow_cells();
    for groups in [potential_groups(size, &cells), blocks(size, &cells)] {
        list.numbers(&names(&groups));
        list.numbers(&groups.counts(|cell| cells[cell] == Cell::Square));
        list.numbers(&groups.counts(|cell| on_arrow[cell]));
    }
    list.bytes(&numbers);
    list.numbers(&owners);
    list.u16(kinds.arrow_blocks.len());
    for &name in &kinds.arrow_blocks {
        let reach = kinds.reach(name);
        list.u16(name);
        list.u16(reach.iter().filter(|&&inside| inside).count());
        for inside in reach {
            list.u8(u8::from(inside));
        }
        list.literals(&kinds.fence(name));
    }
}
