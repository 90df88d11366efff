//! `compare groups`: the layers below find, against what the original has inside.

use crate::generate::boards::{any_board, Decided};
use crate::original::Original;
use crate::progress::{facts, repeatedly, Outcome};
use crate::reading::board::Cell;
use crate::reading::groups::{blocks, potential_groups, Groups};
use crate::reading::kinds::Kinds;
use crate::reading::record::Puzzle;
use crate::reading::Literal;
use crate::shrink::shrunk;

#[derive(Default)]
struct Counts {
    boards: usize,
    groups: usize,
    boards_with_kinds: usize,
    arrow_blocks: usize,
}

pub fn run(seed: u64, count: usize) -> Outcome {
    let mut counts = Counts::default();
    repeatedly("groups", seed, count, |random| {
        compare(&any_board(random), &mut counts)
    })?;
    println!(
        "groups: {} boards with {} blocks and potential groups; kinds of {} boards, \
         reach and fence of {} arrow blocks",
        counts.boards, counts.groups, counts.boards_with_kinds, counts.arrow_blocks
    );
    Ok(())
}

/// Compares one board.
pub fn compare_with_original(board: &Decided) -> Outcome {
    compare(board, &mut Counts::default())
}

fn compare(board: &Decided, counts: &mut Counts) -> Outcome {
    let Decided { puzzle, decisions } = board;
    let Err(what) = compare_groups(puzzle, decisions, counts) else {
        return Ok(());
    };
    let decisions = shrunk(decisions, |decisions| {
        compare_groups(puzzle, decisions, &mut Counts::default()) == Err(what)
    });
    Err(format!("{}\n{what} differ", facts(puzzle, &decisions)))
}

/// What differs, if something does.
fn compare_groups(
    puzzle: &Puzzle,
    decisions: &[Literal],
    counts: &mut Counts,
) -> Result<(), &'static str> {
    let original = Original::after(puzzle, decisions);
    let access = &original.access;
    let cells = access.cells();
    let simple = access.simple();
    let blocks = blocks(puzzle.size, &cells);
    let potential_groups = potential_groups(puzzle.size, &cells);
    ensure(all_cells(&blocks) == access.blocks(&simple), "blocks")?;
    let same = all_cells(&potential_groups) == access.potential_blocks(&simple);
    ensure(same, "potential groups")?;
    counts.boards += 1;
    counts.groups += blocks.names.len() + potential_groups.names.len();
    if two_arrow_cells_in_a_block(puzzle, &cells) {
        return Ok(());
    }
    compare_kinds(puzzle, &original, counts)
}

fn compare_kinds(
    puzzle: &Puzzle,
    original: &Original,
    counts: &mut Counts,
) -> Result<(), &'static str> {
    let access = &original.access;
    let kinds = Kinds::of(puzzle, &access.cells());
    let detailed = access.detailed(&access.simple());
    ensure(kinds.kind_of == access.kinds(&detailed), "kinds")?;
    let arrow_blocks: Vec<Vec<usize>> = kinds
        .arrow_blocks
        .iter()
        .map(|&name| kinds.block_cells(name))
        .collect();
    ensure(
        arrow_blocks == access.arrow_blocks(&detailed),
        "arrow blocks",
    )?;
    for (id, &name) in kinds.arrow_blocks.iter().enumerate() {
        ensure(kinds.reach(name) == access.reach(&detailed, id), "reaches")?;
        ensure(kinds.fence(name) == access.fence(&detailed, id), "fences")?;
    }
    counts.boards_with_kinds += 1;
    counts.arrow_blocks += arrow_blocks.len();
    Ok(())
}

fn ensure(same: bool, what: &'static str) -> Result<(), &'static str> {
    if same {
        Ok(())
    } else {
        Err(what)
    }
}

fn all_cells(groups: &Groups) -> Vec<Vec<usize>> {
    groups
        .names
        .iter()
        .map(|&name| groups.cells(name))
        .collect()
}

/// The original computes kinds only where no block has two arrow cells.
pub fn two_arrow_cells_in_a_block(puzzle: &Puzzle, cells: &[Cell]) -> bool {
    let on_arrow = puzzle.arrow_cells();
    let blocks = blocks(puzzle.size, cells);
    let arrow_cells = |&name: &usize| {
        let block = blocks.cells(name);
        block.iter().filter(|&&cell| on_arrow[cell]).count()
    };
    blocks.names.iter().any(|name| arrow_cells(name) > 1)
}
