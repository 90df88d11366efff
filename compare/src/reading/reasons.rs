//! "Reasons": the first of 1 to 4 that applies, and after them those of document 02 §12.

use super::board::{Board, Cell};
use super::grid::Size;
use super::groups::{blocks, pairs, potential_groups, some_shift_lies_in, Groups, Pair};
use super::kinds::Kinds;
use super::leaf::Leaf;
use super::record::Puzzle;
use super::sizes::Range;
use super::{Edition, Literal, Refusal};

#[derive(Clone, Copy, Debug, PartialEq, Eq)]
pub enum Which {
    One,
    Two,
    Three,
    FourA,
    FourB,
    /// The reach of a sized cell's block is smaller than the lowest.
    FiveLow,
    /// A sized cell's block is larger than the highest.
    FiveHigh,
}

#[derive(Clone, Debug, PartialEq, Eq)]
pub struct Reason {
    pub which: Which,
    pub literals: Vec<Literal>,
}

/// A reason has at most this many literals, and a shorter buffer is refused.
pub fn most_literals(size: Size) -> usize {
    3 * size.cells() + 1
}

/// `find` by a player, 0 to 3, with a buffer of that many literals. It counts as that player's hint
/// unless it is refused. Refusals: 17, then 11.
pub fn find(board: &mut Board, player: u8, buffer: usize) -> Result<Option<Reason>, Refusal> {
    if player > 3 {
        return Err(Refusal::Player);
    }
    if buffer < most_literals(board.puzzle().size) {
        return Err(Refusal::OutputShort);
    }
    board.count_hint(player);
    Ok(find_reason(board.leaf(), &board.cells()))
}

pub fn find_reason(leaf: &Leaf, cells: &[Cell]) -> Option<Reason> {
    let puzzle = &leaf.puzzle;
    reason_1(puzzle, cells)
        .or_else(|| reason_2(puzzle, cells))
        .or_else(|| reason_3_to_5(leaf, cells))
}

/// A potential group with a square and no arrow cell.
fn reason_1(puzzle: &Puzzle, cells: &[Cell]) -> Option<Reason> {
    let size = puzzle.size;
    let on_arrow = puzzle.arrow_cells();
    let groups = potential_groups(size, cells);
    for &name in &groups.names {
        let group = groups.cells(name);
        let last_square = group.iter().rfind(|&&cell| cells[cell] == Cell::Square);
        if let (Some(&last_square), false) = (last_square, group.iter().any(|&c| on_arrow[c])) {
            let in_group = |cell: usize| groups.name_of[cell] == Some(name);
            let mut literals: Vec<Literal> = (0..size.cells())
                .filter(|&cell| cells[cell] == Cell::Empty && size.touches(cell, in_group))
                .map(|cell| (cell, 0))
                .collect();
            literals.push((last_square, 1));
            return Some(Reason {
                which: Which::One,
                literals,
            });
        }
    }
    None
}

/// A block with two or more arrow cells.
fn reason_2(puzzle: &Puzzle, cells: &[Cell]) -> Option<Reason> {
    let on_arrow = puzzle.arrow_cells();
    let blocks = blocks(puzzle.size, cells);
    let first_two_arrow_cells = |&name: &usize| {
        let block = blocks.cells(name);
        let mut arrow_cells = block.into_iter().filter(|&cell| on_arrow[cell]);
        Some((arrow_cells.next()?, arrow_cells.next()?))
    };
    let (a, b) = blocks.names.iter().find_map(first_two_arrow_cells)?;
    let path = path(puzzle.size, &blocks, a, b);
    Some(Reason {
        which: Which::Two,
        literals: path.into_iter().map(|cell| (cell, 1)).collect(),
    })
}

/// From a by parents to b, the parents being those of the breadth-first list that starts at b.
fn path(size: Size, blocks: &Groups, a: usize, b: usize) -> Vec<usize> {
    let mut parent = vec![None; size.cells()];
    let mut listed = vec![b];
    let mut turn = 0;
    while turn < listed.len() {
        let cell = listed[turn];
        for beside in size.neighbours(cell) {
            if blocks.name_of[beside].is_some() && !listed.contains(&beside) {
                listed.push(beside);
                parent[beside] = Some(cell);
            }
        }
        turn += 1;
    }
    let mut path = vec![a];
    while let Some(next) = parent[path[path.len() - 1]] {
        path.push(next);
    }
    path
}

/// 4 only when no pair on any arrow meets 3, and 5 only when none meets 4.
fn reason_3_to_5(leaf: &Leaf, cells: &[Cell]) -> Option<Reason> {
    let puzzle = &leaf.puzzle;
    let view = View {
        size: puzzle.size,
        cells,
        kinds: Kinds::of(puzzle, cells),
    };
    let pairs = pairs(puzzle, cells);
    let reason_3 = || pairs.iter().find_map(|pair| view.reason_3(pair));
    let reason_4 = || {
        let of_pair = |pair| view.reason_4(leaf.edition, pair);
        pairs.iter().find_map(of_pair)
    };
    reason_3()
        .or_else(reason_4)
        .or_else(|| view.reason_5(&leaf.sizes))
}

/// A board as reasons 3 to 5 look at it. Blocks are spoken of by an arrow cell in them.
struct View<'a> {
    size: Size,
    cells: &'a [Cell],
    kinds: Kinds,
}

impl View<'_> {
    fn block(&self, arrow_cell: usize) -> Vec<usize> {
        let name = self.kinds.arrow_block_of(arrow_cell);
        self.kinds.block_cells(name)
    }

    fn reach(&self, arrow_cell: usize) -> Vec<bool> {
        self.kinds.reach(self.kinds.arrow_block_of(arrow_cell))
    }

    fn fence(&self, arrow_cell: usize) -> Vec<Literal> {
        self.kinds.fence(self.kinds.arrow_block_of(arrow_cell))
    }

    /// No shift of last's block lies wholly in cur's reach.
    fn reason_3(&self, pair: &Pair) -> Option<Reason> {
        let last_block = self.block(pair.last_cell());
        let cur_reach = self.reach(pair.cur_cell());
        let fits = some_shift_lies_in(self.size, &last_block, |cell| cur_reach[cell]);
        (!fits).then(|| self.cur_cannot_hold_last(Which::Three, pair))
    }

    /// (a), then (b), of one pair. Where a block may add one square or more, (b) doesn't exist.
    fn reason_4(&self, edition: Edition, pair: &Pair) -> Option<Reason> {
        let cur_reach = count(&self.reach(pair.cur_cell()));
        if cur_reach < self.block(pair.last_cell()).len() + 1 {
            return Some(self.cur_cannot_hold_last(Which::FourA, pair));
        }
        if edition == Edition::OneOrMore {
            return None;
        }
        let last_reach = count(&self.reach(pair.last_cell()));
        if last_reach + 1 + self.most_between(pair) < self.block(pair.cur_cell()).len() {
            return Some(self.cur_is_too_large(pair));
        }
        None
    }

    /// The sized cells that are square, by index: the reach of the cell's block is smaller than the
    /// lowest; otherwise the block is larger than the highest.
    fn reason_5(&self, sizes: &[Range]) -> Option<Reason> {
        for cell in 0..self.size.cells() {
            for range in sizes.iter().filter(|range| range.cell == cell) {
                if self.cells[cell] != Cell::Square {
                    continue;
                }
                if count(&self.reach(cell)) < range.lowest {
                    let mut literals = vec![(cell, 1)];
                    literals.extend(self.fence(cell));
                    return Some(Reason {
                        which: Which::FiveLow,
                        literals,
                    });
                }
                if self.block(cell).len() > range.highest {
                    return Some(Reason {
                        which: Which::FiveHigh,
                        literals: squares(&self.block(cell)),
                    });
                }
            }
        }
        None
    }

    /// Last's block rising, cur's arrow cell, the fence of cur's block.
    fn cur_cannot_hold_last(&self, which: Which, pair: &Pair) -> Reason {
        let mut literals = squares(&self.block(pair.last_cell()));
        literals.push((pair.cur_cell(), 1));
        literals.extend(self.fence(pair.cur_cell()));
        Reason { which, literals }
    }

    /// Cur's block rising, last's arrow cell, the fence of last's block, the empty cells between.
    fn cur_is_too_large(&self, pair: &Pair) -> Reason {
        let mut literals = squares(&self.block(pair.cur_cell()));
        literals.push((pair.last_cell(), 1));
        literals.extend(self.fence(pair.last_cell()));
        for &cell in between(pair) {
            if self.cells[cell] == Cell::Empty {
                literals.push((cell, 0));
            }
        }
        Reason {
            which: Which::FourB,
            literals,
        }
    }

    /// g: the most undecided cells between, no two consecutive.
    fn most_between(&self, pair: &Pair) -> usize {
        // most[k]: the most among the first k positions
        let mut most = vec![0];
        for (k, &cell) in between(pair).iter().enumerate() {
            let without = most[k];
            let with = 1 + most[k.saturating_sub(1)];
            let undecided = self.cells[cell] == Cell::Undecided;
            most.push(if undecided {
                without.max(with)
            } else {
                without
            });
        }
        most[most.len() - 1]
    }
}

/// The arrow's cells at positions last + 2 to cur − 2.
fn between<'a>(pair: &Pair<'a>) -> &'a [usize] {
    let (first, last) = (pair.last + 2, pair.cur.saturating_sub(2));
    if first <= last {
        &pair.arrow[first..=last]
    } else {
        &[]
    }
}

fn squares(block: &[usize]) -> Vec<Literal> {
    block.iter().map(|&cell| (cell, 1)).collect()
}

fn count(set: &[bool]) -> usize {
    set.iter().filter(|&&inside| inside).count()
}
