//! The numbers by which lists speak of cells, groups and kinds.

use crate::reading::board::Cell;
use crate::reading::groups::Groups;
use crate::reading::kinds::Kind;

/// Where a cell is in no group.
const NO_NAME: usize = 1_024;

pub fn cell_number(cell: Cell) -> u8 {
    match cell {
        Cell::Empty => 0,
        Cell::Square => 1,
        Cell::Undecided => 2,
    }
}

/// For each cell the name of its group.
pub fn names(groups: &Groups) -> Vec<usize> {
    let name = |name: &Option<usize>| name.unwrap_or(NO_NAME);
    groups.name_of.iter().map(name).collect()
}

/// The number of a kind, and the name of what the cell belongs to.
pub fn kind_and_owner(kind: Kind) -> (u8, usize) {
    match kind {
        Kind::Empty => (0, NO_NAME),
        Kind::ArrowBlock(owner) => (1, owner),
        Kind::Neighbour(owner) => (2, owner),
        Kind::Barrier => (3, NO_NAME),
        Kind::Floating(owner) => (4, owner),
    }
}
