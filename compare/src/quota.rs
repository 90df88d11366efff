//! Boards of each kind in wanted numbers.

use crate::commands::finds::compare;
use crate::generate::boards::Decided;
use crate::reading::reasons::Reason;
use crate::tally::Tally;

/// A board with its reason.
pub type Known = (Decided, Option<Reason>);

/// Takes boards until there are as many of none and of each reason as wanted, in the tally's
/// order. With each goes its reason, by the reading and by the original.
pub fn boards_of_each_kind(
    wanted: [usize; Tally::COLUMNS],
    mut next: impl FnMut() -> Decided,
) -> Result<Vec<Known>, String> {
    let mut met = [0; Tally::COLUMNS];
    let mut boards = Vec::new();
    while met != wanted {
        let board = next();
        let reason = compare(&board)?;
        let column = Tally::column(reason.as_ref());
        if met[column] < wanted[column] {
            met[column] += 1;
            boards.push((board, reason));
        }
    }
    Ok(boards)
}
