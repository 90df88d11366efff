//! The exported calls on a lent board, made safe for `Memory` of the module around this one. It has the size and the alignment of
//! `struct evolmino_board` of `c/evolmino.h`, and any bytes may stand in it. `compare/` takes this file too, for memory of its own.

use super::Memory;

extern "C" {
    fn evolmino_board_open(
        record: *const u8,
        record_len: usize,
        edition: u32,
        sizes: *const u16,
        sizes_len: usize,
        board: *mut Memory,
    ) -> i32;

    fn evolmino_board_decide(board: *mut Memory, index: usize, value: u8) -> i32;

    fn evolmino_board_undo(board: *mut Memory) -> i32;

    fn evolmino_board_find(
        board: *mut Memory,
        player: u8,
        literals: *mut u16,
        literals_len: usize,
    ) -> i32;

    fn evolmino_board_finished(board: *const Memory) -> i32;

    fn evolmino_board_certain(
        board: *const Memory,
        budget: u64,
        output: *mut u8,
        output_len: usize,
    ) -> i32;

    fn evolmino_board_hints(board: *const Memory, player: u8) -> i32;
}

// Each returns what the exported call returns. Safe, each of them: a board's pointer comes from a reference, every other one from a slice
// and goes with its length; the call writes only through those that are `mut`, and keeps none of them.

/// Record, edition, numbers of the sizes.
pub(super) fn open(record: &[u8], edition: u32, sizes: &[u16], board: &mut Memory) -> i32 {
    unsafe {
        evolmino_board_open(
            record.as_ptr(),
            record.len(),
            edition,
            sizes.as_ptr(),
            sizes.len(),
            board,
        )
    }
}

pub(super) fn decide(board: &mut Memory, index: usize, value: u8) -> i32 {
    unsafe { evolmino_board_decide(board, index, value) }
}

pub(super) fn undo(board: &mut Memory) -> i32 {
    unsafe { evolmino_board_undo(board) }
}

pub(super) fn find(board: &mut Memory, player: u8, literals: &mut [u16]) -> i32 {
    unsafe { evolmino_board_find(board, player, literals.as_mut_ptr(), literals.len()) }
}

pub(super) fn finished(board: &Memory) -> i32 {
    unsafe { evolmino_board_finished(board) }
}

pub(super) fn certain(board: &Memory, budget: u64, output: &mut [u8]) -> i32 {
    unsafe { evolmino_board_certain(board, budget, output.as_mut_ptr(), output.len()) }
}

pub(super) fn hints(board: &Memory, player: u8) -> i32 {
    unsafe { evolmino_board_hints(board, player) }
}
