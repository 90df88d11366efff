//! The port's calls on a lent board, with the feature `host`, and the memory that is lent to them.

use crate::reading::lent::SIZE;

/// Memory for a board, where a compiler would lay the struct.
#[repr(C, align(8))]
#[derive(Clone)]
pub struct Memory(pub [u8; SIZE]);

/// The same with guard bytes about it.
#[repr(C, align(8))]
pub struct Guarded {
    before: [u8; GUARD],
    memory: Memory,
    behind: [u8; GUARD],
}

const GUARD: usize = 64;
const GUARD_BYTE: u8 = 0xA5;

/// Memory in a box of exactly its length, for a memory checker, or in one with guard bytes.
pub enum Lent {
    Bare(Box<Memory>),
    Guarded(Box<Guarded>),
}

impl Lent {
    pub fn new(guarded: bool, bytes: &[u8; SIZE]) -> Lent {
        let memory = Memory(*bytes);
        if !guarded {
            return Lent::Bare(Box::new(memory));
        }
        Lent::Guarded(Box::new(Guarded {
            before: [GUARD_BYTE; GUARD],
            memory,
            behind: [GUARD_BYTE; GUARD],
        }))
    }

    pub fn memory(&mut self) -> &mut Memory {
        match self {
            Lent::Bare(memory) => memory,
            Lent::Guarded(guarded) => &mut guarded.memory,
        }
    }

    pub fn bytes(&mut self) -> &mut [u8; SIZE] {
        &mut self.memory().0
    }

    /// Whether the guard bytes are what they were.
    pub fn is_intact(&self) -> bool {
        match self {
            Lent::Bare(_) => true,
            Lent::Guarded(guarded) => {
                let mut guards = guarded.before.iter().chain(&guarded.behind);
                guards.all(|&byte| byte == GUARD_BYTE)
            }
        }
    }
}

/// Each returns what the exported call returns.
#[derive(Clone, Copy)]
pub struct BoardCalls {
    /// Record, edition, numbers of the sizes.
    pub open: fn(&[u8], u32, &[u16], &mut Memory) -> i32,
    pub decide: fn(&mut Memory, usize, u8) -> i32,
    pub undo: fn(&mut Memory) -> i32,
    pub find: fn(&mut Memory, u8, &mut [u16]) -> i32,
    pub finished: fn(&Memory) -> i32,
    pub certain: fn(&Memory, u64, &mut [u8]) -> i32,
    pub hints: fn(&Memory, u8) -> i32,
}

// The package keeps its memory to itself. So its file of these calls is compiled here too, for the memory
// above; the package links them.
#[cfg(feature = "host")]
#[path = "../../rust/src/board/calls.rs"]
mod calls;

/// These calls, if this program was built with them.
#[cfg(feature = "host")]
pub const BOARD_CALLS: Option<BoardCalls> = Some(BoardCalls {
    open: calls::open,
    decide: calls::decide,
    undo: calls::undo,
    find: calls::find,
    finished: calls::finished,
    certain: calls::certain,
    hints: calls::hints,
});
#[cfg(not(feature = "host"))]
pub const BOARD_CALLS: Option<BoardCalls> = None;
