//! A board lent by the caller: what stands in its memory, which memory some list of calls leaves (refusal
//! 6), and what each call on it says.
//!
//! The memory is that of `struct evolmino_board` in `../../c/evolmino.h`.

use super::board::{Board, Hints};
use super::certain::{certain, Answer};
use super::finished::finished;
use super::grid::Size;
use super::reasons::{find, Reason};
use super::record::{encode, Code, Puzzle};
use super::{Literal, Refusal};

/// The fields of the struct in order: how many bytes its numbers have, and how many numbers it has.
const SHAPES: [(usize, usize); 13] = [
    (8, 1),     // height
    (8, 1),     // width
    (1, 1_024), // the codes of the cells
    (2, 1_024), // the cells of the arrows
    (2, 1_024), // the ends of the arrows
    (8, 1),     // how many arrows
    (1, 1),     // edition
    (1, 1_024), // the states of the cells
    (2, 1_024), // the decided cells in order
    (8, 1),     // how many of them
    (2, 4),     // hints
    (2, 1_024), // lowest
    (2, 1_024), // highest
];

/// Where each field begins: behind the one before it, at the next multiple of the size of its numbers, as
/// a C compiler lays them out.
pub const PLACES: [usize; SHAPES.len()] = places();

/// The bytes of the whole struct, a multiple of the size of its largest numbers.
pub const SIZE: usize = round_up(
    PLACES[SHAPES.len() - 1] + bytes_of(SHAPES[SHAPES.len() - 1]),
    8,
);

const fn round_up(place: usize, multiple: usize) -> usize {
    place.div_ceil(multiple) * multiple
}

const fn bytes_of((size, count): (usize, usize)) -> usize {
    size * count
}

const fn places() -> [usize; SHAPES.len()] {
    let mut places = [0; SHAPES.len()];
    let mut field = 1;
    while field < SHAPES.len() {
        let behind = places[field - 1] + bytes_of(SHAPES[field - 1]);
        places[field] = round_up(behind, SHAPES[field].0);
        field += 1;
    }
    places
}

/// The field that a byte belongs to; none for a byte between two fields.
pub fn field_of(place: usize) -> Option<usize> {
    let is_in = |field: &usize| {
        let begin = PLACES[*field];
        (begin..begin + bytes_of(SHAPES[*field])).contains(&place)
    };
    (0..SHAPES.len()).find(is_in)
}

/// The bytes between two fields. They mean nothing.
pub const BETWEEN: [usize; 7] = [6_169, 8_218, 8_219, 8_220, 8_221, 8_222, 8_223];

/// What stands in a board's memory, whatever it is.
#[derive(Clone, Debug, PartialEq, Eq)]
pub struct Fields {
    pub height: u64,
    pub width: u64,
    pub codes: [u8; 1_024],
    pub arrows: [u16; 1_024],
    pub ends: [u16; 1_024],
    pub count: u64,
    pub edition: u8,
    pub cells: [u8; 1_024],
    pub order: [u16; 1_024],
    pub decided: u64,
    pub hints: Hints,
    pub lowest: [u16; 1_024],
    pub highest: [u16; 1_024],
}

impl Fields {
    pub fn read(bytes: &[u8; SIZE]) -> Fields {
        let numbers = |field: usize| number(bytes, PLACES[field]);
        Fields {
            height: numbers(0),
            width: numbers(1),
            codes: byte_array(bytes, PLACES[2]),
            arrows: words(bytes, PLACES[3]),
            ends: words(bytes, PLACES[4]),
            count: numbers(5),
            edition: bytes[PLACES[6]],
            cells: byte_array(bytes, PLACES[7]),
            order: words(bytes, PLACES[8]),
            decided: numbers(9),
            hints: words(bytes, PLACES[10]),
            lowest: words(bytes, PLACES[11]),
            highest: words(bytes, PLACES[12]),
        }
    }

    /// The bytes between the fields stay as they are.
    pub fn write(&self, bytes: &mut [u8; SIZE]) {
        put(bytes, PLACES[0], &self.height.to_ne_bytes());
        put(bytes, PLACES[1], &self.width.to_ne_bytes());
        put(bytes, PLACES[2], &self.codes);
        put_words(bytes, PLACES[3], &self.arrows);
        put_words(bytes, PLACES[4], &self.ends);
        put(bytes, PLACES[5], &self.count.to_ne_bytes());
        bytes[PLACES[6]] = self.edition;
        put(bytes, PLACES[7], &self.cells);
        put_words(bytes, PLACES[8], &self.order);
        put(bytes, PLACES[9], &self.decided.to_ne_bytes());
        put_words(bytes, PLACES[10], &self.hints);
        put_words(bytes, PLACES[11], &self.lowest);
        put_words(bytes, PLACES[12], &self.highest);
    }

    /// What the calls that led to a board of the plain machine leave in the memory: its leaf, the state of
    /// each cell, the decided cells in order and the counts of hints. Behind what there is of a list stands
    /// 0, and behind the cells of the grid undecided ones.
    pub fn of(board: &Board) -> Fields {
        let puzzle = board.puzzle();
        let mut fields = Fields {
            height: puzzle.size.height as u64,
            width: puzzle.size.width as u64,
            codes: [0; 1_024],
            arrows: [0; 1_024],
            ends: [0; 1_024],
            count: puzzle.arrows.len() as u64,
            edition: board.edition().number(),
            cells: [2; 1_024],
            order: [0; 1_024],
            decided: board.standing().len() as u64,
            hints: board.hints(),
            lowest: [0; 1_024],
            highest: [0; 1_024],
        };
        for (cell, &code) in puzzle.codes.iter().enumerate() {
            fields.codes[cell] = code as u8;
        }
        let mut end = 0;
        for (number, arrow) in puzzle.arrows.iter().enumerate() {
            for &cell in arrow {
                fields.arrows[end] = cell as u16;
                end += 1;
            }
            fields.ends[number] = end as u16;
        }
        for (place, &(index, value)) in board.standing().iter().enumerate() {
            fields.order[place] = index as u16;
            fields.cells[index] = value;
        }
        for range in &board.leaf().sizes {
            fields.lowest[range.cell] = range.lowest as u16;
            fields.highest[range.cell] = range.highest as u16;
        }
        fields
    }

    /// The board of the plain machine that this memory is of; none for one that no list of calls could
    /// leave.
    ///
    /// There is one list to try: open the record that the memory tells of, and decide what it says is
    /// decided, in order. Any counts of hints could be left. Some list leaves this memory exactly when
    /// none of these calls is refused and this very memory is what they leave.
    pub fn board(&self) -> Option<Board> {
        let puzzle = self.puzzle()?;
        let numbers = self.sizes();
        let mut board = Board::open(&encode(&puzzle), self.edition.into(), &numbers).ok()?;
        for (index, value) in self.decisions()? {
            board.decide(index, value).ok()?;
        }
        board.hand_in(self.hints);
        (Fields::of(&board) == *self).then_some(board)
    }

    /// A puzzle that can be written as a record, if the memory tells of one.
    fn puzzle(&self) -> Option<Puzzle> {
        let side = |number: u64| (1..=32).contains(&number).then_some(number as usize);
        let size = Size {
            height: side(self.height)?,
            width: side(self.width)?,
        };
        let code = |&code: &u8| match code {
            0 => Some(Code::Plain),
            1 => Some(Code::Black),
            2 => Some(Code::Given),
            _ => None,
        };
        let codes: Option<Vec<Code>> = self.codes[..size.cells()].iter().map(code).collect();
        let mut arrows = Vec::new();
        let mut begin = 0;
        // there are places for 1,024 ends
        for &end in self.ends.get(..usize::try_from(self.count).ok()?)? {
            let end = usize::from(end);
            // an arrow that ends before it begins, or behind the last place, is none
            let cells = self.arrows.get(begin..end)?;
            let arrow: Vec<usize> = cells.iter().map(|&cell| usize::from(cell)).collect();
            if !is_written(size, &arrow) {
                return None;
            }
            arrows.push(arrow);
            begin = end;
        }
        Some(Puzzle {
            size,
            codes: codes?,
            arrows,
        })
    }

    /// Cell, lowest and highest for each cell that has one of them.
    fn sizes(&self) -> Vec<u16> {
        let mut numbers = Vec::new();
        for (cell, (&lowest, &highest)) in self.lowest.iter().zip(&self.highest).enumerate() {
            if (lowest, highest) != (0, 0) {
                numbers.extend([cell as u16, lowest, highest]);
            }
        }
        numbers
    }

    /// The decided cells in order, with their states; none where there are not so many, or one is no cell.
    fn decisions(&self) -> Option<Vec<Literal>> {
        let decided = self.order.get(..usize::try_from(self.decided).ok()?)?;
        let decision = |&cell: &u16| {
            let index = usize::from(cell);
            Some((index, *self.cells.get(index)?))
        };
        decided.iter().map(decision).collect()
    }
}

/// Whether a record has bits for an arrow: some cells of the grid, each beside the one before it.
fn is_written(size: Size, arrow: &[usize]) -> bool {
    let on_grid = arrow.iter().all(|&cell| cell < size.cells());
    let beside = |two: &[usize]| size.neighbours(two[0]).any(|cell| cell == two[1]);
    !arrow.is_empty() && on_grid && arrow.windows(2).all(beside)
}

fn byte_array<const N: usize>(bytes: &[u8; SIZE], place: usize) -> [u8; N] {
    let field = &bytes[place..place + N];
    field.try_into().expect("the field has so many bytes")
}

fn words<const N: usize>(bytes: &[u8; SIZE], place: usize) -> [u16; N] {
    let field = &bytes[place..place + 2 * N];
    let mut words = [0; N];
    for (word, two) in words.iter_mut().zip(field.chunks_exact(2)) {
        *word = u16::from_ne_bytes([two[0], two[1]]);
    }
    words
}

fn number(bytes: &[u8; SIZE], place: usize) -> u64 {
    u64::from_ne_bytes(byte_array(bytes, place))
}

fn put(bytes: &mut [u8; SIZE], place: usize, field: &[u8]) {
    bytes[place..place + field.len()].copy_from_slice(field);
}

fn put_words(bytes: &mut [u8; SIZE], place: usize, field: &[u16]) {
    let places = bytes[place..place + 2 * field.len()].chunks_exact_mut(2);
    for (two, word) in places.zip(field) {
        two.copy_from_slice(&word.to_ne_bytes());
    }
}

/// A call on a lent board.
#[derive(Clone, Copy, Debug, PartialEq, Eq)]
pub enum LentCall {
    Decide {
        index: usize,
        value: u8,
    },
    Undo,
    /// By a player, with a buffer of so many literals.
    Find {
        player: u8,
        buffer: usize,
    },
    Finished,
    /// Within a budget, with an output of so many bytes.
    Certain {
        budget: u64,
        output: usize,
    },
    Hints {
        player: u8,
    },
}

/// What a call says.
#[derive(Clone, Debug, PartialEq, Eq)]
pub enum Said {
    Done,
    Refused(Refusal),
    Found(Option<Reason>),
    Finished(bool),
    Certain(Answer),
    Hints(u16),
}

impl Said {
    /// The number that the call returns.
    pub fn number(&self) -> i32 {
        match self {
            Said::Done => 0,
            Said::Refused(refusal) => -i32::from(refusal.number()),
            Said::Found(None) => 0,
            Said::Found(Some(reason)) => reason.literals.len() as i32,
            Said::Finished(yes) => i32::from(*yes),
            Said::Certain(answer) => answer.number(),
            Said::Hints(count) => i32::from(*count),
        }
    }

    /// What a find writes to the front of its buffer: value × 32,768 + index for each literal.
    pub fn literals(&self) -> Vec<u16> {
        match self {
            Said::Found(Some(reason)) => {
                let literal = |&(index, value): &Literal| u16::from(value) * 32_768 + index as u16;
                reason.literals.iter().map(literal).collect()
            }
            _ => Vec::new(),
        }
    }

    /// What the call for certain cells writes to the front of its output.
    pub fn bytes(&self) -> Vec<u8> {
        match self {
            Said::Certain(answer) => answer.bytes(),
            _ => Vec::new(),
        }
    }
}

/// A call on a board that some list of calls leaves. Decide is refused by 7, 8, 9, undo by 10, find by 17
/// and 11, certain by 11, hints by 17.
pub fn said(board: &mut Board, call: LentCall) -> Said {
    let done = |result: Result<(), Refusal>| result.map(|()| Said::Done);
    let said = match call {
        LentCall::Decide { index, value } => done(board.decide(index, value)),
        LentCall::Undo => done(board.undo()),
        LentCall::Find { player, buffer } => find(board, player, buffer).map(Said::Found),
        LentCall::Finished => Ok(Said::Finished(finished(board))),
        LentCall::Certain { output, .. } if output < 8 + board.puzzle().size.cells() => {
            Err(Refusal::OutputShort)
        }
        LentCall::Certain { budget, .. } => Ok(Said::Certain(certain(board, budget))),
        LentCall::Hints { player } => board
            .hints()
            .get(usize::from(player))
            .map(|&count| Said::Hints(count))
            .ok_or(Refusal::Player),
    };
    said.unwrap_or_else(Said::Refused)
}

/// A call on any memory: 6 comes first, and whatever is refused changes nothing.
pub fn said_of(fields: &mut Fields, call: LentCall) -> Said {
    let Some(mut board) = fields.board() else {
        return Said::Refused(Refusal::Board);
    };
    let said = said(&mut board, call);
    *fields = Fields::of(&board);
    said
}

#[cfg(test)]
mod tests {
    use super::*;
    use crate::generate::boards::any_board;
    use crate::generate::calls::any_hints;
    use crate::generate::sizes::{any_sized_leaf, as_read};
    use crate::random::Random;
    use crate::reading::leaf::Leaf;
    use crate::reading::record::plain;
    use crate::reading::Edition;

    /// As the header asserts them.
    #[test]
    fn places_of_the_header() {
        let header = include_str!("../../../c/evolmino.h");
        let asserted = header
            .lines()
            .filter_map(|line| line.strip_prefix("EVOLMINO_LIES_AT("))
            .map(|line| line.trim_end_matches(");").rsplit(", ").next())
            .map(|place| place.and_then(|place| place.parse().ok()));
        let asserted: Option<Vec<usize>> = asserted.collect();
        assert_eq!(asserted, Some(PLACES.to_vec()));
        assert!(header.contains(&format!("#define EVOLMINO_BOARD_SIZE {SIZE}\n")));
        let between: Vec<usize> = (0..SIZE).filter(|&k| field_of(k).is_none()).collect();
        assert_eq!(between, BETWEEN);
    }

    #[test]
    fn fields_and_bytes() {
        let mut random = Random::new(1);
        let noise: [u8; SIZE] = std::array::from_fn(|_| random.byte());
        let mut other: [u8; SIZE] = std::array::from_fn(|_| random.byte());
        Fields::read(&noise).write(&mut other);
        assert_eq!(Fields::read(&other), Fields::read(&noise));
        for place in 0..SIZE {
            if field_of(place).is_some() {
                assert_eq!(noise[place], other[place], "{place}");
            }
        }
    }

    /// Boards that calls leave are what their memory tells of.
    #[test]
    fn boards_that_calls_leave() {
        let mut random = Random::new(2);
        for _ in 0..300 {
            let goal = any_board(&mut random);
            let leaf = any_sized_leaf(&mut random, &goal);
            let mut board = Board::of_leaf(&leaf, &goal.decisions);
            board.hand_in(any_hints(&mut random));
            let fields = Fields::of(&board);
            let told = fields.board().expect("calls leave it");
            assert_eq!(told.leaf(), board.leaf());
            assert_eq!(told.standing(), board.standing());
            assert_eq!(told.hints(), board.hints());
        }
    }

    /// One row of three cells with an arrow along the first two, cell 1 square and then cell 2 empty.
    fn example() -> Fields {
        let leaf = Leaf {
            sizes: as_read(&[[1, 2, 5]]),
            ..Leaf::unsized_in(Edition::OneOrMore, &plain(1, 3, vec![vec![0, 1]]))
        };
        Fields::of(&Board::of_leaf(&leaf, &[(1, 1), (2, 0)]))
    }

    #[test]
    fn what_no_list_of_calls_leaves() {
        assert!(example().board().is_some());
        let damages: [fn(&mut Fields); 34] = [
            |it| it.height = 0,
            |it| it.height = 33,
            |it| it.height = 1 << 32,
            |it| it.width = 0,
            |it| it.width = 2,
            |it| it.width = u64::MAX,
            |it| it.codes[0] = 3,
            |it| it.codes[3] = 1,
            |it| it.codes[1_023] = 2,
            |it| it.arrows[0] = 1,
            |it| it.arrows[0] = 2_000,
            |it| it.arrows[1] = 2,
            |it| it.arrows[2] = 2,
            |it| it.ends[0] = 0,
            |it| it.ends[0] = 3,
            |it| it.ends[0] = 1_025,
            |it| it.ends[1] = 2,
            |it| it.count = 0,
            |it| it.count = 2,
            |it| it.count = 1_025,
            |it| it.count = u64::MAX,
            |it| it.edition = 0,
            |it| it.edition = 3,
            |it| it.cells[0] = 0,
            |it| it.cells[1] = 2,
            |it| it.cells[3] = 1,
            |it| it.order[0] = 2,
            |it| it.order[1] = 3,
            |it| it.order[2] = 1,
            |it| it.decided = 1,
            |it| it.decided = 3,
            |it| it.decided = u64::MAX,
            |it| it.lowest[1] = 6,
            |it| it.highest[2] = 1,
        ];
        for (number, damage) in damages.into_iter().enumerate() {
            let mut fields = example();
            damage(&mut fields);
            assert!(fields.board().is_none(), "{number}");
            let mut after = fields.clone();
            let said = said_of(&mut after, LentCall::Undo);
            assert_eq!(said, Said::Refused(Refusal::Board));
            assert_eq!(after, fields);
        }
    }

    #[test]
    fn other_boards_that_calls_leave() {
        let changes: [fn(&mut Fields); 9] = [
            |it| it.hints = [0, 1, 65_534, 65_535],
            |it| it.codes[2] = 1,
            |it| it.edition = 1,
            |it| it.cells[1] = 0,
            |it| it.order[..2].reverse(),
            |it| it.arrows[..2].reverse(),
            |it| it.width = 4,
            |it| (it.height, it.width) = (3, 1),
            |it| (it.lowest[0], it.highest[0]) = (1, 65_535),
        ];
        for (number, change) in changes.into_iter().enumerate() {
            let mut fields = example();
            change(&mut fields);
            assert!(fields.board().is_some(), "{number}");
        }
    }

    #[test]
    fn calls_and_their_refusals() {
        let mut board = example().board().expect("calls leave it");
        let refused = |board: &mut Board, call| match said(board, call) {
            Said::Refused(refusal) => refusal.number(),
            other => panic!("{other:?}"),
        };
        let decide = |index, value| LentCall::Decide { index, value };
        let find = |player, buffer| LentCall::Find { player, buffer };
        assert_eq!(refused(&mut board, decide(3, 2)), 7);
        assert_eq!(refused(&mut board, decide(1, 2)), 8);
        assert_eq!(refused(&mut board, decide(1, 1)), 9);
        assert_eq!(refused(&mut board, find(4, 0)), 17);
        assert_eq!(refused(&mut board, find(3, 9)), 11);
        assert_eq!(refused(&mut board, LentCall::Hints { player: 4 }), 17);
        let short = LentCall::Certain {
            budget: 1,
            output: 10,
        };
        assert_eq!(refused(&mut board, short), 11);
        assert_eq!(said(&mut board, LentCall::Undo), Said::Done);
        assert_eq!(said(&mut board, LentCall::Undo), Said::Done);
        assert_eq!(refused(&mut board, LentCall::Undo), 10);
        assert_eq!(said(&mut board, find(3, 10)).number(), 0);
        assert_eq!(
            said(&mut board, LentCall::Hints { player: 3 }),
            Said::Hints(1)
        );
        assert_eq!(said(&mut board, LentCall::Finished), Said::Finished(false));
    }
}
