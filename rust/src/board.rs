//! A board for a game: the memory that the exported calls on a lent board take, and what these calls say.

mod calls;

use crate::certain::{told, Certain};
use crate::host::{counted, literal, Literal, Refusal, LITERALS};
use crate::leaf::{Leaf, Size};
use std::fmt;
use std::mem::{offset_of, size_of};

/// The cells of the largest grid.
const CELLS: usize = 32 * 32;

/// `struct evolmino_problem` of `c/evolmino.h`. A field may hold any number, and the library alone judges what it means.
#[repr(C)]
#[derive(Clone, PartialEq, Eq, Hash)]
struct ProblemMemory {
    height: usize,
    width: usize,
    cells: [u8; CELLS],
    arrows: [u16; CELLS],
    ends: [u16; CELLS],
    count: usize,
}

/// `struct evolmino_board` of `c/evolmino.h`. Two that differ in the bytes between the fields alone are the same.
#[repr(C)]
#[derive(Clone, PartialEq, Eq, Hash)]
struct Memory {
    problem: ProblemMemory,
    edition: u8,
    cells: [u8; CELLS],
    order: [u16; CELLS],
    decided: usize,
    hints: [u16; 4],
    lowest: [u16; CELLS],
    highest: [u16; CELLS],
}

/// Where the fields of the problem lie in a board.
const PROBLEM: usize = offset_of!(Memory, problem);
const HEIGHT: usize = PROBLEM + offset_of!(ProblemMemory, height);
const WIDTH: usize = PROBLEM + offset_of!(ProblemMemory, width);
const CODES: usize = PROBLEM + offset_of!(ProblemMemory, cells);
const ARROWS: usize = PROBLEM + offset_of!(ProblemMemory, arrows);
const ENDS: usize = PROBLEM + offset_of!(ProblemMemory, ends);
const COUNT: usize = PROBLEM + offset_of!(ProblemMemory, count);

impl Memory {
    /// The fields that these bytes hold.
    fn read(bytes: &[u8; Board::SIZE]) -> Memory {
        Memory {
            problem: ProblemMemory {
                height: number_at(bytes, HEIGHT),
                width: number_at(bytes, WIDTH),
                cells: bytes_at(bytes, CODES),
                arrows: words_at(bytes, ARROWS),
                ends: words_at(bytes, ENDS),
                count: number_at(bytes, COUNT),
            },
            edition: bytes[offset_of!(Memory, edition)],
            cells: bytes_at(bytes, offset_of!(Memory, cells)),
            order: words_at(bytes, offset_of!(Memory, order)),
            decided: number_at(bytes, offset_of!(Memory, decided)),
            hints: words_at(bytes, offset_of!(Memory, hints)),
            lowest: words_at(bytes, offset_of!(Memory, lowest)),
            highest: words_at(bytes, offset_of!(Memory, highest)),
        }
    }

    /// The bytes that hold these fields, with 0 between them.
    fn written(&self) -> [u8; Board::SIZE] {
        let mut bytes = [0; Board::SIZE];
        let problem = &self.problem;
        put(&mut bytes, HEIGHT, problem.height.to_ne_bytes());
        put(&mut bytes, WIDTH, problem.width.to_ne_bytes());
        put(&mut bytes, CODES, problem.cells);
        put_words(&mut bytes, ARROWS, &problem.arrows);
        put_words(&mut bytes, ENDS, &problem.ends);
        put(&mut bytes, COUNT, problem.count.to_ne_bytes());
        bytes[offset_of!(Memory, edition)] = self.edition;
        put(&mut bytes, offset_of!(Memory, cells), self.cells);
        put_words(&mut bytes, offset_of!(Memory, order), &self.order);
        let decided = self.decided.to_ne_bytes();
        put(&mut bytes, offset_of!(Memory, decided), decided);
        put_words(&mut bytes, offset_of!(Memory, hints), &self.hints);
        put_words(&mut bytes, offset_of!(Memory, lowest), &self.lowest);
        put_words(&mut bytes, offset_of!(Memory, highest), &self.highest);
        bytes
    }
}

fn bytes_at<const N: usize>(bytes: &[u8; Board::SIZE], at: usize) -> [u8; N] {
    std::array::from_fn(|k| bytes[at + k])
}

fn words_at<const N: usize>(bytes: &[u8; Board::SIZE], at: usize) -> [u16; N] {
    std::array::from_fn(|k| u16::from_ne_bytes(bytes_at(bytes, at + 2 * k)))
}

fn number_at(bytes: &[u8; Board::SIZE], at: usize) -> usize {
    usize::from_ne_bytes(bytes_at(bytes, at))
}

fn put<const N: usize>(bytes: &mut [u8; Board::SIZE], at: usize, field: [u8; N]) {
    bytes[at..at + N].copy_from_slice(&field);
}

fn put_words(bytes: &mut [u8; Board::SIZE], at: usize, field: &[u16]) {
    for (k, word) in field.iter().enumerate() {
        put(bytes, at + 2 * k, word.to_ne_bytes());
    }
}

/// The state of a cell on a board.
#[derive(Clone, Copy, Debug, PartialEq, Eq, Hash)]
pub enum Cell {
    Undecided,
    Empty,
    Square,
}

/// A board for a game: a leaf, the decisions that stand on it, and a count of hints for each of four players. It is opened once, and each call
/// after it takes no record.
///
/// ```
/// use evolmino::{Board, Cell, Problem, ProblemCell, Record, Refusal};
///
/// // A row of five cells with an arrow along its first four.
/// let problem = Problem {
///     cells: vec![vec![ProblemCell::Empty; 5]],
///     arrows: vec![(0..4).map(|x| (0, x)).collect()],
/// };
/// let record = Record::new(&problem).unwrap();
/// let mut board = Board::open(record.bytes(), 1, &[]).unwrap();
///
/// // Two touches, and player 0 asks for a hint: one block would have two arrow cells.
/// board.decide(0, true).unwrap();
/// board.decide(1, true).unwrap();
/// let reason = vec![(0, true), (1, true)];
/// assert_eq!(board.find(0), Ok(Some(reason)));
///
/// // The last touch is taken back, and player 2 asks: nothing is wrong any more.
/// board.undo().unwrap();
/// assert_eq!(board.cell(1), Ok(Cell::Undecided));
/// assert_eq!(board.find(2), Ok(None));
///
/// // A cell is decided once. What is refused changes nothing.
/// assert_eq!(board.decide(0, false), Err(Refusal::Decided));
///
/// // A block of one square, then a block of two.
/// for (cell, square) in [(1, false), (2, false), (3, true), (4, true)] {
///     assert_eq!(board.finished(), Ok(false));
///     board.decide(cell, square).unwrap();
/// }
/// assert_eq!(board.finished(), Ok(true));
/// assert_eq!([0, 1, 2, 3].map(|player| board.hints(player).unwrap()), [1, 0, 1, 0]);
/// ```
///
/// A board is also any memory of [`Board::SIZE`] bytes: [`Board::to_bytes`] and [`Board::from_bytes`] let an app keep one between two runs. What no
/// list of calls could leave, as a file that was damaged may hold, is refused by every call with [`Refusal::Board`] and comes back unchanged, so that
/// no bytes make a call panic or answer wrongly. [`Board::accepted`] asks for that alone.
///
/// Two boards are equal where they have the same leaf, the same decisions in the same order, and the same counts of hints. The memory is in the heap;
/// the exported calls take nothing from it, and of the stack that of [`Board::certain`] up to about 280 kilobytes, that of [`Board::find`] 90, and any
/// other 50.
#[derive(Clone, PartialEq, Eq, Hash)]
pub struct Board {
    memory: Box<Memory>,
}

impl Board {
    /// The bytes of a board.
    pub const SIZE: usize = size_of::<Memory>();

    /// The fresh board of a record in an edition, 1 or 2, and with sizes, which are those of [`Leaf::sizes`]: all undecided, and no hint taken. What is no
    /// record is refused ([`Refusal::RecordEnds`] to [`Refusal::Filler`]), then [`Refusal::Edition`], then [`Refusal::Sizes`].
    pub fn open(record: &[u8], edition: u32, sizes: &[Size]) -> Result<Board, Refusal> {
        Leaf::new(record).edition(edition).sizes(sizes).board()
    }

    /// The exported call itself: sizes are numbers, cell, lowest and highest for each.
    pub(crate) fn open_words(record: &[u8], edition: u32, sizes: &[u16]) -> Result<Board, Refusal> {
        let mut board = Board::from_bytes(&[0; Board::SIZE]);
        let answer = calls::open(record, edition, sizes, &mut board.memory);
        counted(answer).map(|_| board)
    }

    /// A board of any bytes, in the layout of `struct evolmino_board` of `c/evolmino.h` on this machine. They are not tested here:
    /// [`Board::accepted`] and every other call does.
    ///
    /// ```
    /// use evolmino::{Board, Leaf, Refusal};
    ///
    /// let mut board = Leaf::new(&[0x00, 0x80, 0x08, 0x00, 0x00, 0x05, 0xE0]).board().unwrap();
    /// board.decide(2, true).unwrap();
    /// let kept = board.to_bytes();
    /// assert_eq!(Board::from_bytes(&kept), board);
    ///
    /// let mut zeros = Board::from_bytes(&[0; Board::SIZE]);
    /// assert_eq!(zeros.decide(0, true), Err(Refusal::Board));
    /// ```
    pub fn from_bytes(bytes: &[u8; Board::SIZE]) -> Board {
        Board {
            memory: Box::new(Memory::read(bytes)),
        }
    }

    /// The bytes of the board, with 0 between the fields.
    pub fn to_bytes(&self) -> [u8; Board::SIZE] {
        self.memory.written()
    }

    /// Whether some list of calls could leave this board; else [`Refusal::Board`], as every other call says first.
    pub fn accepted(&self) -> Result<(), Refusal> {
        self.hints(0).map(|_| ())
    }

    /// Decides a cell: a square (`true`) or empty. Black and given cells don't bind it. Refused: [`Refusal::Board`], then [`Refusal::Index`], then
    /// [`Refusal::Decided`].
    pub fn decide(&mut self, index: usize, square: bool) -> Result<(), Refusal> {
        self.decide_byte(index, u8::from(square))
    }

    /// The exported call itself, for a value of 0 or 1; any other is [`Refusal::Value`], behind [`Refusal::Index`] and before [`Refusal::Decided`].
    pub fn decide_byte(&mut self, index: usize, value: u8) -> Result<(), Refusal> {
        counted(calls::decide(&mut self.memory, index, value)).map(|_| ())
    }

    /// Takes the latest decision back. Refused: [`Refusal::Board`], then [`Refusal::NothingDecided`].
    pub fn undo(&mut self) -> Result<(), Refusal> {
        counted(calls::undo(&mut self.memory)).map(|_| ())
    }

    /// Why the board can't be finished, if the decisions that stand give a reason, and a hint more for this player, 0 to 3. The answer is that of
    /// [`Leaf::find`] on the same leaf and decisions, whoever asks. Refused: [`Refusal::Board`], then [`Refusal::Player`].
    pub fn find(&mut self, player: u8) -> Result<Option<Vec<Literal>>, Refusal> {
        let mut words = [0; LITERALS];
        let count = self.find_words(player, &mut words)?;
        let reason = words[..count].iter().map(|&word| literal(word));
        Ok((count > 0).then(|| reason.collect()))
    }

    /// The exported call itself: it returns the number of literals that stand at the buffer's front, 0 for none; behind them, and where it refuses,
    /// the buffer is unchanged. A literal is value × 32,768 + index. A buffer of fewer than 3 × height × width + 1 literals is
    /// [`Refusal::OutputShort`], behind the refusals of [`Board::find`].
    pub fn find_words(&mut self, player: u8, literals: &mut [u16]) -> Result<usize, Refusal> {
        counted(calls::find(&mut self.memory, player, literals))
    }

    /// Whether the board is finished, as [`Leaf::finished`] on the same leaf and decisions. Refused: [`Refusal::Board`].
    pub fn finished(&self) -> Result<bool, Refusal> {
        Ok(counted(calls::finished(&self.memory))? != 0)
    }

    /// Which cells are certain, as [`Leaf::certain`] on the same leaf and decisions. Nothing counts as a hint. Refused: [`Refusal::Board`].
    ///
    /// ```
    /// use evolmino::{Certain, Fact, Leaf, Problem, ProblemCell, Record};
    ///
    /// // A row of five cells with an arrow along its first four: the second block is at the end.
    /// let problem = Problem {
    ///     cells: vec![vec![ProblemCell::Empty; 5]],
    ///     arrows: vec![(0..4).map(|x| (0, x)).collect()],
    /// };
    /// let record = Record::new(&problem).unwrap();
    /// let mut board = Leaf::new(record.bytes()).board().unwrap();
    /// board.decide(0, true).unwrap();
    /// match board.certain(1_000).unwrap() {
    ///     Certain::Cells { cells, .. } => assert_eq!(cells[3], Fact::Square),
    ///     other => panic!("{other:?}"),
    /// }
    /// assert_eq!(board.hints(0), Ok(0));
    /// ```
    pub fn certain(&self, budget: u64) -> Result<Certain, Refusal> {
        told(|output| self.certain_bytes(budget, output), || self.grid())
    }

    /// The exported call itself; output and answer are those of [`certain_bytes`](crate::certain_bytes). Refused: [`Refusal::Board`], then
    /// [`Refusal::OutputShort`].
    pub fn certain_bytes(&self, budget: u64, output: &mut [u8]) -> Result<usize, Refusal> {
        counted(calls::certain(&self.memory, budget, output))
    }

    /// How many hints this player took, 0 to 3: the finds that were accepted since the board was opened, or 65,535 where they are more. Refused:
    /// [`Refusal::Board`], then [`Refusal::Player`].
    pub fn hints(&self, player: u8) -> Result<u16, Refusal> {
        Ok(counted(calls::hints(&self.memory, player))? as u16)
    }

    /// Height and width of the grid. Refused: [`Refusal::Board`].
    pub fn size(&self) -> Result<(usize, usize), Refusal> {
        self.accepted()?;
        Ok((self.memory.problem.height, self.memory.problem.width))
    }

    /// The state of a cell. Refused: [`Refusal::Board`], then [`Refusal::Index`]. Each look tests the board; [`Board::cells`] tests it once.
    pub fn cell(&self, index: usize) -> Result<Cell, Refusal> {
        let cells = self.cells()?;
        cells.get(index).copied().ok_or(Refusal::Index)
    }

    /// The states of all cells in row order. Refused: [`Refusal::Board`].
    pub fn cells(&self) -> Result<Vec<Cell>, Refusal> {
        self.accepted()?;
        let states = self.memory.cells.iter().take(self.grid());
        Ok(states.map(|&state| cell(state)).collect())
    }

    /// The decisions that stand, in the order in which they were made. Refused: [`Refusal::Board`].
    pub fn decisions(&self) -> Result<Vec<Literal>, Refusal> {
        self.accepted()?;
        let decided = self.memory.order.iter().take(self.memory.decided);
        let decision = |&index: &u16| {
            let index = usize::from(index);
            (index, self.memory.cells[index] == 1)
        };
        Ok(decided.map(decision).collect())
    }

    /// The number of cells of a board that was accepted.
    fn grid(&self) -> usize {
        self.memory.problem.height * self.memory.problem.width
    }
}

/// The state of a cell, by its byte on a board that was accepted.
fn cell(state: u8) -> Cell {
    match state {
        0 => Cell::Empty,
        1 => Cell::Square,
        _ => Cell::Undecided,
    }
}

/// Size, edition, how many cells are decided and the counts of hints; of a board that is refused, only that it is.
impl fmt::Debug for Board {
    fn fmt(&self, f: &mut fmt::Formatter<'_>) -> fmt::Result {
        if let Err(refusal) = self.accepted() {
            return f.debug_tuple("Board").field(&refusal).finish();
        }
        f.debug_struct("Board")
            .field("height", &self.memory.problem.height)
            .field("width", &self.memory.problem.width)
            .field("edition", &self.memory.edition)
            .field("decided", &self.memory.decided)
            .field("hints", &self.memory.hints)
            .finish()
    }
}

#[cfg(test)]
mod tests {
    use super::*;

    /// The header's assertions, which a C compiler checks, are of the same places: they are read from its text.
    #[test]
    fn the_layout_is_that_of_the_header() {
        let header = include_str!("../../c/evolmino.h");
        let places = [
            ("problem.height", HEIGHT),
            ("problem.width", WIDTH),
            ("problem.cells", CODES),
            ("problem.arrows", ARROWS),
            ("problem.ends", ENDS),
            ("problem.count", COUNT),
            ("edition", offset_of!(Memory, edition)),
            ("cells", offset_of!(Memory, cells)),
            ("order", offset_of!(Memory, order)),
            ("decided", offset_of!(Memory, decided)),
            ("hints", offset_of!(Memory, hints)),
            ("lowest", offset_of!(Memory, lowest)),
            ("highest", offset_of!(Memory, highest)),
        ];
        let asserted: Vec<(&str, usize)> = header
            .lines()
            .filter_map(|line| line.strip_prefix("EVOLMINO_LIES_AT("))
            .map(|line| {
                let words: Vec<&str> = line.trim_end_matches(");").split(", ").collect();
                (words[1], words[2].parse().expect("a place is a number"))
            })
            .collect();
        assert_eq!(asserted, places);
        let size = format!("#define EVOLMINO_BOARD_SIZE {}\n", Board::SIZE);
        assert!(header.contains(&size), "{size}");
        assert_eq!(std::mem::align_of::<Memory>(), 8);
    }

    /// Each byte is that of one field, or lies between two of them.
    #[test]
    fn bytes_and_fields() {
        let bytes: [u8; Board::SIZE] = std::array::from_fn(|k| (k % 251) as u8);
        let mut kept = bytes;
        let between = [6169, 8218, 8219, 8220, 8221, 8222, 8223];
        for place in between {
            kept[place] = 0;
        }
        let board = Board::from_bytes(&bytes);
        assert_eq!(board.to_bytes(), kept);
        assert_eq!(Board::from_bytes(&kept), board);
        let some = (0..Board::SIZE).step_by(13);
        for place in some.chain(6160..6180).chain(8210..8240) {
            let mut other = bytes;
            other[place] ^= 0x10;
            let same = Board::from_bytes(&other) == board;
            assert_eq!(same, between.contains(&place), "{place}");
        }
    }
}
