//! The calls of `compare board`, each made on lent memory so that every byte that it reads or writes beside
//! what is lent to it can be seen, and what they said.

use crate::generate::sizes::as_written;
use crate::guarded::{lend, Due};
use crate::host::MISSING;
use crate::lent::{BoardCalls, Lent, BOARD_CALLS};
use crate::progress::Outcome;
use crate::random::Random;
use crate::reading::board::Board;
use crate::reading::leaf::Leaf;
use crate::reading::lent::{Fields, LentCall, Said, BETWEEN, SIZE};
use crate::reading::record::encode;
use crate::reading::Refusal;
use crate::tally::Tally;

/// The largest number of a refusal.
const LAST: usize = 22;

/// What the calls said.
#[derive(Default)]
pub struct Met {
    /// By refusal number: open, and the others as `kind` counts them.
    refused: [[usize; LAST + 1]; 7],
    /// Opened without sizes and with them, in edition 1 and in edition 2.
    opened: [[usize; 2]; 2],
    /// Decided and undone.
    done: [usize; 2],
    /// None and each reason, in edition 1 and in edition 2.
    found: [[usize; Tally::WITH_SIZES]; 2],
    /// Not finished and finished, in edition 1 and in edition 2.
    finished: [[usize; 2]; 2],
    /// Cells told, no such board, and spent, in edition 1 and in edition 2.
    certain: [[usize; 3]; 2],
    /// Counts of hints: 0, some, and 65,535.
    hints: [usize; 3],
    /// Accepted finds of a player whose count was 65,535 already.
    stopped: usize,
    /// What was refused before something else that would be: `ORDERS`.
    orders: [usize; ORDERS.len()],
}

/// Open, decide, undo, find, finished, certain and hints.
const NAMES: [&str; 7] = [
    "open", "decide", "undo", "find", "finished", "certain", "hints",
];

/// The refusals that a call can give.
const REFUSALS: [&[usize]; 7] = [
    &[1, 2, 3, 4, 5, 16, 22],
    &[6, 7, 8, 9],
    &[6, 10],
    &[6, 11, 17],
    &[6],
    &[6, 11],
    &[6, 17],
];

/// A call by its place in `NAMES`, the refusal that it gives, and one that it would give behind it.
const ORDERS: [(usize, usize, usize); 11] = [
    (1, 6, 7),
    (1, 6, 8),
    (1, 6, 9),
    (1, 7, 8),
    (1, 8, 9),
    (2, 6, 10),
    (3, 6, 17),
    (3, 6, 11),
    (3, 17, 11),
    (5, 6, 11),
    (6, 6, 17),
];

fn kind(call: LentCall) -> usize {
    match call {
        LentCall::Decide { .. } => 1,
        LentCall::Undo => 2,
        LentCall::Find { .. } => 3,
        LentCall::Finished => 4,
        LentCall::Certain { .. } => 5,
        LentCall::Hints { .. } => 6,
    }
}

impl Met {
    pub fn refuse_open(&mut self, refusal: Refusal) {
        self.refused[0][usize::from(refusal.number())] += 1;
    }

    pub fn open(&mut self, board: &Board) {
        let sized = usize::from(!board.leaf().sizes.is_empty());
        self.opened[edition(board.edition().number())][sized] += 1;
    }

    /// A call on memory in which this stood.
    pub fn add(&mut self, before: &Fields, call: LentCall, said: &Said) {
        match said {
            Said::Done => self.done[kind(call) - 1] += 1,
            Said::Refused(refusal) => {
                let number = usize::from(refusal.number());
                self.refused[kind(call)][number] += 1;
                self.add_orders(before, call, number);
            }
            Said::Found(reason) => {
                self.found[edition(before.edition)][Tally::column(reason.as_ref())] += 1;
                if let LentCall::Find { player, .. } = call {
                    let full = before.hints[usize::from(player)] == 65_535;
                    self.stopped += usize::from(full);
                }
            }
            Said::Finished(yes) => self.finished[edition(before.edition)][usize::from(*yes)] += 1,
            Said::Certain(answer) => {
                self.certain[edition(before.edition)][answer.number() as usize] += 1;
            }
            Said::Hints(count) => {
                let column = match count {
                    0 => 0,
                    65_535 => 2,
                    _ => 1,
                };
                self.hints[column] += 1;
            }
        }
    }

    /// Counts the orders that a refused call can tell.
    fn add_orders(&mut self, before: &Fields, call: LentCall, given: usize) {
        let mut behind = Vec::new();
        match call {
            LentCall::Decide { index, value } => {
                let state = before.cells.get(index).copied();
                // off every grid
                behind.extend(state.is_none().then_some(7));
                behind.extend((value > 1).then_some(8));
                behind.extend(state.is_some_and(|state| state != 2).then_some(9));
            }
            LentCall::Undo => behind.extend((before.decided == 0).then_some(10)),
            LentCall::Find { player, buffer } => {
                behind.extend((player > 3).then_some(17));
                // too short for every grid
                behind.extend((buffer < 4).then_some(11));
            }
            LentCall::Certain { output, .. } => behind.extend((output < 9).then_some(11)),
            LentCall::Hints { player } => behind.extend((player > 3).then_some(17)),
            LentCall::Finished => {}
        }
        for (order, count) in ORDERS.iter().zip(&mut self.orders) {
            let &(call_kind, first, second) = order;
            let told = call_kind == kind(call) && first == given && behind.contains(&second);
            *count += usize::from(told);
        }
    }

    /// What was not met: an answer, a refusal or an order. And what may never be met: a refusal that a call
    /// does not give.
    pub fn missing(&self) -> Vec<String> {
        let mut missing = Vec::new();
        for ((counts, listed), name) in self.refused.iter().zip(REFUSALS).zip(NAMES) {
            for (number, &count) in counts.iter().enumerate() {
                if (count > 0) != listed.contains(&number) {
                    missing.push(format!("{name} refused {number} {count} times"));
                }
            }
        }
        for (edition, counts) in self.found.iter().enumerate() {
            for (column, &count) in counts.iter().enumerate() {
                // 4 (b) is edition 1's
                if (count > 0) != (column != 5 || edition == 0) {
                    let name = Tally::NAMES[column];
                    missing.push(format!("{name} in edition {} {count} times", edition + 1));
                }
            }
        }
        for (&(call, given, other), &count) in ORDERS.iter().zip(&self.orders) {
            if count == 0 {
                missing.push(format!("{} refused {given} before {other}", NAMES[call]));
            }
        }
        let answers = [
            ("opened", self.opened.as_flattened()),
            ("decided or undone", &self.done),
            ("finished", self.finished.as_flattened()),
            ("certain", self.certain.as_flattened()),
            ("hints", &self.hints),
            ("a count that has stopped rising", &[self.stopped]),
        ];
        for (name, counts) in answers {
            if counts.contains(&0) {
                missing.push(format!("{name} {counts:?}"));
            }
        }
        missing
    }

    pub fn lines(&self) -> String {
        let numbers = |(counts, name): (&[usize; LAST + 1], &str)| {
            let met = counts.iter().copied().enumerate();
            let met: Vec<_> = met.filter(|&(_, count)| count > 0).collect();
            format!("{name} {met:?}")
        };
        let refused: Vec<String> = self.refused.iter().zip(NAMES).map(numbers).collect();
        format!(
            "opened without sizes, with sizes in editions 1 and 2: {:?}; decided, undone: {:?}\n\
             none, reasons 1, 2, 3, 4(a), 4(b), 5 low, 5 high in editions 1 and 2: {:?}\n\
             not finished, finished: {:?}; cells told, no such board, spent: {:?}\n\
             hints 0, some, 65,535: {:?}; finds behind 65,535: {}\n\
             refused, by number: {}",
            self.opened,
            self.done,
            self.found,
            self.finished,
            self.certain,
            self.hints,
            self.stopped,
            refused.join(", ")
        )
    }
}

/// The place of an edition that a board was accepted in.
fn edition(number: u8) -> usize {
    usize::from(number) - 1
}

/// Makes the calls and compares them with the reading.
pub struct Checker {
    pub calls: BoardCalls,
    pub met: Met,
}

impl Checker {
    pub fn new() -> Result<Checker, String> {
        Ok(Checker {
            calls: BOARD_CALLS.ok_or(MISSING)?,
            met: Met::default(),
        })
    }

    /// Opens a board in memory that may hold anything, and compares what it then holds.
    pub fn open(
        &mut self,
        lent: &mut Lent,
        record: &[u8],
        edition: u32,
        sizes: &[u16],
    ) -> Result<Result<Board, Refusal>, String> {
        let before = *lent.bytes();
        let boxed: Box<[u8]> = record.into();
        let sizes_boxed: Box<[u16]> = sizes.into();
        let returned = (self.calls.open)(&boxed, edition, &sizes_boxed, lent.memory());
        if *boxed != *record || *sizes_boxed != *sizes {
            return Err("open changes what it is to read".to_string());
        }
        let expected = Board::open(record, edition, sizes);
        let number = match &expected {
            Ok(_) => 0,
            Err(refusal) => -i32::from(refusal.number()),
        };
        if returned != number {
            return Err(format!("open returns {returned} and not {number}"));
        }
        match &expected {
            Err(refusal) => {
                unchanged(lent, &before)?;
                self.met.refuse_open(*refusal);
            }
            Ok(board) => {
                holds(lent, &Fields::of(board))?;
                self.met.open(board);
            }
        }
        Ok(expected)
    }

    /// The same of a leaf, which may not be refused.
    pub fn open_leaf(&mut self, lent: &mut Lent, leaf: &Leaf) -> Result<Board, String> {
        let record = encode(&leaf.puzzle);
        let edition = leaf.edition.number().into();
        let sizes = as_written(&leaf.sizes);
        let opened = self.open(lent, &record, edition, sizes.as_flattened())?;
        opened.map_err(|refusal| format!("the leaf is refused: {refusal:?}"))
    }

    /// Makes a call on memory that holds what a board of the reading leaves, and compares the number, the
    /// buffer or the output, and the memory after it.
    pub fn check(
        &mut self,
        random: &mut Random,
        lent: &mut Lent,
        board: &mut Board,
        call: LentCall,
    ) -> Result<Said, String> {
        let before = Fields::of(board);
        let said = crate::reading::lent::said(board, call);
        self.compare(random, lent, call, &said, &before, &Fields::of(board))?;
        Ok(said)
    }

    /// The same on any memory.
    pub fn check_any(
        &mut self,
        random: &mut Random,
        lent: &mut Lent,
        call: LentCall,
    ) -> Result<Said, String> {
        let before = Fields::read(lent.bytes());
        let mut after = before.clone();
        let said = crate::reading::lent::said_of(&mut after, call);
        self.compare(random, lent, call, &said, &before, &after)?;
        Ok(said)
    }

    fn compare(
        &mut self,
        random: &mut Random,
        lent: &mut Lent,
        call: LentCall,
        said: &Said,
        before: &Fields,
        after: &Fields,
    ) -> Outcome {
        let bytes = *lent.bytes();
        let calls = self.calls;
        let guard = random.pick(&[0, 0, 1, 64]);
        let number = said.number();
        let returned = match call {
            LentCall::Decide { index, value } => Ok((calls.decide)(lent.memory(), index, value)),
            LentCall::Undo => Ok((calls.undo)(lent.memory())),
            LentCall::Find { player, buffer } => {
                let front = &said.literals();
                let filled = |k| (k * 40_503) as u16;
                lend(buffer, guard, filled, Due { number, front }, |buffer| {
                    (calls.find)(lent.memory(), player, buffer)
                })
            }
            LentCall::Finished => Ok((calls.finished)(lent.memory())),
            LentCall::Certain { budget, output } => {
                let front = &said.bytes();
                let filled = |k| (k * 37) as u8;
                lend(output, guard, filled, Due { number, front }, |output| {
                    (calls.certain)(lent.memory(), budget, output)
                })
            }
            LentCall::Hints { player } => Ok((calls.hints)(lent.memory(), player)),
        };
        let returned = returned.map_err(|what| format!("{call:?} {what}"))?;
        if returned != number {
            return Err(format!("{call:?} returns {returned} and not {number}"));
        }
        let only_looks = !matches!(said, Said::Done | Said::Found(_));
        let left = match only_looks {
            true => unchanged(lent, &bytes),
            false => holds(lent, after),
        };
        left.map_err(|what| format!("{call:?} {what}"))?;
        self.met.add(before, call, said);
        Ok(())
    }
}

/// The memory holds just this. A call that is accepted may leave anything between the fields, also bytes that a
/// memory checker takes for uninitialised ones; others are put there, so that the next call can be seen to
/// leave them where it refuses.
fn holds(lent: &mut Lent, fields: &Fields) -> Outcome {
    let bytes = lent.bytes();
    for (salt, place) in (90..).zip(BETWEEN) {
        bytes[place] = salt;
    }
    let mut due = *bytes;
    fields.write(&mut due);
    if *bytes == due && lent.is_intact() {
        return Ok(());
    }
    Err(format!(
        "leaves other bytes in or about the board: {}",
        differing(lent.bytes(), &due)
    ))
}

/// Every byte is what it was.
fn unchanged(lent: &mut Lent, before: &[u8; SIZE]) -> Outcome {
    if lent.bytes() == before && lent.is_intact() {
        return Ok(());
    }
    Err(format!(
        "changes bytes in or about the board: {}",
        differing(lent.bytes(), before)
    ))
}

fn differing(left: &[u8; SIZE], due: &[u8; SIZE]) -> String {
    let places: Vec<usize> = (0..SIZE).filter(|&k| left[k] != due[k]).collect();
    format!(
        "{} places, {:?}",
        places.len(),
        &places[..places.len().min(10)]
    )
}
