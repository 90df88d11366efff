//! `calls.list`: lists of calls on one board.

use super::numbers::cell_number;
use super::strip::{records, strip};
use super::List;
use crate::answers::{by_original, by_reading, Answer};
use crate::generate::boards::{any_board, board_of_size, full_board, Decided};
use crate::generate::calls::{by_players, calls, two_players, Call};
use crate::generate::puzzles::square;
use crate::generate::sizes::any_sizes;
use crate::original::Original;
use crate::progress::facts;
use crate::random::Random;
use crate::reading::board::{Board, Hints};
use crate::reading::grid::Size;
use crate::reading::leaf::Leaf;
use crate::reading::record::{encode, plain};
use crate::reading::sizes::ranges;
use crate::reading::{Edition, Literal};

const WHOSE: [&str; 3] = [
    "Its panics are refusals 9 and 10, and 7; it has no counterpart to 8, 11 and 17, and none to",
    "players, to counts of hints, to open, and to find in edition 2 or with sizes: there the answers",
    "are the literal reading's.",
];

const FORMAT: [&str; 11] = [
    "Entries to the end of the file: u16 record length, the record, u8 edition, u16 how many numbers",
    "of sizes, the u16 numbers, u8 expected refusal of open or 0, and where it is 0 the counts of",
    "hints, u16 number of calls, the calls; after each call the expected counts of hints on the",
    "board.",
    "Counts of hints are four u16, those of players 0 to 3. A call is u8 kind and:",
    "  0 decide: u16 index, u8 value, u8 expected refusal or 0",
    "  1 undo: u8 expected refusal or 0",
    "  2 find: u8 player, u16 buffer length in literals, u8 expected refusal or 0; if 0, u16 count",
    "    (0 for none) and that many u16 literals, value * 32768 + index",
    "  3 cells: height * width bytes, the expected cells (0 empty, 1 square, 2 undecided)",
    "Each entry starts on a fresh board of its record with its sizes, handed in with those counts.",
];

/// The calls on boards of at most so many cells stand there in edition 2 too.
const IN_BOTH: usize = 20;

/// The counts of hints that random boards are handed in with, in turn.
const HANDED_IN: [Hints; 8] = [
    [0, 0, 0, 0],
    [0, 1, 2, 3],
    [0, 65_535, 65_534, 0],
    [1, 0, 65_535, 256],
    [255, 255, 255, 255],
    [256, 40_000, 0, 65_534],
    [65_530, 65_532, 65_533, 65_534],
    [65_535, 65_535, 65_535, 65_535],
];

pub fn call_lists(seed: u64) -> Result<List, String> {
    let what = "Lists of decide, undo and find on one board.";
    let mut list = List::of_the_original("calls.list", 400_000, seed, what);
    list.lines(&WHOSE);
    list.lines(&FORMAT);
    let fresh = Decided {
        puzzle: strip(),
        decisions: Vec::new(),
    };
    let [one, two] = Edition::BOTH;
    add_entry(&mut list, &fresh, one, [0; 4], &leaf_calls())?;
    for hints in [0, 65_533, 65_534, 65_535] {
        add_entry(&mut list, &fresh, one, [hints, 0, 0, 0], &hint_calls())?;
    }
    for edition in Edition::BOTH {
        let goal = too_large_later();
        add_entry(&mut list, &goal, edition, [0; 4], &there_and_back(&goal))?;
    }
    for record in records() {
        for edition in [0, 1, 2, 3, 255] {
            add_refused(&mut list, &record, edition, &[]);
        }
    }
    let mut random = Random::new(seed);
    let mut players = Random::new(!seed);
    for (goal, hints) in goals(&mut random).iter().zip(HANDED_IN.iter().cycle()) {
        let wanted = length(&mut random, goal);
        let calls = calls(&mut random, goal, wanted);
        let calls = shared_calls(&mut players, goal, &calls);
        add_entry(&mut list, goal, one, *hints, &calls)?;
        if goal.puzzle.size.cells() <= IN_BOTH {
            add_entry(&mut list, goal, two, *hints, &calls)?;
        }
    }
    let largest = full_board(&mut random, square(32));
    let back = there_and_back(&largest);
    for edition in Edition::BOTH {
        add_entry(&mut list, &largest, edition, [0; 4], &back)?;
    }
    add_players(&mut list, &fresh)?;
    for edition in Edition::BOTH {
        let goal = too_large_later();
        add_entry(&mut list, &goal, edition, [0; 4], &last_again(&goal))?;
    }
    add_sized(&mut list, &mut Random::new(seed.rotate_left(32)))?;
    Ok(list)
}

/// Boards with sizes: both kinds of reason 5 with undo on the way to them, lists that are refused, and
/// random calls.
fn add_sized(list: &mut List, random: &mut Random) -> Result<(), String> {
    let record = encode(&too_large_later().puzzle);
    for edition in [1, 2, 3] {
        for sizes in REFUSED {
            add_refused(list, &record, edition, sizes);
        }
    }
    for edition in Edition::BOTH {
        for sizes in [[0, 1, 1], [0, 2, 2], [4, 9, 65_535], [4, 1, 2]] {
            let goal = too_large_later();
            add_sized_entry(list, &goal, edition, &sizes, [0; 4], &there_and_back(&goal))?;
            add_sized_entry(list, &goal, edition, &sizes, [0; 4], &last_again(&goal))?;
        }
    }
    let mut left = 60;
    while left > 0 {
        let goal = any_board(random);
        let sizes = any_sizes(random, &goal);
        if goal.puzzle.size.cells() > 100 || sizes.is_empty() {
            continue;
        }
        left -= 1;
        let wanted = length(random, &goal);
        let calls = calls(random, &goal, wanted);
        let calls = shared_calls(random, &goal, &calls);
        let hints = HANDED_IN[left % HANDED_IN.len()];
        for edition in Edition::BOTH {
            add_sized_entry(list, &goal, edition, sizes.as_flattened(), hints, &calls)?;
        }
    }
    Ok(())
}

/// Sizes that may not stand on the leaf of 4 (b), whose arrow has the cells 0 to 4.
const REFUSED: [&[u16]; 9] = [
    &[0],
    &[0, 1],
    &[0, 1, 3, 2],
    &[0, 0, 5],
    &[0, 3, 2],
    &[5, 1, 1],
    &[65_535, 1, 1],
    &[2, 1, 1, 0, 1, 1],
    &[1, 1, 1, 1, 1, 1],
];

/// Lists of the four players and of others, and each player's count near the limit.
fn add_players(list: &mut List, fresh: &Decided) -> Result<(), String> {
    for edition in Edition::BOTH {
        for hints in [[0; 4], [65_534, 1, 65_535, 300]] {
            add_entry(list, fresh, edition, hints, &family_calls())?;
            add_entry(list, fresh, edition, hints, &stranger_calls())?;
        }
    }
    for player in 0..4 {
        for count in [65_533, 65_534, 65_535] {
            let mut hints = [0, 255, 256, 65_534];
            hints[usize::from(player)] = count;
            add_entry(
                list,
                fresh,
                Edition::ExactlyOne,
                hints,
                &limit_calls(player),
            )?;
        }
    }
    Ok(())
}

/// The calls with each find by some player, and after them finds by two different ones.
fn shared_calls(random: &mut Random, goal: &Decided, calls: &[Call]) -> Vec<Call> {
    let mut shared = by_players(random, calls);
    let find = |player| Call::long_find(player, goal.puzzle.size);
    shared.extend(two_players(random).map(find));
    shared
}

/// Document 01's leaf of 4 (b), a reason in edition 1 only.
fn too_large_later() -> Decided {
    Decided {
        puzzle: plain(2, 5, vec![(0..5).collect()]),
        decisions: vec![(0, 1), (4, 1), (8, 1), (9, 1), (1, 0), (5, 0), (2, 0)],
    }
}

fn decide(index: usize, value: u8) -> Call {
    Call::Decide { index, value }
}

fn find_by(player: u8, buffer: usize) -> Call {
    Call::Find { player, buffer }
}

/// The document's leaves on S: refusals 7 to 11, and its reasons.
fn leaf_calls() -> Vec<Call> {
    let find = |buffer| find_by(0, buffer);
    let mut calls = vec![decide(3, 1), decide(0, 1), decide(0, 0), decide(1, 2)];
    calls.extend([Call::Cells, find(9), find(10)]);
    calls.extend([decide(1, 1), find(10), Call::Undo]);
    calls.extend([decide(2, 1), find(10), Call::Undo]);
    calls.extend([Call::Undo, Call::Undo, Call::Cells]);
    calls
}

/// Finds on S, refused ones among accepted ones, and decisions taken back after them.
fn hint_calls() -> Vec<Call> {
    let find = |buffer| find_by(0, buffer);
    let mut calls = vec![find(9), find(10), find(0), find(10), find(9)];
    calls.extend([decide(0, 1), find(10), decide(2, 1), find(9), find(10)]);
    calls.extend([Call::Undo, Call::Undo, Call::Undo, Call::Cells]);
    calls.extend([find(3), find(100), decide(3, 1), find(9), Call::Cells]);
    calls
}

/// Finds on S by all four players, with a reason and without, refused ones and undo among them.
fn family_calls() -> Vec<Call> {
    let all = |buffer| [2, 0, 3, 1].map(|player| find_by(player, buffer));
    let mut calls = Vec::from(all(10));
    calls.extend([decide(0, 1), find_by(1, 9), decide(1, 1)]);
    calls.extend(all(10));
    calls.extend([find_by(3, 10), find_by(3, 0), Call::Undo, find_by(3, 11)]);
    calls.extend([decide(0, 0), find_by(0, 4_096), Call::Undo, Call::Undo]);
    calls.extend([Call::Cells, find_by(2, 10), find_by(0, 10)]);
    calls
}

/// Finds on S by players that there are not, with buffers that are long enough, too short and empty.
fn stranger_calls() -> Vec<Call> {
    let mut calls = vec![find_by(3, 10), decide(0, 1), decide(1, 1)];
    for player in [4, 5, 7, 127, 128, 254, 255] {
        calls.extend([10, 9, 0, 4_096].map(|buffer| find_by(player, buffer)));
    }
    calls.extend([Call::Cells, find_by(3, 9), find_by(3, 10)]);
    calls
}

/// Finds on S by one player, whose count is near the limit, by the others, and refused ones.
fn limit_calls(player: u8) -> Vec<Call> {
    let mut calls = vec![find_by(player, 10), find_by(player, 9)];
    for other in 1..4 {
        calls.extend([find_by((player + other) % 4, 10), find_by(player, 10)]);
    }
    calls.extend([decide(2, 0), find_by(player, 10), find_by(player + 4, 10)]);
    calls.extend([Call::Undo, Call::Undo, find_by(player, 10)]);
    calls
}

/// All decisions in turn, the first once more, and all taken back, and once more.
fn there_and_back(goal: &Decided) -> Vec<Call> {
    let find = Call::long_find(0, goal.puzzle.size);
    let mut calls = in_turn(goal);
    calls.extend([calls[0], Call::Cells, find]);
    calls.extend([Call::Undo].repeat(goal.decisions.len() + 1));
    calls.extend([Call::Cells, find]);
    calls
}

/// All decisions in turn, the last taken back and made again: the find behind them tells whether undo
/// keeps the edition.
fn last_again(goal: &Decided) -> Vec<Call> {
    let mut calls = in_turn(goal);
    let find = Call::long_find(0, goal.puzzle.size);
    calls.extend([Call::Undo, calls[calls.len() - 1], find]);
    calls
}

fn in_turn(goal: &Decided) -> Vec<Call> {
    let decide = |&(index, value): &Literal| decide(index, value);
    goal.decisions.iter().map(decide).collect()
}

/// Boards of every kind of size; few of the largest.
fn goals(random: &mut Random) -> Vec<Decided> {
    let mut goals = Vec::new();
    for (height, width) in [(1, 1), (1, 1), (1, 32), (32, 1), (2, 32), (32, 2), (32, 32)] {
        goals.push(board_of_size(random, Size { height, width }));
    }
    for side in 1..=16 {
        goals.push(board_of_size(random, square(side)));
    }
    while goals.len() < 350 {
        let board = any_board(random);
        if board.puzzle.size.cells() <= 100 {
            goals.push(board);
        }
    }
    goals
}

/// Some lists reach the whole board and beyond, most stop on the way.
fn length(random: &mut Random, goal: &Decided) -> usize {
    let decisions = goal.decisions.len();
    let whole_board = 2 * decisions + 4;
    match random.below(2) {
        0 => whole_board,
        _ if goal.puzzle.size.cells() > 256 => whole_board,
        _ => random.between(1, 8 + decisions.min(40)),
    }
}

/// A record that isn't opened in this edition with these sizes; nothing where it is.
fn add_refused(list: &mut List, record: &[u8], edition: u8, sizes: &[u16]) {
    if let Err(refusal) = Board::open(record, edition.into(), sizes) {
        list.entries += 1;
        list.long_bytes(record);
        list.u8(edition);
        add_sizes(list, sizes);
        list.u8(refusal.number());
    }
}

fn add_entry(
    list: &mut List,
    goal: &Decided,
    edition: Edition,
    hints: Hints,
    calls: &[Call],
) -> Result<(), String> {
    add_sized_entry(list, goal, edition, &[], hints, calls)
}

fn add_sized_entry(
    list: &mut List,
    goal: &Decided,
    edition: Edition,
    sizes: &[u16],
    hints: Hints,
    calls: &[Call],
) -> Result<(), String> {
    let leaf = Leaf {
        sizes: ranges(&goal.puzzle, sizes).expect("a good list"),
        ..Leaf::unsized_in(edition, &goal.puzzle)
    };
    let mut board = Board::handed_in(leaf, hints);
    let mut original = Original::open(&goal.puzzle).expect("no arrow cell is used twice");
    list.entries += 1;
    list.long_bytes(&encode(&goal.puzzle));
    list.u8(edition.number());
    add_sizes(list, sizes);
    list.u8(0);
    list.numbers(&hints.map(usize::from));
    list.u16(calls.len());
    for &call in calls {
        let by_reading = by_reading(&mut board, call);
        let answer = by_original(&board, &mut original, call).unwrap_or(by_reading.clone());
        if answer != by_reading {
            return Err(format!("{}: {calls:?}", facts(&goal.puzzle, &[])));
        }
        add_call(list, call, &answer);
        list.numbers(&board.hints().map(usize::from));
    }
    Ok(())
}

fn add_sizes(list: &mut List, sizes: &[u16]) {
    list.u16(sizes.len());
    for &number in sizes {
        list.u16(number.into());
    }
}

fn add_call(list: &mut List, call: Call, answer: &Answer) {
    match call {
        Call::Decide { index, value } => {
            list.u8(0);
            list.u16(index);
            list.u8(value);
        }
        Call::Undo => list.u8(1),
        Call::Find { player, buffer } => {
            list.u8(2);
            list.u8(player);
            list.u16(buffer);
        }
        Call::Cells => list.u8(3),
    }
    match answer {
        Answer::Done => list.u8(0),
        Answer::Refused(refusal) => list.u8(refusal.number()),
        Answer::Found(reason) => {
            list.u8(0);
            list.literals(reason.as_deref().unwrap_or(&[]));
        }
        Answer::Cells(cells) => {
            for &cell in cells {
                list.u8(cell_number(cell));
            }
        }
        Answer::Panicked => unreachable!("the reading's answer is the same, and never this"),
    }
}

#[cfg(test)]
mod tests {
    use super::{family_calls, limit_calls, stranger_calls, strip};
    use crate::answers::{by_reading, Answer};
    use crate::generate::calls::Call;
    use crate::reading::board::{Board, Hints};
    use crate::reading::{Edition, Refusal};

    /// The counts that the calls leave on S, and how many of them 17 refuses.
    fn left(hints: Hints, calls: &[Call]) -> (Hints, usize) {
        let mut board = Board::with_hints(strip(), Edition::ExactlyOne, hints);
        let stranger = Answer::Refused(Refusal::Player);
        let strangers = calls
            .iter()
            .filter(|&&call| by_reading(&mut board, call) == stranger)
            .count();
        (board.hints(), strangers)
    }

    #[test]
    fn counts_left() {
        let full = 65_535;
        assert_eq!(left([0; 4], &family_calls()), ([4, 2, 3, 4], 0));
        assert_eq!(left([full; 4], &family_calls()), ([full; 4], 0));
        assert_eq!(left([5; 4], &stranger_calls()), ([5, 5, 5, 7], 28));
        assert_eq!(left([0, 9, 0, 0], &limit_calls(1)), ([1, 15, 1, 1], 1));
        for player in 0..4 {
            for count in [65_533, 65_534, 65_535] {
                let mut hints = [7; 4];
                hints[player] = count;
                let mut expected = [8; 4];
                expected[player] = full;
                let calls = limit_calls(player as u8);
                assert_eq!(left(hints, &calls), (expected, 1));
            }
        }
    }
}
