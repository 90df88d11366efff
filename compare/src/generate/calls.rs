//! Random lists of calls on one board, refused ones among them.

use super::boards::Decided;
use crate::random::Random;
use crate::reading::board::{Cell, Hints};
use crate::reading::grid::Size;
use crate::reading::reasons::most_literals;

#[derive(Clone, Copy, Debug, PartialEq, Eq)]
pub enum Call {
    Decide {
        index: usize,
        value: u8,
    },
    Undo,
    /// By a player, with a buffer of so many literals.
    Find {
        player: u8,
        buffer: usize,
    },
    /// Not a call: a look at all cells.
    Cells,
}

impl Call {
    /// A find that isn't refused on a grid of this size, where the player is one of the four.
    pub fn long_find(player: u8, size: Size) -> Call {
        let buffer = most_literals(size);
        Call::Find { player, buffer }
    }
}

/// Calls that work towards a board, with detours. All finds are those of player 0.
pub fn calls(random: &mut Random, goal: &Decided, wanted: usize) -> Vec<Call> {
    let cells = goal.puzzle.size.cells();
    let mut waiting = goal.decisions.clone();
    waiting.reverse();
    let mut standing = Vec::new();
    let mut calls = Vec::new();
    while calls.len() < wanted {
        calls.push(match random.below(100) {
            0..=59 if !waiting.is_empty() => {
                let decision = waiting.pop().expect("not empty");
                standing.push(decision);
                Call::Decide {
                    index: decision.0,
                    value: decision.1,
                }
            }
            0..=71 => {
                waiting.extend(standing.pop());
                Call::Undo
            }
            72..=76 if !standing.is_empty() => Call::Decide {
                index: random.pick(&standing).0,
                value: random.below(2) as u8,
            },
            72..=81 => refused_decide(random, cells),
            82..=96 => Call::Find {
                player: 0,
                buffer: buffer(random, most_literals(goal.puzzle.size)),
            },
            // a look at a large board is long, so it is rare
            _ if random.below(cells) < 30 => Call::Cells,
            _ => continue,
        });
    }
    calls.push(Call::long_find(0, goal.puzzle.size));
    if random.percent(25) {
        // all is taken back, and once more
        calls.extend([Call::Undo].repeat(standing.len() + 1));
    }
    calls.push(Call::Cells);
    calls
}

/// The same calls with each find by some player, or by one that is refused.
pub fn by_players(random: &mut Random, calls: &[Call]) -> Vec<Call> {
    let by_player = |&call: &Call| match call {
        Call::Find { buffer, .. } => Call::Find {
            player: any_player(random),
            buffer,
        },
        _ => call,
    };
    calls.iter().map(by_player).collect()
}

/// Other calls that leave these cells on a fresh board: the decisions in any order, with a few finds
/// among them.
pub fn other_calls(random: &mut Random, size: Size, cells: &[Cell]) -> Vec<Call> {
    let decision = |(index, &cell): (usize, &Cell)| match cell {
        Cell::Empty => Some(Call::Decide { index, value: 0 }),
        Cell::Square => Some(Call::Decide { index, value: 1 }),
        Cell::Undecided => None,
    };
    let mut calls: Vec<Call> = cells.iter().enumerate().filter_map(decision).collect();
    for _ in 0..random.below(4) {
        calls.push(Call::long_find(any_player(random), size));
    }
    random.shuffle(&mut calls);
    calls
}

/// Mostly one of the four.
pub fn any_player(random: &mut Random) -> u8 {
    match random.below(10) {
        0 => random.pick(&[4, 5, 127, 128, 254, 255]),
        _ => random.below(4) as u8,
    }
}

/// Two different ones of the four.
pub fn two_players(random: &mut Random) -> [u8; 2] {
    let first = random.below(4);
    let other = (first + random.between(1, 3)) % 4;
    [first as u8, other as u8]
}

/// Any four counts, often near the limit.
pub fn any_hints(random: &mut Random) -> Hints {
    [(); 4].map(|()| match random.below(3) {
        0 => 0,
        1 => random.between(65_530, 65_535) as u16,
        _ => random.below(65_536) as u16,
    })
}

/// A wrong index, a wrong value, or both.
fn refused_decide(random: &mut Random, cells: usize) -> Call {
    let wrong_index = random.pick(&[cells, cells + 1, 1_024, 32_768, 65_535]);
    let wrong_value = random.pick(&[2, 3, 128, 255]);
    let (index, value) = match random.below(3) {
        0 => (wrong_index, random.below(2) as u8),
        1 => (random.below(cells), wrong_value),
        _ => (wrong_index, wrong_value),
    };
    Call::Decide { index, value }
}

/// Mostly long enough, sometimes just not.
fn buffer(random: &mut Random, most: usize) -> usize {
    match random.below(10) {
        0..=5 => most,
        6 | 7 => most + random.between(1, 500),
        8 => most - 1,
        _ => random.below(most),
    }
}

#[cfg(test)]
mod tests {
    use super::{any_hints, by_players, calls, other_calls, two_players, Call};
    use crate::answers::by_reading;
    use crate::generate::boards::any_board;
    use crate::random::Random;
    use crate::reading::board::Board;
    use crate::reading::Edition;

    /// The finds alone are given to players, to each of the four and to others.
    #[test]
    fn finds_are_shared() {
        let mut random = Random::new(1);
        let goal = any_board(&mut random);
        let before = calls(&mut random, &goal, 1_000);
        let shared = by_players(&mut random, &before);
        let mut finds = [0; 256];
        for (&before, &shared) in before.iter().zip(&shared) {
            match (before, shared) {
                (
                    Call::Find { buffer, .. },
                    Call::Find {
                        player,
                        buffer: same,
                    },
                ) => {
                    assert_eq!(buffer, same);
                    finds[usize::from(player)] += 1;
                }
                _ => assert_eq!(before, shared),
            }
        }
        assert_eq!(before.len(), shared.len());
        assert!(finds[..4].iter().all(|&finds| finds > 10));
        assert!(finds[4..].iter().sum::<usize>() > 5);
    }

    #[test]
    fn other_calls_leave_the_cells() {
        let mut random = Random::new(1);
        for _ in 0..20 {
            let goal = any_board(&mut random);
            let edition = Edition::ExactlyOne;
            let cells = Board::after(&goal.puzzle, edition, &goal.decisions).cells();
            let mut board = Board::with_hints(goal.puzzle, edition, any_hints(&mut random));
            for call in other_calls(&mut random, board.puzzle().size, &cells) {
                by_reading(&mut board, call);
            }
            assert_eq!(board.cells(), cells);
        }
    }

    #[test]
    fn two_different_players() {
        let mut random = Random::new(1);
        let mut met = [[false; 4]; 4];
        for _ in 0..500 {
            let [one, other] = two_players(&mut random);
            met[usize::from(one)][usize::from(other)] = true;
        }
        for (one, met) in met.into_iter().enumerate() {
            assert_eq!(met, [0, 1, 2, 3].map(|other| other != one));
        }
    }
}
