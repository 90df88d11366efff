//! Random calls on a lent board, and boards that are damaged in a known way.

use super::boards::Decided;
use super::calls::{any_hints, any_player, by_players, calls, Call};
use crate::random::Random;
use crate::reading::grid::Size;
use crate::reading::lent::{Fields, LentCall, BETWEEN, PLACES, SIZE};

/// Indexes that would be on a grid in fewer bits.
const WIDE: [usize; 6] = [
    1 << 16,
    (1 << 16) + 1,
    1 << 32,
    (1 << 32) + 1,
    1 << 63,
    usize::MAX,
];

/// Calls that work towards a board, with detours, by any players; among them looks that change nothing.
pub fn lent_calls(random: &mut Random, goal: &Decided, wanted: usize) -> Vec<LentCall> {
    let size = goal.puzzle.size;
    let towards = calls(random, goal, wanted);
    let towards = by_players(random, &towards);
    let mut all = Vec::new();
    for call in towards {
        all.push(match call {
            Call::Decide { index, value } if index >= size.cells() && random.percent(50) => {
                let index = random.pick(&WIDE);
                LentCall::Decide { index, value }
            }
            Call::Decide { index, value } => LentCall::Decide { index, value },
            Call::Undo => LentCall::Undo,
            Call::Find { player, buffer } => LentCall::Find { player, buffer },
            Call::Cells => LentCall::Finished,
        });
        // the reading takes long for a look at a large board
        if random.below(100) < 12 && random.below(size.cells()) < 30 {
            all.push(any_look(random, size));
        }
    }
    all
}

fn any_look(random: &mut Random, size: Size) -> LentCall {
    match random.below(4) {
        0 => LentCall::Finished,
        1 => any_certain(random, size),
        _ => LentCall::Hints {
            player: any_player(random),
        },
    }
}

/// With a budget that the reading has time for, and an output about the limit.
fn any_certain(random: &mut Random, size: Size) -> LentCall {
    let limit = 8 + size.cells();
    let steps = match size.cells() {
        0..=9 => random.pick(&[0, 1, 5, 50, 300]),
        10..=64 => random.below(8),
        _ => random.below(3),
    };
    let large = [u64::MAX, 1 << 63, 1 << 32];
    LentCall::Certain {
        // a search of a few cells ends within any budget
        budget: match size.cells() < 6 && random.percent(20) {
            true => random.pick(&large),
            false => steps as u64,
        },
        output: match random.below(10) {
            0 => random.below(limit),
            1 => limit - 1,
            2 => limit + random.below(100),
            _ => limit,
        },
    }
}

/// Any call that the reading has time for on any board.
pub fn any_call(random: &mut Random, size: Size) -> LentCall {
    let index = match random.percent(70) {
        true => random.below(size.cells()),
        false => random.pick(&WIDE),
    };
    let buffer = random.pick(&[3 * size.cells() + 1, 3_073, 3 * size.cells(), 0]);
    let player = any_player(random);
    match random.below(8) {
        0 | 1 => LentCall::Decide {
            index,
            value: random.pick(&[0, 0, 1, 1, 2, 255]),
        },
        2 => LentCall::Undo,
        3 | 4 => LentCall::Find { player, buffer },
        5 => LentCall::Finished,
        6 => LentCall::Certain {
            budget: random.below(3) as u64,
            output: random.pick(&[8 + size.cells(), 1_032, 7, 0]),
        },
        _ => LentCall::Hints { player },
    }
}

/// What is done to a board's memory.
#[derive(Clone, Copy, Debug, PartialEq, Eq)]
pub enum Damage {
    /// The height or the width is none, or would be one in fewer bits.
    Side,
    /// Height and width such that their product is that of the grid in 64 bits.
    Product,
    /// The grid is higher, wider, lower or narrower, or lies on its side.
    OtherGrid,
    /// A code that there is not.
    Code,
    /// A code behind the grid.
    CodeBehind,
    /// An arrow cell off the grid.
    ArrowOffGrid,
    /// An arrow cell at another place of the grid.
    ArrowElsewhere,
    /// Two arrow cells changed for each other.
    ArrowSwapped,
    /// An arrow cell behind the arrows.
    ArrowBehind,
    /// An end that is another number.
    End,
    /// An end behind the ends.
    EndBehind,
    /// Another number of arrows.
    Count,
    /// An edition that there is not.
    Edition,
    /// A decided cell in a state that there is not.
    State,
    /// An undecided cell square or empty, or a decided one undecided, with the order as it was.
    StateAlone,
    /// A state behind the grid.
    StateBehind,
    /// A decided cell listed twice.
    OrderTwice,
    /// A listed cell off the grid.
    OrderOffGrid,
    /// A listed cell that is undecided.
    OrderUndecided,
    /// A cell listed behind those that are decided.
    OrderBehind,
    /// Another number of decided cells.
    Decided,
    /// A range from 0, upside down or with one end alone.
    Range,
    /// A range beside a cell that is on no arrow.
    RangeOffArrow,
    /// Some bits flipped anywhere.
    Flipped,
    /// Zeros or noise from some byte on.
    Rest,
    /// Noise, zeros or one byte throughout.
    Whole,
    /// Other counts of hints.
    Hints,
    /// Other bytes between the fields.
    Between,
}

impl Damage {
    pub const ALL: [Damage; 28] = [
        Damage::Side,
        Damage::Product,
        Damage::OtherGrid,
        Damage::Code,
        Damage::CodeBehind,
        Damage::ArrowOffGrid,
        Damage::ArrowElsewhere,
        Damage::ArrowSwapped,
        Damage::ArrowBehind,
        Damage::End,
        Damage::EndBehind,
        Damage::Count,
        Damage::Edition,
        Damage::State,
        Damage::StateAlone,
        Damage::StateBehind,
        Damage::OrderTwice,
        Damage::OrderOffGrid,
        Damage::OrderUndecided,
        Damage::OrderBehind,
        Damage::Decided,
        Damage::Range,
        Damage::RangeOffArrow,
        Damage::Flipped,
        Damage::Rest,
        Damage::Whole,
        Damage::Hints,
        Damage::Between,
    ];

    /// Whether a board can be refused for it.
    pub fn can_refuse(self) -> bool {
        !matches!(self, Damage::Hints | Damage::Between)
    }

    /// Whether a board can still be one that calls leave.
    pub fn can_leave(self) -> bool {
        matches!(
            self,
            Damage::OtherGrid
                | Damage::ArrowElsewhere
                | Damage::ArrowSwapped
                | Damage::End
                | Damage::Flipped
                | Damage::Rest
                | Damage::Hints
                | Damage::Between
        )
    }

    /// The memory of a board that calls leave, damaged so; none where this one can't be.
    pub fn done_to(self, random: &mut Random, bytes: &[u8; SIZE]) -> Option<[u8; SIZE]> {
        let mut damaged = *bytes;
        match self {
            Damage::Flipped => {
                for _ in 0..random.pick(&[1, 1, 1, 1, 2, 32]) {
                    // most places are behind the grid and what is on it, so those at the fronts are favoured
                    let front = random.pick(&PLACES) + random.below(16);
                    let anywhere = random.below(SIZE);
                    let place = match random.percent(75) {
                        true => front.min(SIZE - 1),
                        false => anywhere,
                    };
                    damaged[place] ^= 1 << random.below(8);
                }
            }
            Damage::Rest => {
                let from = random.below(SIZE);
                let noise = random.percent(50);
                for byte in &mut damaged[from..] {
                    *byte = if noise { random.byte() } else { 0 };
                }
            }
            Damage::Whole => match random.below(3) {
                0 => damaged.fill_with(|| random.byte()),
                1 => damaged.fill(0),
                _ => damaged.fill(random.byte()),
            },
            Damage::Between => {
                for place in BETWEEN {
                    damaged[place] = random.byte();
                }
            }
            _ => {
                let mut fields = Fields::read(bytes);
                self.in_fields(random, &mut fields)?;
                fields.write(&mut damaged);
            }
        }
        Some(damaged)
    }

    fn in_fields(self, random: &mut Random, it: &mut Fields) -> Option<()> {
        let (height, width) = (it.height as usize, it.width as usize);
        let cells = height * width;
        let count = it.count as usize;
        let on_arrows = it.ends[..count].last().map_or(0, |&end| usize::from(end));
        let decided = it.decided as usize;
        match self {
            Damage::Side => {
                let side = if random.percent(50) {
                    &mut it.height
                } else {
                    &mut it.width
                };
                let wrapped = *side + random.pick(&[1 << 8, 1 << 16, 1 << 32, 1 << 63]);
                *side = random.pick(&[0, 33, 64, wrapped, u64::MAX]);
            }
            Damage::Product => {
                let factor = random.next() | 1;
                it.height = it.height.wrapping_mul(factor);
                it.width = it.width.wrapping_mul(inverse(factor));
            }
            Damage::OtherGrid => match random.below(3) {
                0 => std::mem::swap(&mut it.height, &mut it.width),
                1 => it.height = random.between(1, 32) as u64,
                _ => it.width = random.between(1, 32) as u64,
            },
            Damage::Code => {
                it.codes[random.below(cells)] = random.pick(&[3, 4, 128, 255]);
            }
            Damage::CodeBehind => {
                *behind(random, &mut it.codes, cells)? = random.pick(&[1, 2, 3, 255]);
            }
            Damage::ArrowOffGrid => {
                let off = random.pick(&[cells, cells + 1, 1_024, 32_768, 65_535]);
                *among(random, &mut it.arrows, on_arrows)? = off as u16;
            }
            Damage::ArrowElsewhere => {
                *among(random, &mut it.arrows, on_arrows)? = random.below(cells) as u16;
            }
            Damage::ArrowSwapped => {
                if on_arrows < 2 {
                    return None;
                }
                it.arrows
                    .swap(random.below(on_arrows), random.below(on_arrows));
            }
            Damage::ArrowBehind => {
                *behind(random, &mut it.arrows, on_arrows)? = random.between(1, 65_535) as u16;
            }
            Damage::End => {
                let end = among(random, &mut it.ends, count)?;
                let near = [end.wrapping_sub(1), end.wrapping_add(1)];
                let far = [0, 1_023, 1_024, 1_025, 65_535, random.below(1_025) as u16];
                *end = match random.percent(50) {
                    true => random.pick(&near),
                    false => random.pick(&far),
                };
            }
            Damage::EndBehind => {
                let last = on_arrows as u16;
                let end = random.pick(&[1, last.max(1), last + 1, 1_024, 65_535]);
                *behind(random, &mut it.ends, count)? = end;
            }
            Damage::Count => {
                let near = [it.count.wrapping_sub(1), it.count + 1];
                let wrapped = it.count + random.pick(&[1 << 11, 1 << 16, 1 << 32]);
                it.count = random.pick(&[near[0], near[1], 1_024 + it.count.max(1), wrapped]);
            }
            Damage::Edition => it.edition = random.pick(&[0, 3, 4, 127, 128, 129, 130, 255]),
            Damage::State => {
                let cell = usize::from(*among(random, &mut it.order, decided)?);
                it.cells[cell] = random.pick(&[3, 4, 127, 128, 254, 255]);
            }
            Damage::StateAlone => {
                let cell = random.below(cells);
                it.cells[cell] = match it.cells[cell] {
                    2 => random.below(2) as u8,
                    _ => 2,
                };
            }
            Damage::StateBehind => {
                *behind(random, &mut it.cells, cells)? = random.pick(&[0, 1, 3, 255]);
            }
            Damage::OrderTwice => {
                if decided < 2 {
                    return None;
                }
                let place = random.below(decided);
                it.order[place] = it.order[(place + random.between(1, decided - 1)) % decided];
            }
            Damage::OrderOffGrid => {
                let off = random.pick(&[cells, cells + 1, 1_024, 32_768, 65_535]);
                *among(random, &mut it.order, decided)? = off as u16;
            }
            Damage::OrderUndecided => {
                let undecided = |&cell: &usize| it.cells[cell] == 2;
                let cells: Vec<usize> = (0..cells).filter(undecided).collect();
                if cells.is_empty() {
                    return None;
                }
                *among(random, &mut it.order, decided)? = random.pick(&cells) as u16;
            }
            Damage::OrderBehind => {
                *behind(random, &mut it.order, decided)? = random.between(1, 65_535) as u16;
            }
            Damage::Decided => {
                let wrapped = it.decided + random.pick(&[1 << 8, 1 << 16, 1 << 32, 1 << 63]);
                it.decided = match random.below(4) {
                    0 => it.decided.wrapping_sub(1),
                    1 => it.decided + 1,
                    2 => 1_025,
                    _ => wrapped,
                };
            }
            Damage::Range => {
                let cell = usize::from(*among(random, &mut it.arrows, on_arrows)?);
                let range = random.pick(&[[0, 1], [0, 65_535], [1, 0], [5, 4], [65_535, 65_534]]);
                [it.lowest[cell], it.highest[cell]] = range;
            }
            Damage::RangeOffArrow => {
                let is_off = |&cell: &usize| !it.arrows[..on_arrows].contains(&(cell as u16));
                let off: Vec<usize> = (0..1_024).filter(is_off).collect();
                // mostly on the grid
                let near: Vec<usize> = off.iter().copied().filter(|&cell| cell < cells).collect();
                let cells = if near.is_empty() || random.percent(20) {
                    off
                } else {
                    near
                };
                if cells.is_empty() {
                    return None;
                }
                let cell = random.pick(&cells);
                [it.lowest[cell], it.highest[cell]] =
                    random.pick(&[[1, 1], [0, 1], [1, 0], [2, 65_535]]);
            }
            Damage::Hints => it.hints = any_hints(random),
            Damage::Flipped | Damage::Rest | Damage::Whole | Damage::Between => unreachable!(),
        }
        Some(())
    }
}

/// The number by which an odd one makes 1 in 64 bits.
fn inverse(odd: u64) -> u64 {
    // each step doubles the bits that are right, of which an odd number has three of its own
    (0..5).fold(odd, |inverse, _| {
        let product = odd.wrapping_mul(inverse);
        inverse.wrapping_mul(2u64.wrapping_sub(product))
    })
}

/// One of the first numbers of a list.
fn among<'a, T>(random: &mut Random, list: &'a mut [T], count: usize) -> Option<&'a mut T> {
    match count {
        0 => None,
        _ => list.get_mut(random.below(count)),
    }
}

/// One of the places behind the first numbers of a list, often the next or the last one.
fn behind<'a, T>(random: &mut Random, list: &'a mut [T], count: usize) -> Option<&'a mut T> {
    let last = list.len() - 1;
    if count > last {
        return None;
    }
    let place = random.between(count, last);
    list.get_mut(random.pick(&[count, last, place]))
}

/// The places of the memory, each a byte that is changed in a way that is likely to matter.
pub fn each_byte(random: &mut Random, bytes: &[u8; SIZE]) -> impl Iterator<Item = [u8; SIZE]> {
    let bytes = *bytes;
    let mut salts: Vec<u8> = (0..SIZE).map(|_| random.byte()).collect();
    for (place, salt) in salts.iter_mut().enumerate() {
        // bytes of large numbers are often one more or one less
        *salt = match place % 4 {
            0 => 1,
            1 => 1 << (*salt % 8),
            2 => 3,
            _ => (*salt).max(1),
        };
    }
    salts.into_iter().enumerate().map(move |(place, salt)| {
        let mut changed = bytes;
        changed[place] ^= salt;
        changed
    })
}

#[cfg(test)]
mod tests {
    use super::*;
    use crate::generate::boards::any_board;
    use crate::generate::sizes::any_sized_leaf;
    use crate::reading::board::Board;

    /// Each damage refuses and leaves boards as it says.
    #[test]
    fn damages() {
        let mut random = Random::new(1);
        let mut met = [[0; 2]; Damage::ALL.len()];
        for _ in 0..400 {
            let goal = any_board(&mut random);
            let leaf = any_sized_leaf(&mut random, &goal);
            let mut bytes = [0; SIZE];
            Fields::of(&Board::of_leaf(&leaf, &goal.decisions)).write(&mut bytes);
            for (damage, met) in Damage::ALL.into_iter().zip(&mut met) {
                if let Some(damaged) = damage.done_to(&mut random, &bytes) {
                    let left = Fields::read(&damaged).board().is_some();
                    met[usize::from(left)] += 1;
                }
            }
        }
        for (damage, [refused, left]) in Damage::ALL.into_iter().zip(met) {
            assert_eq!(refused > 0, damage.can_refuse(), "{damage:?}: {refused}");
            assert_eq!(left > 0, damage.can_leave(), "{damage:?}: {left}");
        }
    }

    #[test]
    fn each_byte_once() {
        let bytes = [7; SIZE];
        let mut random = Random::new(1);
        for (place, changed) in each_byte(&mut random, &bytes).enumerate().step_by(97) {
            let differs: Vec<usize> = (0..SIZE).filter(|&k| changed[k] != 7).collect();
            assert_eq!(differs, [place]);
        }
    }

    #[test]
    fn products_of_64_bits() {
        let mut random = Random::new(1);
        for _ in 0..100 {
            let odd = random.next() | 1;
            assert_eq!(odd.wrapping_mul(inverse(odd)), 1);
        }
    }
}
