//! Lists of sizes (document 02 §12): good ones, and ones that are damaged in a known way.

use super::boards::Decided;
use crate::random::Random;
use crate::reading::board::Board;
#[cfg(test)]
use crate::reading::leaf::Leaf;
use crate::reading::record::Puzzle;
use crate::reading::shades::shades;
use crate::reading::sizes::Range;
use crate::reading::Edition;

/// A list as it is written: cell, lowest and highest for each range, whatever they are.
pub type Ranges = Vec<[u16; 3]>;

/// The bytes of a list, most significant first.
pub fn size_bytes(ranges: &[[u16; 3]]) -> Vec<u8> {
    let numbers = ranges.iter().flatten();
    numbers.flat_map(|&number| number.to_be_bytes()).collect()
}

/// The ranges that the reading has of a good list.
pub fn as_read(ranges: &[[u16; 3]]) -> Vec<Range> {
    let range = |range: &[u16; 3]| {
        let [cell, lowest, highest] = range.map(usize::from);
        Range {
            cell,
            lowest,
            highest,
        }
    };
    ranges.iter().map(range).collect()
}

/// The list of the ranges that the reading has.
pub fn as_written(ranges: &[Range]) -> Ranges {
    let three = |range: &Range| [range.cell, range.lowest, range.highest];
    let list = ranges.iter().map(three);
    list.map(|three| three.map(|number| number as u16))
        .collect()
}

/// A good list for a board: some arrow cells, with ranges of which some fit the blocks that stand
/// there and some don't.
pub fn any_sizes(random: &mut Random, board: &Decided) -> Ranges {
    let standing = standing_sizes(board);
    let sized = random.pick(&[0, 10, 30, 60, 100]);
    let mut ranges = Vec::new();
    for cell in arrow_cells(&board.puzzle) {
        if random.percent(sized) {
            let [lowest, highest] = any_range(random, standing[cell], standing.len());
            ranges.push([cell as u16, lowest, highest]);
        }
    }
    ranges
}

/// The leaf of a board with such a list, in either edition.
#[cfg(test)]
pub fn any_sized_leaf(random: &mut Random, board: &Decided) -> Leaf {
    Leaf {
        puzzle: board.puzzle.clone(),
        edition: random.pick(&Edition::BOTH),
        sizes: as_read(&any_sizes(random, board)),
    }
}

/// A good list for a small puzzle, whose ranges tell small blocks apart.
pub fn small_sizes(random: &mut Random, puzzle: &Puzzle) -> Ranges {
    let sized = random.pick(&[30, 60, 100]);
    let mut ranges = Vec::new();
    for cell in arrow_cells(puzzle) {
        if random.percent(sized) {
            let lowest = random.pick(&[1, 1, 1, 2, 2, 3, 4]);
            let highest = lowest + random.pick(&[0, 0, 1, 2, 9]);
            ranges.push([cell as u16, lowest, highest]);
        }
    }
    ranges
}

/// A list that a full board keeps: about each of its blocks, and anything beside cells that aren't
/// square.
pub fn kept_sizes(random: &mut Random, full: &Decided) -> Ranges {
    let standing = standing_sizes(full);
    let mut ranges = Vec::new();
    for cell in arrow_cells(&full.puzzle) {
        let [lowest, highest] = match standing[cell] {
            0 if random.percent(50) => continue,
            0 => any_range(random, 0, standing.len()),
            size => {
                let lowest = random.between(1, size);
                let highest = size + random.pick(&[0, 0, 1, 2, 60_000]);
                [lowest as u16, highest as u16]
            }
        };
        ranges.push([cell as u16, lowest, highest]);
    }
    ranges
}

/// The same list with the range of one square cell made so that its block is just too large or just
/// too small; none where no block stands that can be made so.
pub fn missed_sizes(random: &mut Random, full: &Decided, ranges: &[[u16; 3]]) -> Option<Ranges> {
    let standing = standing_sizes(full);
    let size_at = |place: usize| standing[usize::from(ranges[place][0])] as u16;
    let places: Vec<usize> = (0..ranges.len()).filter(|&k| size_at(k) > 0).collect();
    if places.is_empty() {
        return None;
    }
    let place = random.pick(&places);
    let size = size_at(place);
    let [cell, lowest, highest] = ranges[place];
    let mut missed = ranges.to_vec();
    missed[place] = match size > 1 && random.percent(50) {
        true => [cell, lowest.min(size - 1), size - 1],
        false => [cell, size + 1, highest.max(size + 1)],
    };
    Some(missed)
}

/// Rising.
fn arrow_cells(puzzle: &Puzzle) -> Vec<usize> {
    let on_arrow = puzzle.arrow_cells();
    (0..on_arrow.len()).filter(|&cell| on_arrow[cell]).collect()
}

/// For each cell the size of the block that it is in, 0 for none.
fn standing_sizes(board: &Decided) -> Vec<usize> {
    let cells = Board::after(&board.puzzle, Edition::ExactlyOne, &board.decisions).cells();
    let shades = shades(board.puzzle.size, &cells);
    shades.into_iter().map(|(_, size)| size).collect()
}

/// A lowest and a highest size, mostly about the size of the block that stands there.
fn any_range(random: &mut Random, standing: usize, cells: usize) -> [u16; 2] {
    let lowest = match random.below(10) {
        0..=3 => 1,
        4..=5 => standing.max(1),
        6 => standing + 1,
        7 => random.between(1, 4),
        8 => random.between(1, cells + 1),
        _ => random.pick(&[cells, cells + 1, 1_024, 32_768, 65_535]),
    };
    let highest = match random.below(8) {
        0 => lowest,
        1..=2 => standing.saturating_sub(1),
        3 => standing,
        4 => lowest + random.below(3),
        5 => cells,
        6 => random.between(1, 4),
        _ => 65_535,
    };
    [lowest, highest.max(lowest).min(65_535)].map(|number| number as u16)
}

/// What is wrong with a list. Each is refused with 22.
#[derive(Clone, Copy, Debug, PartialEq, Eq)]
pub enum Damage {
    /// The last range lacks so many bytes, 1 to 5.
    Cut(usize),
    StartsAt0,
    UpsideDown,
    /// On the grid.
    OffArrow,
    OffGrid,
    /// Below the cell before it.
    Falls,
    SameCell,
}

impl Damage {
    pub const ALL: [Damage; 11] = [
        Damage::Cut(1),
        Damage::Cut(2),
        Damage::Cut(3),
        Damage::Cut(4),
        Damage::Cut(5),
        Damage::StartsAt0,
        Damage::UpsideDown,
        Damage::OffArrow,
        Damage::OffGrid,
        Damage::Falls,
        Damage::SameCell,
    ];

    /// The bytes of a good list with this damage at some place; none where this one can't have it.
    pub fn done_to(
        self,
        random: &mut Random,
        puzzle: &Puzzle,
        good: &[[u16; 3]],
    ) -> Option<Vec<u8>> {
        let mut ranges = good.to_vec();
        match self {
            Damage::Cut(bytes) => {
                let whole = size_bytes(&ranges);
                return (!whole.is_empty()).then(|| whole[..whole.len() - bytes].to_vec());
            }
            Damage::StartsAt0 => {
                let range = any_of(random, &mut ranges)?;
                range[1] = 0;
                range[2] = random.pick(&[0, 5, range[2]]);
            }
            Damage::UpsideDown => {
                let range = any_of(random, &mut ranges)?;
                range[2] = random.pick(&[range[1] - 1, 0]);
            }
            Damage::OffArrow => {
                let on_arrow = puzzle.arrow_cells();
                let off: Vec<usize> = (0..on_arrow.len()).filter(|&c| !on_arrow[c]).collect();
                if off.is_empty() {
                    return None;
                }
                let cell = random.pick(&off) as u16;
                let place = ranges.partition_point(|range| range[0] < cell);
                ranges.insert(place, [cell, 1, random.pick(&[1, 9, 65_535])]);
            }
            Damage::OffGrid => {
                let cells = puzzle.size.cells() as u16;
                let cell = random.pick(&[cells, cells + 1, 1_024, 32_768, 65_535]);
                ranges.push([cell.max(cells), 1, random.pick(&[1, 9, 65_535])]);
            }
            Damage::Falls => {
                if ranges.len() < 2 {
                    return None;
                }
                let place = random.between(1, ranges.len() - 1);
                ranges.swap(place - 1, place);
            }
            Damage::SameCell => {
                let place = random.below(ranges.len().max(1));
                let [cell, lowest, highest] = *ranges.get(place)?;
                let again = random.pick(&[[cell, lowest, highest], [cell, 1, 65_535]]);
                ranges.insert(place + 1, again);
            }
        }
        Some(size_bytes(&ranges))
    }
}

fn any_of<'a>(random: &mut Random, ranges: &'a mut [[u16; 3]]) -> Option<&'a mut [u16; 3]> {
    let place = random.below(ranges.len().max(1));
    ranges.get_mut(place)
}

/// So many numbers in the longest lists.
const MILLION: usize = 1_000_000;

/// So many numbers behind a good list leave its count of bytes, of numbers or of ranges what it is in 16
/// bits.
const WRAPS: [usize; 3] = [32_768, 65_536, 3 * 65_536];

/// Lists of a million numbers, and of a number or a byte more or less: those of a good list again and
/// again, ranges that rise as long as there are numbers, the same range throughout, zeros, and noise. And
/// lists that begin with a good one and would be it by a count of fewer bits.
pub fn long_lists(random: &mut Random, good: &[[u16; 3]]) -> Vec<Vec<u8>> {
    let again = |numbers: usize| -> Vec<u16> {
        let numbers = good.iter().flatten().copied().cycle().take(numbers);
        numbers.collect()
    };
    let rising = (0..MILLION).map(|k| match k % 3 {
        0 => (k / 3).min(65_535) as u16,
        _ => 1,
    });
    let mut lists = vec![
        again(MILLION),
        rising.collect(),
        [0, 1, 1].into_iter().cycle().take(MILLION - 1).collect(),
        vec![0; MILLION + 1],
        (0..MILLION).map(|_| random.next() as u16).collect(),
    ];
    lists.extend(WRAPS.map(|more| again(3 * good.len() + more)));
    let bytes =
        |list: &Vec<u16>| -> Vec<u8> { list.iter().flat_map(|n| n.to_be_bytes()).collect() };
    let mut lists: Vec<Vec<u8>> = lists.iter().map(bytes).collect();
    let odd = [&lists[0][..], &[0]].concat();
    lists.push(odd);
    lists
}

#[cfg(test)]
mod tests {
    use super::*;
    use crate::generate::boards::any_board;
    use crate::reading::leaf::Opening;
    use crate::reading::record::encode;
    use crate::reading::Refusal;

    #[test]
    fn good_and_damaged_lists() {
        let mut random = Random::new(1);
        let mut met = [0; Damage::ALL.len()];
        for _ in 0..500 {
            let board = any_board(&mut random);
            let record = encode(&board.puzzle);
            let read = |sizes: &[u8]| {
                let opening = Opening {
                    sizes,
                    ..Opening::of(&record)
                };
                opening.leaf().map(|leaf| leaf.sizes)
            };
            let good = any_sizes(&mut random, &board);
            assert_eq!(read(&size_bytes(&good)), Ok(as_read(&good)));
            assert_eq!(as_written(&as_read(&good)), good);
            for (place, damage) in Damage::ALL.into_iter().enumerate() {
                if let Some(bytes) = damage.done_to(&mut random, &board.puzzle, &good) {
                    assert_eq!(read(&bytes), Err(Refusal::Sizes), "{damage:?}: {bytes:?}");
                    met[place] += 1;
                }
            }
        }
        assert!(!met.contains(&0), "{met:?}");
    }
}
