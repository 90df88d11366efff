//! `records.list`: records, good and damaged, with what must be read from them.

use super::List;
use crate::generate::puzzles::{
    puzzle, rows_to_and_fro, size_up_to, spiral, square, strip, ARROW_STYLES,
};
use crate::generate::records::{damaged, zeros, ArrowFields, Fields};
use crate::random::Random;
use crate::reading::grid::Size;
use crate::reading::record::{decode, encode, plain, Code, Puzzle};

const FORMAT: [&str; 5] = [
    "Entries to the end of the file: u16 record length, the record, u8 refusal (0 to 5); if 0:",
    "  u8 height, u8 width, height * width bytes of cell codes (0 plain, 1 black, 2 given square),",
    "  u16 number of arrows, and for each arrow u16 length and a u16 index for each of its cells.",
    "The original has no record: the answers are document 01's, by the literal reading. Where an",
    "arrow cell is used twice, `compare records` compares them with the original's None.",
];

pub fn records(seed: u64) -> List {
    let what = "Records with the puzzle or the refusal that reading them gives.";
    let mut list = List::new("records.list", 120_000, seed, what);
    list.lines(&FORMAT);
    let mut random = Random::new(seed);
    let groups: [Vec<Vec<u8>>; 8] = [
        largest_and_smallest(),
        random_good(&mut random),
        ends_and_filler(),
        codes(),
        starts(),
        steps(),
        arrow_counts(),
        every_small_damage(),
    ];
    for record in groups.iter().flatten() {
        add_entry(&mut list, record);
    }
    for _ in 0..200 {
        let size = size_up_to(&mut random, 6);
        let style = random.pick(&ARROW_STYLES);
        let puzzle = puzzle(&mut random, size, style);
        let record = damaged(&mut random, &puzzle).record;
        if record.len() <= 100 {
            add_entry(&mut list, &record);
        }
    }
    list
}

fn add_entry(list: &mut List, record: &[u8]) {
    list.entries += 1;
    list.long_bytes(record);
    match decode(record) {
        Err(refusal) => list.u8(refusal.number()),
        Ok(puzzle) => {
            list.u8(0);
            add_puzzle(list, &puzzle);
        }
    }
}

fn add_puzzle(list: &mut List, puzzle: &Puzzle) {
    list.u8(puzzle.size.height as u8);
    list.u8(puzzle.size.width as u8);
    for &code in &puzzle.codes {
        list.u8(code as u8);
    }
    list.u16(puzzle.arrows.len());
    for arrow in &puzzle.arrows {
        list.u16(arrow.len());
        list.numbers(arrow);
    }
}

/// 32 by 32 with an arrow of one cell on each cell: the longest record, 2,819 bytes.
fn longest() -> Puzzle {
    plain(32, 32, (0..1_024).map(|cell| vec![cell]).collect())
}

fn largest_and_smallest() -> Vec<Vec<u8>> {
    let mut given = plain(32, 32, vec![rows_to_and_fro(square(32))]);
    given.codes = vec![Code::Given; 1_024];
    let puzzles = [
        plain(1, 1, vec![]),
        plain(1, 1, vec![vec![0]]),
        plain(1, 2, vec![]),
        plain(1, 3, vec![vec![0, 1, 2]]),
        plain(1, 32, vec![(0..32).collect()]),
        plain(1, 32, vec![(0..32).rev().collect()]),
        plain(32, 1, vec![(0..32).collect()]),
        plain(32, 1, vec![(0..32).rev().collect()]),
        plain(32, 32, vec![]),
        given,
        plain(32, 32, vec![spiral(square(32))]),
        longest(),
    ];
    puzzles.iter().map(encode).collect()
}

/// Each style of arrows on several sizes.
fn random_good(random: &mut Random) -> Vec<Vec<u8>> {
    let mut records = Vec::new();
    for style in ARROW_STYLES {
        for limit in [2, 3, 4, 5, 6, 8, 8, 12, 16] {
            let size = size_up_to(random, limit);
            records.push(encode(&puzzle(random, size, style)));
            let size = strip(random);
            records.push(encode(&puzzle(random, size, style)));
        }
    }
    for (height, width) in [(32, 2), (2, 32), (31, 5), (7, 29), (32, 32)] {
        let style = random.pick(&ARROW_STYLES);
        records.push(encode(&puzzle(random, Size { height, width }, style)));
    }
    records
}

fn ends_and_filler() -> Vec<Vec<u8>> {
    let mut records = vec![vec![0xFF], vec![0xFF; 2], vec![0xFF; 3], vec![0xFF; 12]];
    for length in [0, 1, 2, 3, 4, 5, 64] {
        records.push(zeros(length).record);
    }
    let strip = encode(&plain(1, 3, vec![vec![0, 1, 2]]));
    // one arrow on 1 by 3: the fourth byte ends with the start row, the column is due
    for length in 0..strip.len() {
        records.push(strip[..length].to_vec());
    }
    for last in [0xE1, 0xE2, 0xE4, 0xE8, 0xF0, 0xFF, 0xC0, 0x80, 0x20, 0x60] {
        records.push([&strip[..strip.len() - 1], &[last]].concat());
    }
    for extra in [vec![0], vec![1], vec![0, 0], vec![0, 1]] {
        records.push([&strip[..], &extra].concat());
    }
    // a filler bit and a byte after it; a fault before both
    records.push([&strip[..6], &[0xE1, 0]].concat());
    records.push([&strip[..6], &[0x81, 0]].concat());
    let longest = encode(&longest());
    records.push([&longest[..], &[0]].concat());
    records.push(longest[..longest.len() - 1].to_vec());
    let filler = longest[longest.len() - 1] | 1;
    records.push([&longest[..longest.len() - 1], &[filler]].concat());
    records
}

fn codes() -> Vec<Vec<u8>> {
    let mut records = Vec::new();
    for cell in 0..6 {
        let mut fields = Fields::of(&plain(2, 3, vec![vec![0, 1]]));
        fields.codes[cell] = 3;
        records.push(fields.record());
        // the code comes before an end, a filler bit and a bad arrow
        let record = fields.record();
        records.push(record[..4].to_vec());
        records.push([&record[..], &[1]].concat());
        fields.arrows[0].row = 31;
        records.push(fields.record());
    }
    // an end before the code
    let mut fields = Fields::of(&plain(4, 4, vec![]));
    fields.codes[15] = 3;
    let record = fields.record();
    records.push(record[..record.len() - 1].to_vec());
    records.push(record);
    records
}

/// One arrow, or a second one, by its fields.
fn with_arrow(puzzle: &Puzzle, row: usize, column: usize, steps: &[usize]) -> Vec<u8> {
    let mut fields = Fields::of(puzzle);
    fields.add_arrow(row, column, steps.to_vec());
    fields.record()
}

fn starts() -> Vec<Vec<u8>> {
    let mut records = Vec::new();
    let grid = plain(2, 3, vec![]);
    for (row, column) in [
        (0, 0),
        (1, 2),
        (2, 0),
        (2, 2),
        (0, 3),
        (1, 3),
        (2, 3),
        (31, 0),
        (0, 31),
        (31, 31),
    ] {
        let record = with_arrow(&grid, row, column, &[]);
        // all three fields are read before the start is tested
        records.push(record[..record.len() - 1].to_vec());
        records.push(record[..record.len() - 2].to_vec());
        records.push(record);
        // the start is tested before a step is read
        records.push(with_missing_steps(&grid, row, column));
        records.push(with_arrow(&grid, row, column, &[0, 1]));
    }
    // off the grid by its column, but row * width + column is another arrow's cell
    let taken = plain(2, 3, vec![vec![3]]);
    for (row, column) in [(0, 3), (1, 0), (2, 0), (0, 2)] {
        records.push(with_arrow(&taken, row, column, &[]));
    }
    records
}

fn with_missing_steps(puzzle: &Puzzle, row: usize, column: usize) -> Vec<u8> {
    let mut fields = Fields::of(puzzle);
    fields.number_of_arrows = 1;
    fields.arrows.push(ArrowFields {
        row,
        column,
        length_less_1: 1_023,
        steps: vec![],
    });
    fields.record()
}

fn steps() -> Vec<Vec<u8>> {
    let mut records = Vec::new();
    let (up, down, left, right) = (0, 1, 2, 3);
    // off each side, at the first step and later
    for (height, width) in [(1, 1), (2, 2), (3, 2), (32, 1), (1, 32)] {
        let grid = plain(height, width, vec![]);
        for (row, column) in [(0, 0), (height - 1, width - 1)] {
            for step in [up, down, left, right] {
                records.push(with_arrow(&grid, row, column, &[step]));
                records.push(with_arrow(&grid, row, column, &[step; 2]));
                records.push(with_arrow(&grid, row, column, &[step; 31]));
                records.push(with_arrow(&grid, row, column, &[step; 32]));
            }
        }
    }
    // across itself: a step back, a loop
    let grid = plain(2, 3, vec![]);
    for steps in [
        &[right, left][..],
        &[down, up],
        &[right, down, left, up],
        &[right, right, down, left, left],
        &[right, right, down, left, left, up],
        &[right, right, down, left, up],
    ] {
        records.push(with_arrow(&grid, 0, 0, steps));
    }
    // across another: at its start, at a step; and off the grid where the index is another's
    let taken = plain(2, 3, vec![vec![3, 4]]);
    for (row, column, steps) in [
        (1, 0, &[][..]),
        (1, 1, &[]),
        (1, 2, &[]),
        (1, 2, &[left]),
        (0, 0, &[down]),
        (0, 2, &[right]),
        (0, 2, &[down, right]),
        (0, 2, &[down, down]),
        (0, 2, &[down, left]),
    ] {
        records.push(with_arrow(&taken, row, column, steps));
    }
    let taken = plain(2, 3, vec![vec![2]]);
    records.push(with_arrow(&taken, 1, 0, &[left]));
    // more steps than the grid has cells
    records.push(with_arrow(&plain(1, 32, vec![]), 0, 0, &[right; 1_023]));
    records
}

fn arrow_counts() -> Vec<Vec<u8>> {
    let mut records = Vec::new();
    for puzzle in [plain(1, 1, vec![]), plain(1, 3, vec![vec![0], vec![2]])] {
        for count in [0, 1, 2, 3, 4, 1_024, 2_046, 2_047] {
            let mut fields = Fields::of(&puzzle);
            fields.number_of_arrows = count;
            records.push(fields.record());
        }
    }
    // 2,047 arrows on 1 by 1: the second uses its cell again
    let mut fields = Fields::of(&plain(1, 1, vec![]));
    for _ in 0..2_047 {
        fields.add_arrow(0, 0, vec![]);
    }
    records.push(fields.record()[..60].to_vec());
    // one arrow more than 1,024: its first field is cut, then its third, then it is there
    let mut fields = Fields::of(&longest());
    fields.number_of_arrows = 1_025;
    let record = fields.record();
    records.push([&record[..], &[0]].concat());
    records.push(record);
    fields.number_of_arrows = 1_024;
    fields.add_arrow(5, 7, vec![]);
    records.push(fields.record());
    records
}

/// Four small records, cut at every byte and with every bit flipped.
fn every_small_damage() -> Vec<Vec<u8>> {
    let mut loops = plain(3, 2, vec![vec![0, 2, 4, 5, 3, 1]]);
    loops.codes[1] = Code::Given;
    let mut two = plain(2, 2, vec![vec![0, 1], vec![3, 2]]);
    two.codes[1] = Code::Black;
    two.codes[2] = Code::Given;
    let mut records = Vec::new();
    for puzzle in [
        plain(1, 2, vec![]),
        plain(1, 3, vec![vec![0, 1, 2]]),
        two,
        loops,
    ] {
        let record = encode(&puzzle);
        for length in 0..=record.len() {
            records.push(record[..length].to_vec());
        }
        for bit in 0..8 * record.len() {
            let mut flipped = record.clone();
            flipped[bit / 8] ^= 0x80 >> (bit % 8);
            records.push(flipped);
        }
    }
    records
}
