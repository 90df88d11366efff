//! Records that are damaged in one place, most of them with the refusal that must follow.

use crate::random::Random;
use crate::reading::grid::OFFSETS;
use crate::reading::record::{encode, Puzzle, Writer};
use crate::reading::Refusal;

/// A record field by field, as it is written, so that any field can be wrong.
#[derive(Clone, Debug)]
pub struct Fields {
    pub height_less_1: usize,
    pub width_less_1: usize,
    pub number_of_arrows: usize,
    pub codes: Vec<usize>,
    pub arrows: Vec<ArrowFields>,
}

#[derive(Clone, Debug)]
pub struct ArrowFields {
    pub row: usize,
    pub column: usize,
    pub length_less_1: usize,
    pub steps: Vec<usize>,
}

impl Fields {
    pub fn of(puzzle: &Puzzle) -> Fields {
        let size = puzzle.size;
        let step = |cells: &[usize]| {
            let leads = |&offset: &(i32, i32)| size.moved(cells[0], offset) == Some(cells[1]);
            OFFSETS.iter().position(leads).expect("cells share a side")
        };
        let arrow = |cells: &Vec<usize>| ArrowFields {
            row: size.row(cells[0]),
            column: size.column(cells[0]),
            length_less_1: cells.len() - 1,
            steps: cells.windows(2).map(step).collect(),
        };
        Fields {
            height_less_1: size.height - 1,
            width_less_1: size.width - 1,
            number_of_arrows: puzzle.arrows.len(),
            codes: puzzle.codes.iter().map(|&code| code as usize).collect(),
            arrows: puzzle.arrows.iter().map(arrow).collect(),
        }
    }

    pub fn record(&self) -> Vec<u8> {
        let mut writer = Writer::new();
        writer.put(self.height_less_1, 5);
        writer.put(self.width_less_1, 5);
        writer.put(self.number_of_arrows, 11);
        for &code in &self.codes {
            writer.put(code, 2);
        }
        for arrow in &self.arrows {
            writer.put(arrow.row, 5);
            writer.put(arrow.column, 5);
            writer.put(arrow.length_less_1, 10);
            for &step in &arrow.steps {
                writer.put(step, 2);
            }
        }
        writer.into_record()
    }

    fn bits(&self) -> usize {
        let arrow = |arrow: &ArrowFields| 20 + 2 * arrow.steps.len();
        21 + 2 * self.codes.len() + self.arrows.iter().map(arrow).sum::<usize>()
    }

    /// Adds an arrow behind the others, with its count.
    pub fn add_arrow(&mut self, row: usize, column: usize, steps: Vec<usize>) {
        self.number_of_arrows += 1;
        self.arrows.push(ArrowFields {
            row,
            column,
            length_less_1: steps.len(),
            steps,
        });
    }
}

/// A record, and the refusal that is known to follow, where one is known.
pub struct Damaged {
    pub record: Vec<u8>,
    pub refusal: Option<Refusal>,
}

/// One random damage of a good puzzle.
pub fn damaged(random: &mut Random, puzzle: &Puzzle) -> Damaged {
    let fields = Fields::of(puzzle);
    let record = fields.record();
    match random.below(12) {
        0 => cut(&record, random.below(record.len())),
        1 => wrong_code(random, fields),
        2 => filler_bit(random, &fields),
        3 => extra_bytes(random, record),
        4 => start_off_the_grid(random, fields),
        5 => leaving_arrow(random, fields),
        6 => crossing_itself(random, fields),
        7 => crossing_another(random, puzzle),
        8 => wrong_number_of_arrows(random, fields),
        9 => flipped_bits(random, record),
        10 => noise(random),
        _ => zeros(random.between(4, 4_000)),
    }
}

/// A good record ends in the byte of its last field, so any cut takes bits of a field.
pub fn cut(record: &[u8], length: usize) -> Damaged {
    Damaged {
        record: record[..length].to_vec(),
        refusal: Some(Refusal::RecordEnds),
    }
}

fn wrong_code(random: &mut Random, mut fields: Fields) -> Damaged {
    let cell = random.below(fields.codes.len());
    fields.codes[cell] = 3;
    Damaged {
        record: fields.record(),
        refusal: Some(Refusal::CellCode),
    }
}

fn filler_bit(random: &mut Random, fields: &Fields) -> Damaged {
    let mut record = fields.record();
    let filler = 8 * record.len() - fields.bits();
    if filler == 0 {
        return extra_bytes(random, record);
    }
    let last = record.len() - 1;
    record[last] |= 1 << random.below(filler);
    Damaged {
        record,
        refusal: Some(Refusal::Filler),
    }
}

fn extra_bytes(random: &mut Random, mut record: Vec<u8>) -> Damaged {
    for _ in 0..random.between(1, 3) {
        record.push(if random.percent(50) { 0 } else { random.byte() });
    }
    Damaged {
        record,
        refusal: Some(Refusal::Filler),
    }
}

fn start_off_the_grid(random: &mut Random, mut fields: Fields) -> Damaged {
    let (rows, columns) = (fields.height_less_1 + 1, fields.width_less_1 + 1);
    let mut row = random.below(32);
    let column = random.below(32);
    if row < rows && column < columns && rows < 32 {
        row = random.between(rows, 31);
    }
    let on_the_grid = row < rows && column < columns;
    fields.add_arrow(row, column, Vec::new());
    Damaged {
        record: fields.record(),
        refusal: (!on_the_grid).then_some(Refusal::OffGrid),
    }
}

/// The last arrow goes on in one direction until it must have left, or crossed something.
fn leaving_arrow(random: &mut Random, mut fields: Fields) -> Damaged {
    let direction = random.below(4);
    match fields.arrows.last_mut() {
        Some(arrow) if arrow.steps.len() + 32 < 1_024 => {
            arrow.steps.extend([direction; 32]);
            arrow.length_less_1 = arrow.steps.len();
        }
        _ => fields.add_arrow(0, 0, vec![direction; 32]),
    }
    let only_arrow = fields.arrows.len() == 1 && fields.arrows[0].steps.len() == 32;
    Damaged {
        record: fields.record(),
        refusal: only_arrow.then_some(Refusal::OffGrid),
    }
}

/// The last arrow steps back on the cell it came from.
fn crossing_itself(random: &mut Random, mut fields: Fields) -> Damaged {
    let back = [1, 0, 3, 2];
    match fields.arrows.last_mut() {
        Some(arrow) if !arrow.steps.is_empty() && arrow.steps.len() < 1_023 => {
            let last = arrow.steps[arrow.steps.len() - 1];
            arrow.steps.push(back[last]);
            arrow.length_less_1 += 1;
            Damaged {
                record: fields.record(),
                refusal: Some(Refusal::UsedTwice),
            }
        }
        _ => flipped_bits(random, fields.record()),
    }
}

/// One more arrow, of one cell, on a cell that another arrow has.
fn crossing_another(random: &mut Random, puzzle: &Puzzle) -> Damaged {
    let mut puzzle = puzzle.clone();
    let taken: Vec<usize> = puzzle.arrows.iter().flatten().copied().collect();
    let free = random.below(puzzle.size.cells());
    let cell = *taken.get(random.below(taken.len() + 1)).unwrap_or(&free);
    puzzle.arrows.push(vec![cell]);
    Damaged {
        record: encode(&puzzle),
        refusal: taken.contains(&cell).then_some(Refusal::UsedTwice),
    }
}

fn wrong_number_of_arrows(random: &mut Random, mut fields: Fields) -> Damaged {
    fields.number_of_arrows = random.pick(&[0, 1, 2, 3, 1_023, 1_024, 1_025, 2_047]);
    Damaged {
        record: fields.record(),
        refusal: None,
    }
}

fn flipped_bits(random: &mut Random, mut record: Vec<u8>) -> Damaged {
    for _ in 0..random.between(1, 3) {
        let byte = random.below(record.len());
        record[byte] ^= 1 << random.below(8);
    }
    Damaged {
        record,
        refusal: None,
    }
}

fn noise(random: &mut Random) -> Damaged {
    let length = random.below(40);
    Damaged {
        record: (0..length).map(|_| random.byte()).collect(),
        refusal: None,
    }
}

/// Zeros are the record of a 1 by 1 grid without arrows in three bytes, and whole bytes after it.
pub fn zeros(length: usize) -> Damaged {
    Damaged {
        record: vec![0; length],
        refusal: match length {
            0..=2 => Some(Refusal::RecordEnds),
            3 => None,
            _ => Some(Refusal::Filler),
        },
    }
}
