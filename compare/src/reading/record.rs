//! "Record": the packed fields of a puzzle.

use super::grid::{Size, OFFSETS};
use super::{Literal, Refusal};

/// The code of a cell; 3 is refused.
#[derive(Clone, Copy, Debug, PartialEq, Eq)]
pub enum Code {
    Plain = 0,
    Black = 1,
    Given = 2,
}

#[derive(Clone, Debug, PartialEq, Eq)]
pub struct Puzzle {
    pub size: Size,
    pub codes: Vec<Code>,
    pub arrows: Vec<Vec<usize>>,
}

impl Puzzle {
    /// Whether each cell is an arrow cell.
    pub fn arrow_cells(&self) -> Vec<bool> {
        let mut on_arrow = vec![false; self.size.cells()];
        for &cell in self.arrows.iter().flatten() {
            on_arrow[cell] = true;
        }
        on_arrow
    }

    /// Black cells as 0 and given cells as 1.
    pub fn black_and_given(&self) -> Vec<Literal> {
        let mut literals = Vec::new();
        for (cell, code) in self.codes.iter().enumerate() {
            match code {
                Code::Plain => {}
                Code::Black => literals.push((cell, 0)),
                Code::Given => literals.push((cell, 1)),
            }
        }
        literals
    }
}

/// With all cells plain.
pub fn plain(height: usize, width: usize, arrows: Vec<Vec<usize>>) -> Puzzle {
    let size = Size { height, width };
    Puzzle {
        size,
        codes: vec![Code::Plain; size.cells()],
        arrows,
    }
}

/// A record, and nothing follows it. The first fault in reading order counts.
pub fn decode(record: &[u8]) -> Result<Puzzle, Refusal> {
    let (puzzle, length) = decode_head(record)?;
    if length < record.len() {
        return Err(Refusal::Filler);
    }
    Ok(puzzle)
}

/// A record whatever follows it, and its length in bytes.
pub fn decode_head(file: &[u8]) -> Result<(Puzzle, usize), Refusal> {
    let mut fields = Fields::new(file);
    let height = fields.next(5)? + 1;
    let width = fields.next(5)? + 1;
    let size = Size { height, width };
    let number_of_arrows = fields.next(11)?;
    let mut codes = Vec::new();
    for _ in 0..size.cells() {
        codes.push(match fields.next(2)? {
            0 => Code::Plain,
            1 => Code::Black,
            2 => Code::Given,
            _ => return Err(Refusal::CellCode),
        });
    }
    let mut used = vec![false; size.cells()];
    let mut arrows = Vec::new();
    for _ in 0..number_of_arrows {
        arrows.push(decode_arrow(&mut fields, size, &mut used)?);
    }
    fields.fill()?;
    let puzzle = Puzzle {
        size,
        codes,
        arrows,
    };
    Ok((puzzle, fields.bits_read / 8))
}

/// An arrow's three fields are read before its start is tested.
fn decode_arrow(fields: &mut Fields, size: Size, used: &mut [bool]) -> Result<Vec<usize>, Refusal> {
    let row = fields.next(5)?;
    let column = fields.next(5)?;
    let steps = fields.next(10)?;
    let mut cell = take(size.at(row as i32, column as i32), used)?;
    let mut arrow = vec![cell];
    for _ in 0..steps {
        let offset = OFFSETS[fields.next(2)?];
        cell = take(size.moved(cell, offset), used)?;
        arrow.push(cell);
    }
    Ok(arrow)
}

/// Takes a cell for an arrow; off the grid comes before used twice.
fn take(cell: Option<usize>, used: &mut [bool]) -> Result<usize, Refusal> {
    let cell = cell.ok_or(Refusal::OffGrid)?;
    if used[cell] {
        return Err(Refusal::UsedTwice);
    }
    used[cell] = true;
    Ok(cell)
}

/// Fields packed most significant bit first.
pub struct Fields<'a> {
    bytes: &'a [u8],
    bits_read: usize,
}

impl<'a> Fields<'a> {
    pub fn new(bytes: &'a [u8]) -> Fields<'a> {
        Fields {
            bytes,
            bits_read: 0,
        }
    }

    pub fn bits_left(&self) -> usize {
        8 * self.bytes.len() - self.bits_read
    }

    pub fn next(&mut self, bits: usize) -> Result<usize, Refusal> {
        if self.bits_left() < bits {
            return Err(Refusal::RecordEnds);
        }
        let mut field = 0;
        for _ in 0..bits {
            let byte = self.bytes[self.bits_read / 8];
            let bit = byte >> (7 - self.bits_read % 8) & 1;
            field = 2 * field + bit as usize;
            self.bits_read += 1;
        }
        Ok(field)
    }

    /// Zero bits fill the last byte.
    pub fn fill(&mut self) -> Result<(), Refusal> {
        let filler = self.bits_left() % 8;
        if self.next(filler)? != 0 {
            return Err(Refusal::Filler);
        }
        Ok(())
    }
}

/// The record of a puzzle. It asks only that neighbours on an arrow share a side, so that records
/// with an arrow cell used twice can be written too.
pub fn encode(puzzle: &Puzzle) -> Vec<u8> {
    let size = puzzle.size;
    let mut writer = Writer::new();
    writer.put(size.height - 1, 5);
    writer.put(size.width - 1, 5);
    writer.put(puzzle.arrows.len(), 11);
    for &code in &puzzle.codes {
        writer.put(code as usize, 2);
    }
    for arrow in &puzzle.arrows {
        writer.put(size.row(arrow[0]), 5);
        writer.put(size.column(arrow[0]), 5);
        writer.put(arrow.len() - 1, 10);
        for step in arrow.windows(2) {
            let leads = |&offset: &(i32, i32)| size.moved(step[0], offset) == Some(step[1]);
            let code = OFFSETS.iter().position(leads);
            writer.put(code.expect("neighbours on an arrow share a side"), 2);
        }
    }
    writer.into_record()
}

/// Packs fields most significant bit first; the last byte is filled with zero bits.
pub struct Writer {
    bytes: Vec<u8>,
    bits: usize,
}

impl Writer {
    pub fn new() -> Writer {
        Writer {
            bytes: Vec::new(),
            bits: 0,
        }
    }

    pub fn put(&mut self, field: usize, bits: usize) {
        for place in (0..bits).rev() {
            if self.bits == 8 * self.bytes.len() {
                self.bytes.push(0);
            }
            let bit = (field >> place & 1) as u8;
            self.bytes[self.bits / 8] |= bit << (7 - self.bits % 8);
            self.bits += 1;
        }
    }

    pub fn into_record(self) -> Vec<u8> {
        self.bytes
    }
}
