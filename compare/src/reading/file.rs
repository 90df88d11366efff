//! Document 02 §11: setter's file and player's file.

use super::board::Board;
use super::finished::finished;
use super::record::{decode_head, encode, Fields, Puzzle, Writer};
use super::{Edition, Literal, Refusal};
use std::ops::Range;

/// So many bits has a grade.
const GRADE_BITS: usize = 3;

/// What a reader gives: the record by its length, since its bytes are the file's first ones, and the
/// bytes that stand in the output for the rest.
#[derive(Clone, Debug, PartialEq, Eq)]
pub struct Read {
    pub record: usize,
    pub bytes: Vec<u8>,
}

/// One file holds the record, then from the next byte a grade (3 bits), the solution (one bit a cell,
/// row by row) and zero filler.
pub fn file(puzzle: &Puzzle, grade: u8, solution: &[u8]) -> Vec<u8> {
    let mut tail = Writer::new();
    tail.put(usize::from(grade), GRADE_BITS);
    for &cell in solution {
        tail.put(usize::from(cell), 1);
    }
    [encode(puzzle), tail.into_record()].concat()
}

/// A player's reader gives the record and grade.
/// Refusals: the record's, then 11 for an output without a byte for the grade, then 20.
pub fn player_file(file: &[u8], output_length: usize) -> Result<Read, Refusal> {
    let (puzzle, record) = decode_head(file)?;
    if output_length < 1 {
        return Err(Refusal::OutputShort);
    }
    let tail = tail(&file[record..], puzzle.size.cells())?;
    Ok(Read {
        record,
        bytes: vec![tail.grade],
    })
}

/// A setter's reader takes the edition too, gives all of it and vouches that the solution is finished
/// in that edition.
/// Refusals: the record's, then 11 for an output without a byte for the grade and one for each cell,
/// then 20, then 16 for an edition that is not 1 or 2, then 21 for an unfinished solution.
pub fn setter_file(file: &[u8], edition: u32, output_length: usize) -> Result<Read, Refusal> {
    let (puzzle, record) = decode_head(file)?;
    let cells = puzzle.size.cells();
    if output_length < 1 + cells {
        return Err(Refusal::OutputShort);
    }
    let tail = tail(&file[record..], cells)?;
    let edition = Edition::numbered(edition)?;
    let full: Vec<Literal> = tail.solution.iter().copied().enumerate().collect();
    if !finished(&Board::after(&puzzle, edition, &full)) {
        return Err(Refusal::Unfinished);
    }
    let mut bytes = vec![tail.grade];
    bytes.extend(&tail.solution);
    Ok(Read { record, bytes })
}

/// What stands behind the record of so many cells.
struct Tail {
    grade: u8,
    solution: Vec<u8>,
}

/// A tail too short, too long or with filler not zero is refused with 20.
fn tail(bytes: &[u8], cells: usize) -> Result<Tail, Refusal> {
    let mut fields = Fields::new(bytes);
    let mut next = |bits: usize| fields.next(bits).map_err(|_| Refusal::Tail);
    let grade = next(GRADE_BITS)? as u8;
    let mut solution = Vec::new();
    for _ in 0..cells {
        solution.push(next(1)? as u8);
    }
    fields.fill().map_err(|_| Refusal::Tail)?;
    if fields.bits_left() > 0 {
        return Err(Refusal::Tail);
    }
    Ok(Tail { grade, solution })
}

/// The solution bits of a file, counted from its first bit: behind record and grade one for each
/// cell, as far as the file goes. A file whose record is refused has none.
pub fn solution_bits(file: &[u8]) -> Range<usize> {
    let Ok((puzzle, record)) = decode_head(file) else {
        return 0..0;
    };
    let first = 8 * record + GRADE_BITS;
    first..(first + puzzle.size.cells()).min(8 * file.len())
}

#[cfg(test)]
mod tests {
    use super::super::record::plain;
    use super::*;

    const S: [u8; 7] = [0x00, 0x80, 0x08, 0x00, 0x00, 0x05, 0xE0];
    const T: [u8; 4] = [0x00, 0x40, 0x00, 0x00];

    fn with(record: &[u8], tail: &[u8]) -> Vec<u8> {
        [record, tail].concat()
    }

    /// A row with an arrow along its first four cells.
    fn row(width: usize) -> Puzzle {
        plain(1, width, vec![(0..4).collect()])
    }

    fn cells(squares: &[usize], number: usize) -> Vec<u8> {
        let value = |cell: usize| u8::from(squares.contains(&cell));
        (0..number).map(value).collect()
    }

    #[test]
    fn strip_and_pair_in_bytes() {
        // S: grade 101, cells 1 0 1, two zero bits
        let strip = plain(1, 3, vec![vec![0, 1, 2]]);
        let written = file(&strip, 5, &[1, 0, 1]);
        assert_eq!(written, with(&S, &[0b1011_0100]));
        let read = player_file(&written, 1).unwrap();
        assert_eq!((read.record, read.bytes), (7, vec![5]));
        // T: grade 011, cells 0 0, three zero bits; without an arrow no square is finished
        let written = file(&plain(1, 2, vec![]), 3, &[0, 0]);
        assert_eq!(written, with(&T, &[0b0110_0000]));
        for edition in [1, 2] {
            let read = setter_file(&written, edition, 3).unwrap();
            assert_eq!((read.record, read.bytes), (4, vec![3, 0, 0]));
            let square = with(&T, &[0b0111_0000]);
            let refused = setter_file(&square, edition, 3);
            assert_eq!(refused, Err(Refusal::Unfinished));
        }
    }

    #[test]
    fn finished_in_an_edition() {
        let verdicts = |squares: &[usize]| {
            let written = file(&row(6), 2, &cells(squares, 6));
            [1, 2].map(|edition| setter_file(&written, edition, 7).map(|read| read.bytes))
        };
        let refused = || Err(Refusal::Unfinished);
        let grown = || Ok(vec![2, 1, 0, 0, 1, 1, 0]);
        assert_eq!(verdicts(&[0, 3, 4]), [grown(), grown()]);
        let freely = Ok(vec![2, 1, 0, 0, 1, 1, 1]);
        assert_eq!(verdicts(&[0, 3, 4, 5]), [refused(), freely]);
        assert_eq!(verdicts(&[0, 1, 3, 4]), [refused(), refused()]);
        assert_eq!(verdicts(&[]), [refused(), refused()]);
    }

    /// A whole byte behind the record is of the tail, a bit of the record's last byte is filler.
    #[test]
    fn where_the_record_ends() {
        assert_eq!(player_file(&S, 1), Err(Refusal::Tail));
        assert_eq!(player_file(&with(&S, &[0]), 1).unwrap().bytes, [0]);
        assert_eq!(player_file(&with(&S, &[0, 0]), 1), Err(Refusal::Tail));
        let filler = with(&[0x00, 0x80, 0x08, 0x00, 0x00, 0x05, 0xE1], &[0]);
        assert_eq!(player_file(&filler, 1), Err(Refusal::Filler));
        for wrong in [0b1011_0101, 0b1011_0110] {
            assert_eq!(player_file(&with(&S, &[wrong]), 1), Err(Refusal::Tail));
        }
    }

    /// 5 cells need no filler, 6 seven bits of it.
    #[test]
    fn tails_about_a_whole_byte() {
        for (width, bytes) in [(4, 1), (5, 1), (6, 2), (13, 2), (14, 3)] {
            let record = encode(&row(width)).len();
            let written = file(&row(width), 7, &vec![1; width]);
            assert_eq!(written.len(), record + bytes);
            assert_eq!(player_file(&written, 1).unwrap().record, record);
            let longer = with(&written, &[0]);
            assert_eq!(player_file(&longer, 1), Err(Refusal::Tail));
            let shorter = &written[..record + bytes - 1];
            assert_eq!(player_file(shorter, 1), Err(Refusal::Tail));
        }
    }

    #[test]
    fn refusals_in_order() {
        // without a tail, and then with one whose cells are not finished
        assert_eq!(player_file(&S[..6], 0), Err(Refusal::RecordEnds));
        assert_eq!(setter_file(&S[..6], 3, 0), Err(Refusal::RecordEnds));
        assert_eq!(player_file(&S, 0), Err(Refusal::OutputShort));
        assert_eq!(setter_file(&S, 3, 3), Err(Refusal::OutputShort));
        assert_eq!(setter_file(&S, 3, 4), Err(Refusal::Tail));
        let unfinished = with(&S, &[0b1011_0100]);
        for edition in [0, 3, 257, 258, u32::MAX] {
            let refused = setter_file(&unfinished, edition, 4);
            assert_eq!(refused, Err(Refusal::Edition));
        }
        for edition in [1, 2] {
            let refused = setter_file(&unfinished, edition, 4);
            assert_eq!(refused, Err(Refusal::Unfinished));
        }
    }

    #[test]
    fn which_bits_are_the_solution() {
        let written = file(&row(6), 2, &[1; 6]);
        let record = encode(&row(6)).len();
        let first = 8 * record + 3;
        assert_eq!(solution_bits(&written), first..first + 6);
        // a file that ends in its tail, and one behind its record
        assert_eq!(solution_bits(&written[..record + 1]), first..first + 5);
        assert!(solution_bits(&written[..record]).is_empty());
        assert_eq!(solution_bits(&written[..record - 1]), 0..0);
    }
}
