//! Document 02 §10: two puzzles on one Sunday leaf.

use super::grid::Size;
use super::record::{decode, encode, Code, Puzzle};
use super::{Literal, Refusal};

/// The widest grid that a record has.
const MOST_WIDTH: usize = 32;

/// The left grid, a column of black cells, the right grid: as high as both of them.
pub fn joined_size(left: Size, right: Size) -> Size {
    Size {
        height: left.height,
        width: left.width + 1 + right.width,
    }
}

/// Where a cell of the left grid comes to lie: in its row and its column.
pub fn left_cell(left: Size, right: Size, cell: usize) -> usize {
    left.row(cell) * joined_size(left, right).width + left.column(cell)
}

/// Where a cell of the right grid comes to lie: in its row, with the left grid and the column of
/// black cells before it.
pub fn right_cell(left: Size, right: Size, cell: usize) -> usize {
    right.row(cell) * joined_size(left, right).width + left.width + 1 + right.column(cell)
}

/// Two puzzles of equal height on one leaf: the grids with the column between them, row by row; the
/// left's arrows and then the right's.
pub fn joined(left: &Puzzle, right: &Puzzle) -> Puzzle {
    let mut codes = Vec::new();
    let rows_of_left = left.codes.chunks(left.size.width);
    let rows_of_right = right.codes.chunks(right.size.width);
    for (of_left, of_right) in rows_of_left.zip(rows_of_right) {
        codes.extend(of_left);
        codes.push(Code::Black);
        codes.extend(of_right);
    }
    let to_left = |&cell: &usize| left_cell(left.size, right.size, cell);
    let to_right = |&cell: &usize| right_cell(left.size, right.size, cell);
    let mut arrows: Vec<Vec<usize>> = Vec::new();
    for arrow in &left.arrows {
        arrows.push(arrow.iter().map(to_left).collect());
    }
    for arrow in &right.arrows {
        arrows.push(arrow.iter().map(to_right).collect());
    }
    Puzzle {
        size: joined_size(left.size, right.size),
        codes,
        arrows,
    }
}

/// Decisions on the joined leaf, by where they lie: those of each half on its own grid, and the values
/// in the column between.
#[derive(Debug, Default, PartialEq, Eq)]
pub struct Parts {
    pub left: Vec<Literal>,
    pub column: Vec<u8>,
    pub right: Vec<Literal>,
}

pub fn parts(left: Size, right: Size, decisions: &[Literal]) -> Parts {
    let whole = joined_size(left, right);
    let mut parts = Parts::default();
    for &(cell, value) in decisions {
        let (row, column) = (whole.row(cell), whole.column(cell));
        if column < left.width {
            parts.left.push((row * left.width + column, value));
        } else if column == left.width {
            parts.column.push(value);
        } else {
            let column = column - (left.width + 1);
            parts.right.push((row * right.width + column, value));
        }
    }
    parts
}

/// The record of both on one leaf.
/// Refusals: the left's 1 to 5, then the right's 1 to 5, then 18 for unequal heights, then 19 for a
/// joined width above 32; last 15 for an output shorter than the joined record.
pub fn joined_record(left: &[u8], right: &[u8], output_length: usize) -> Result<Vec<u8>, Refusal> {
    let left = decode(left)?;
    let right = decode(right)?;
    if left.size.height != right.size.height {
        return Err(Refusal::UnequalHeights);
    }
    if joined_size(left.size, right.size).width > MOST_WIDTH {
        return Err(Refusal::TooWide);
    }
    let record = encode(&joined(&left, &right));
    if output_length < record.len() {
        return Err(Refusal::RecordOutputShort);
    }
    Ok(record)
}

#[cfg(test)]
mod tests {
    use super::super::board::Board;
    use super::super::finished::finished;
    use super::super::record::plain;
    use super::super::Edition;
    use super::*;

    const S: [u8; 7] = [0x00, 0x80, 0x08, 0x00, 0x00, 0x05, 0xE0];
    const T: [u8; 4] = [0x00, 0x40, 0x00, 0x00];

    /// The leaf of a page: `#` is black and c, h are given; arrows by their letters.
    fn leaf(page: &str, arrows: &[&str]) -> Puzzle {
        let rows: Vec<&str> = page.split('/').collect();
        let letters = rows.concat();
        let cell = |letter| letters.find(letter).unwrap();
        let arrow = |letters: &&str| letters.chars().map(cell).collect();
        let code = |letter| match letter {
            '#' => Code::Black,
            'c' | 'h' => Code::Given,
            _ => Code::Plain,
        };
        Puzzle {
            size: Size {
                height: rows.len(),
                width: rows[0].len(),
            },
            codes: letters.chars().map(code).collect(),
            arrows: arrows.iter().map(arrow).collect(),
        }
    }

    #[test]
    fn pages_side_by_side() {
        let (three, two) = ("abc/def", "gh/ij");
        let (long, short) = (["f", "debc"], ["ijh", "g"]);
        assert_eq!(
            joined(&leaf(three, &long), &leaf(two, &short)),
            leaf("abc#gh/def#ij", &["f", "debc", "ijh", "g"])
        );
        assert_eq!(
            joined(&leaf(two, &short), &leaf(three, &long)),
            leaf("gh#abc/ij#def", &["ijh", "g", "f", "debc"])
        );
    }

    /// The joined record in an output that is long enough for any.
    fn both(left: &[u8], right: &[u8]) -> Result<Vec<u8>, Refusal> {
        joined_record(left, right, 2_819)
    }

    #[test]
    fn strip_and_pair_in_bytes() {
        // 1 by 5 with cell 2 black
        assert_eq!(both(&T, &T), Ok(vec![0x01, 0x00, 0x00, 0x20]));
        // 1 by 6 with cell 3 black, an arrow from cell 0 to cell 2
        let expected = vec![0x01, 0x40, 0x08, 0x08, 0x00, 0x00, 0x17, 0x80];
        assert_eq!(both(&S, &T), Ok(expected));
        // 1 by 6 with cell 2 black, an arrow from cell 3 to cell 5
        let expected = vec![0x01, 0x40, 0x08, 0x20, 0x00, 0x60, 0x17, 0x80];
        assert_eq!(both(&T, &S), Ok(expected));
        // 1 by 7 with cell 3 black, an arrow from cell 0 and then one from cell 4
        let expected = vec![
            0x01, 0x80, 0x10, 0x08, 0x00, 0x00, 0x05, 0xE0, 0x20, 0x05, 0xE0,
        ];
        assert_eq!(both(&S, &S), Ok(expected));
    }

    fn blank(height: usize, width: usize) -> Vec<u8> {
        encode(&plain(height, width, Vec::new()))
    }

    #[test]
    fn widths_about_the_limit() {
        for height in [1, 2, 31, 32] {
            for left in 1..=32 {
                for right in 1..=32 {
                    let answer = both(&blank(height, left), &blank(height, right));
                    match left + 1 + right {
                        width @ ..=32 => {
                            let puzzle = decode(&answer.unwrap()).unwrap();
                            assert_eq!(puzzle.size, Size { height, width });
                        }
                        _ => assert_eq!(answer, Err(Refusal::TooWide)),
                    }
                }
            }
        }
    }

    #[test]
    fn refusals_in_order() {
        let (ends, filler) = (&S[..6], [&S[..], &[0]].concat());
        assert_eq!(both(ends, &filler), Err(Refusal::RecordEnds));
        assert_eq!(both(&filler, ends), Err(Refusal::Filler));
        // a right record that is refused, of another height and too wide
        let wide = [&blank(2, 32)[..], &[0]].concat();
        assert_eq!(joined_record(&S, &wide, 0), Err(Refusal::Filler));
        let unequal = joined_record(&S, &blank(2, 32), 0);
        assert_eq!(unequal, Err(Refusal::UnequalHeights));
        let too_wide = joined_record(&S, &blank(1, 29), 0);
        assert_eq!(too_wide, Err(Refusal::TooWide));
        for length in 0..11 {
            let short = joined_record(&S, &S, length);
            assert_eq!(short, Err(Refusal::RecordOutputShort));
        }
        assert_eq!(joined_record(&S, &S, 11).unwrap().len(), 11);
        assert_eq!(joined_record(&S, &S, 12).unwrap().len(), 11);
    }

    #[test]
    fn decisions_in_three() {
        let size = |width| Size { height: 2, width };
        let decisions = [(0, 1), (2, 0), (3, 1), (5, 0), (6, 1), (9, 0), (11, 1)];
        let expected = Parts {
            left: vec![(0, 1), (2, 0), (3, 1)],
            column: vec![1, 0],
            right: vec![(1, 0), (3, 1)],
        };
        assert_eq!(parts(size(3), size(2), &decisions), expected);
    }

    #[test]
    fn joined_leaves_in_both_editions() {
        // An arrow along the first four cells of each row: a block of one square, and then one of two,
        // or one of three, which is finished in edition 2 alone.
        let arrow = || vec![(0..4).collect()];
        let (left, right) = (plain(1, 5, arrow()), plain(1, 6, arrow()));
        let leaf = joined(&left, &right);
        let is_finished = |edition, squares: &[usize]| {
            let value = |cell| (cell, u8::from(squares.contains(&cell)));
            let full: Vec<Literal> = (0..12).map(value).collect();
            finished(&Board::after(&leaf, edition, &full))
        };
        let verdicts = |squares: &[usize]| Edition::BOTH.map(|e| is_finished(e, squares));
        assert_eq!(verdicts(&[0, 3, 4, 6, 9, 10]), [true, true]);
        assert_eq!(verdicts(&[0, 3, 4, 6, 9, 10, 11]), [false, true]);
        // the column, the right half, the left half
        assert_eq!(verdicts(&[0, 3, 4, 5, 7, 9, 10]), [false, false]);
        assert_eq!(verdicts(&[0, 3, 4]), [false, false]);
        assert_eq!(verdicts(&[6, 9, 10]), [false, false]);
    }
}
