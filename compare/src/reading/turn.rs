//! Document 02 §5: leaves turned for the page; and §13: what is turned with them.

use super::grid::Size;
use super::record::{decode, encode, Puzzle};
use super::sizes::Range;
use super::{Literal, Refusal};

/// Turning k, 0 to 7.
pub const TURNINGS: std::ops::Range<u32> = 0..8;

/// Where a cell goes, and the size of the grid that it is then on: left and right are flipped first
/// if k is 4 or more, then k modulo 4 quarter turns clockwise are made.
fn turned_place(k: u32, size: Size, cell: usize) -> (Size, usize) {
    let Size { height, width } = size;
    let mut place = (height, width, size.row(cell), size.column(cell));
    if k >= 4 {
        place = flipped(place);
    }
    for _ in 0..k % 4 {
        place = quarter_turned(place);
    }
    let (height, width, row, column) = place;
    (Size { height, width }, row * width + column)
}

/// Height, width, row and column.
type Place = (usize, usize, usize, usize);

/// The leftmost column becomes the rightmost one.
fn flipped((height, width, row, column): Place) -> Place {
    (height, width, row, width - 1 - column)
}

/// Clockwise: the upper row becomes the rightmost column, and its left end the upper end.
fn quarter_turned((height, width, row, column): Place) -> Place {
    (width, height, column, height - 1 - row)
}

pub fn turned_size(k: u32, size: Size) -> Size {
    turned_place(k, size, 0).0
}

pub fn turned_cell(k: u32, size: Size, cell: usize) -> usize {
    turned_place(k, size, cell).1
}

/// The whole record is turned, with arrows in the same order.
pub fn turned(k: u32, puzzle: &Puzzle) -> Puzzle {
    let to = |&cell: &usize| turned_cell(k, puzzle.size, cell);
    let mut codes = puzzle.codes.clone();
    for (cell, &code) in puzzle.codes.iter().enumerate() {
        codes[to(&cell)] = code;
    }
    let arrow = |cells: &Vec<usize>| cells.iter().map(to).collect();
    Puzzle {
        size: turned_size(k, puzzle.size),
        codes,
        arrows: puzzle.arrows.iter().map(arrow).collect(),
    }
}

/// The turned image of decisions: each at its turned cell.
pub fn turned_decisions(k: u32, size: Size, decisions: &[Literal]) -> Vec<Literal> {
    decisions
        .iter()
        .map(|&(cell, value)| (turned_cell(k, size, cell), value))
        .collect()
}

/// The turned image of sizes: each at its turned cell, and listed by rising cell again.
pub fn turned_sizes(k: u32, size: Size, sizes: &[Range]) -> Vec<Range> {
    let to = |range: &Range| Range {
        cell: turned_cell(k, size, range.cell),
        ..*range
    };
    let mut turned: Vec<Range> = sizes.iter().map(to).collect();
    turned.sort_by_key(|range| range.cell);
    turned
}

/// The one of the eight that brings every cell home again.
pub fn inverse(k: u32) -> u32 {
    // The eight images of a grid like this one differ.
    let size = Size {
        height: 2,
        width: 3,
    };
    let comes_home = |back: u32, cell: usize| {
        let (page, there) = turned_place(k, size, cell);
        turned_place(back, page, there) == (size, cell)
    };
    TURNINGS
        .into_iter()
        .find(|&back| (0..size.cells()).all(|cell| comes_home(back, cell)))
        .expect("each turning has an inverse among the eight")
}

/// The turned record.
/// Refusals: 1 to 5, then 14 for k above 7, then 15 for an output shorter than the record.
pub fn turned_record(record: &[u8], k: u32, output_length: usize) -> Result<Vec<u8>, Refusal> {
    let puzzle = decode(record)?;
    if k > 7 {
        return Err(Refusal::Turning);
    }
    if output_length < record.len() {
        return Err(Refusal::RecordOutputShort);
    }
    Ok(encode(&turned(k, &puzzle)))
}

#[cfg(test)]
mod tests {
    use super::super::record::{plain, Code};
    use super::*;

    const S: [u8; 7] = [0x00, 0x80, 0x08, 0x00, 0x00, 0x05, 0xE0];

    /// Two rows of three cells, and where each of them lies after turnings 0 to 7.
    const PAGES: [&str; 8] = [
        "abc/def", "da/eb/fc", "fed/cba", "cf/be/ad", "cba/fed", "fc/eb/da", "def/abc", "ad/be/cf",
    ];

    /// The leaf of a page: cell a is black and c given; arrows f, and d, e, b, c.
    fn leaf(page: &str) -> Puzzle {
        let rows: Vec<&str> = page.split('/').collect();
        let letters = rows.concat();
        let cell = |letter| letters.find(letter).unwrap();
        let arrow = |letters: &str| letters.chars().map(cell).collect();
        let arrows = vec![arrow("f"), arrow("debc")];
        let mut puzzle = plain(rows.len(), rows[0].len(), arrows);
        puzzle.codes[cell('a')] = Code::Black;
        puzzle.codes[cell('c')] = Code::Given;
        puzzle
    }

    #[test]
    fn pages_in_all_eight() {
        let upright = leaf(PAGES[0]);
        for (k, page) in TURNINGS.zip(PAGES) {
            assert_eq!(turned(k, &upright), leaf(page), "turning {k}");
            assert_eq!(turned(inverse(k), &leaf(page)), upright, "turning {k}");
        }
    }

    #[test]
    fn inverses() {
        let inverses: Vec<u32> = TURNINGS.map(inverse).collect();
        assert_eq!(inverses, [0, 3, 2, 1, 4, 5, 6, 7]);
    }

    #[test]
    fn strip_in_all_eight() {
        let right = S;
        let down = [0x10, 0x00, 0x08, 0x00, 0x00, 0x04, 0xA0];
        let left = [0x00, 0x80, 0x08, 0x00, 0x10, 0x05, 0x40];
        let up = [0x10, 0x00, 0x08, 0x02, 0x00, 0x04, 0x00];
        let images = [right, down, left, up, left, up, right, down];
        for (k, image) in TURNINGS.zip(images) {
            assert_eq!(turned_record(&S, k, 7), Ok(image.to_vec()), "turning {k}");
        }
    }

    #[test]
    fn one_row_and_one_column_of_32() {
        // An arrow from the fourth cell on, and the same counted from the other end.
        let (there, back) = (vec![3, 4, 5], vec![28, 27, 26]);
        let row = |arrow: &Vec<usize>| encode(&plain(1, 32, vec![arrow.clone()]));
        let column = |arrow: &Vec<usize>| encode(&plain(32, 1, vec![arrow.clone()]));
        let (right, left) = (row(&there), row(&back));
        let (down, up) = (column(&there), column(&back));
        let of_row = [&right, &down, &left, &up, &left, &up, &right, &down];
        let of_column = [&down, &left, &up, &right, &down, &left, &up, &right];
        for k in TURNINGS {
            let image = |record: &[u8]| turned_record(record, k, 2_819).unwrap();
            assert_eq!(image(&right), *of_row[k as usize], "turning {k}");
            assert_eq!(image(&down), *of_column[k as usize], "turning {k}");
        }
    }

    #[test]
    fn refusals_in_order() {
        assert_eq!(turned_record(&S[..6], 8, 0), Err(Refusal::RecordEnds));
        assert_eq!(turned_record(&S, 8, 0), Err(Refusal::Turning));
        assert_eq!(turned_record(&S, 8, 7), Err(Refusal::Turning));
        assert_eq!(turned_record(&S, 7, 6), Err(Refusal::RecordOutputShort));
        assert_eq!(turned_record(&S, 6, 7), Ok(S.to_vec()));
        assert_eq!(turned_record(&S, 6, 8), Ok(S.to_vec()));
    }

    #[test]
    fn decisions_go_with_their_cells() {
        let size = Size {
            height: 2,
            width: 3,
        };
        let decisions = turned_decisions(1, size, &[(0, 1), (5, 0)]);
        assert_eq!(decisions, [(1, 1), (4, 0)]);
    }

    /// The range beside each letter of a page has a lowest and a highest size of its own.
    #[test]
    fn sizes_rise_again() {
        let sized = |page: &str| -> Vec<Range> {
            let letters = page.replace('/', "");
            let range = |(cell, letter)| {
                let lowest = "bdcf".find(letter)? + 1;
                Some(Range {
                    cell,
                    lowest,
                    highest: 10 - lowest,
                })
            };
            letters.chars().enumerate().filter_map(range).collect()
        };
        let upright = leaf(PAGES[0]);
        for (k, page) in TURNINGS.zip(PAGES) {
            let turned = turned_sizes(k, upright.size, &sized(PAGES[0]));
            assert_eq!(turned, sized(page), "turning {k}");
        }
    }
}
