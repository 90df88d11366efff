//! Leaves turned for the page, document 02 §5.

mod records;

use evolmino::{finished, turn, turn_bytes, Problem, ProblemCell, Record, Refusal, Turning};
use records::{refused_records, rows, S};

/// Two rows of three cells, and where each of them lies after turnings 0 to 7: "flips left and right first if k is 4 or more, then
/// makes k modulo 4 quarter turns clockwise".
const PAGES: [&[&str]; 8] = [
    &["abc", "def"],
    &["da", "eb", "fc"],
    &["fed", "cba"],
    &["cf", "be", "ad"],
    &["cba", "fed"],
    &["fc", "eb", "da"],
    &["def", "abc"],
    &["ad", "be", "cf"],
];

fn turnings() -> impl Iterator<Item = Turning> {
    (0..8).map(|k| Turning::new(k).unwrap())
}

/// The place of a letter on a page.
fn place(page: &[&str], letter: char) -> (usize, usize) {
    let mut rows = page.iter().enumerate();
    rows.find_map(|(row, letters)| Some((row, letters.find(letter)?)))
        .unwrap()
}

/// The leaf of a page: cell a is black and c a given square; the first arrow is f alone, the second goes d, e, b, c.
fn leaf(page: &[&str]) -> Problem {
    let code = |letter| match letter {
        'a' => ProblemCell::Black,
        'c' => ProblemCell::Square,
        _ => ProblemCell::Empty,
    };
    let arrow = |letters: &str| letters.chars().map(|letter| place(page, letter)).collect();
    Problem {
        cells: page
            .iter()
            .map(|row| row.chars().map(code).collect())
            .collect(),
        arrows: vec![arrow("f"), arrow("debc")],
    }
}

fn record(problem: &Problem) -> Vec<u8> {
    Record::new(problem).unwrap().bytes().to_vec()
}

/// A grid of plain cells but for a black one, with no arrow.
fn black_at(height: usize, width: usize, (row, column): (usize, usize)) -> Vec<u8> {
    let mut cells = vec![vec![ProblemCell::Empty; width]; height];
    cells[row][column] = ProblemCell::Black;
    record(&Problem {
        cells,
        arrows: vec![],
    })
}

#[test]
fn strip_in_all_eight() {
    let right = S;
    // from row 0 of 3, down
    let down = [0x10, 0x00, 0x08, 0x00, 0x00, 0x04, 0xA0];
    // from column 2, left
    let left = [0x00, 0x80, 0x08, 0x00, 0x10, 0x05, 0x40];
    // from row 2, up
    let up = [0x10, 0x00, 0x08, 0x02, 0x00, 0x04, 0x00];
    let images = [right, down, left, up, left, up, right, down];
    for (turning, image) in turnings().zip(images) {
        assert_eq!(turn(&S, turning), Ok(image.to_vec()), "{turning:?}");
    }
}

#[test]
fn pages_in_all_eight() {
    let upright = record(&leaf(PAGES[0]));
    for (turning, page) in turnings().zip(PAGES) {
        let turned = turn(&upright, turning).unwrap();
        assert_eq!(turned, record(&leaf(page)), "{turning:?}");
        assert_eq!(turn(&turned, turning.inverse()).unwrap(), upright);
        for letter in "abcdef".chars() {
            let cell = turning.cell(2, 3, place(PAGES[0], letter));
            assert_eq!(cell, place(page, letter), "{turning:?} of {letter}");
        }
    }
}

/// One row or one column of 32 cells, an arrow of three cells from the fourth cell on, away from the first.
fn long(upright: bool) -> Problem {
    let at = |cell| if upright { (cell, 0) } else { (0, cell) };
    let (height, width) = if upright { (32, 1) } else { (1, 32) };
    let mut cells = vec![vec![ProblemCell::Empty; width]; height];
    let (row, column) = at(30);
    cells[row][column] = ProblemCell::Square;
    Problem {
        cells,
        arrows: vec![(3..6).map(at).collect()],
    }
}

/// The same with its cells counted from the other end.
fn from_the_end(problem: &Problem) -> Problem {
    let mut problem = problem.clone();
    let (rows, columns) = (problem.cells.len() - 1, problem.cells[0].len() - 1);
    problem.cells.reverse();
    for row in &mut problem.cells {
        row.reverse();
    }
    for (row, column) in problem.arrows.iter_mut().flatten() {
        (*row, *column) = (rows - *row, columns - *column);
    }
    problem
}

#[test]
fn one_row_and_one_column_of_32() {
    let (across, down) = (long(false), long(true));
    let (back, up) = (from_the_end(&across), from_the_end(&down));
    let of_row = [&across, &down, &back, &up, &back, &up, &across, &down];
    let of_column = [&down, &back, &up, &across, &down, &back, &up, &across];
    for (turning, (row, column)) in turnings().zip(of_row.into_iter().zip(of_column)) {
        assert_eq!(turn(&record(&across), turning).unwrap(), record(row));
        assert_eq!(turn(&record(&down), turning).unwrap(), record(column));
    }
}

#[test]
fn cells_go_as_the_library_takes_them() {
    for (height, width) in [(1, 1), (1, 32), (32, 1), (2, 3), (5, 4), (32, 31), (32, 32)] {
        for turning in turnings() {
            let (high, wide) = turning.size(height, width);
            for cell in [
                (0, 0),
                (0, width - 1),
                (height - 1, 0),
                (height / 2, width / 3),
            ] {
                let image = black_at(high, wide, turning.cell(height, width, cell));
                let turned = turn(&black_at(height, width, cell), turning);
                assert_eq!(turned, Ok(image), "{turning:?} of {cell:?}");
            }
        }
    }
}

#[test]
fn one_turning_and_then_another() {
    let upright = record(&leaf(PAGES[0]));
    for first in turnings() {
        assert_eq!(Turning::new(first.number()), Some(first));
        assert_eq!(first.then(first.inverse()).number(), 0);
        assert_eq!(first.inverse().then(first).number(), 0);
        let turned = turn(&upright, first).unwrap();
        for next in turnings() {
            assert_eq!(turn(&turned, next), turn(&upright, first.then(next)));
        }
    }
    assert_eq!(Turning::new(8), None);
    assert_eq!(Turning::new(u32::MAX), None);
}

#[test]
#[should_panic(expected = "off the grid")]
fn a_cell_to_turn_is_on_the_grid() {
    Turning::new(1).unwrap().cell(2, 3, (2, 0));
}

#[test]
fn finished_whichever_way_up() {
    // A row of five cells with an arrow along its first four: blocks of 1 and 2.
    let (height, width) = (1, 5);
    let upright = rows(height, width, 4);
    for (squares, yes) in [([0, 3, 4], true), ([1, 3, 4], true), ([0, 2, 3], false)] {
        for turning in turnings() {
            let turned = turn(upright.bytes(), turning).unwrap();
            let (_, wide) = turning.size(height, width);
            let decision = |column| {
                let (row, at) = turning.cell(height, width, (0, column));
                (row * wide + at, squares.contains(&column))
            };
            let decisions: Vec<_> = (0..width).map(decision).collect();
            assert_eq!(finished(&turned, &decisions), Ok(yes), "{turning:?}");
        }
    }
}

#[test]
fn refusals_in_order() {
    let mut output = [0xAA; 9];
    for k in [8, 9, 255, 256, 257, 1 << 16, 1 << 31, u32::MAX] {
        assert_eq!(turn_bytes(&S, k, &mut output), Err(Refusal::Turning));
        assert_eq!(turn_bytes(&S, k, &mut []), Err(Refusal::Turning));
        assert_eq!(turn_bytes(&S[..6], k, &mut []), Err(Refusal::RecordEnds));
    }
    for length in 0..7 {
        assert_eq!(
            turn_bytes(&S, 7, &mut output[..length]),
            Err(Refusal::RecordOutputShort)
        );
        assert_eq!(output, [0xAA; 9]);
    }
    for (bytes, refusal) in refused_records() {
        assert_eq!(turn_bytes(&bytes, 8, &mut output[..0]), Err(refusal));
        assert_eq!(turn_bytes(&bytes, 1, &mut output), Err(refusal));
        assert_eq!(turn(&bytes, Turning::new(5).unwrap()), Err(refusal));
    }
    assert_eq!(output, [0xAA; 9]);
}

#[test]
fn only_the_record_is_written() {
    let mut output = [0xAA; 9];
    assert_eq!(turn_bytes(&S, 6, &mut output), Ok(7));
    assert_eq!(output[..7], S);
    assert_eq!(output[7..], [0xAA; 2]);
}

#[test]
fn refusals_of_turning_have_their_numbers() {
    for (number, refusal) in [(14, Refusal::Turning), (15, Refusal::RecordOutputShort)] {
        assert_eq!(Refusal::from_number(number), refusal);
        assert_eq!(refusal.number(), number);
    }
}
