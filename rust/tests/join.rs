//! Two puzzles on one leaf, document 02 §10.

mod records;

use evolmino::{finished, join, join_bytes, Problem, ProblemCell, Record, Refusal};
use records::{refused_records, rows, S, T};

/// S beside S: one row of seven cells, the fourth black, an arrow from cell 0 and then one from cell 4.
const BOTH: [u8; 11] = [
    0x01, 0x80, 0x10, 0x08, 0x00, 0x00, 0x05, 0xE0, 0x20, 0x05, 0xE0,
];

fn record(problem: &Problem) -> Vec<u8> {
    Record::new(problem).unwrap().bytes().to_vec()
}

/// The leaf of a page: `#` is black, c and h are given squares; arrows by their letters.
fn leaf(page: &[&str], arrows: &[&str]) -> Problem {
    let code = |letter| match letter {
        '#' => ProblemCell::Black,
        'c' | 'h' => ProblemCell::Square,
        _ => ProblemCell::Empty,
    };
    let place = |letter| {
        let mut rows = page.iter().enumerate();
        rows.find_map(|(row, letters)| Some((row, letters.find(letter)?)))
            .unwrap()
    };
    Problem {
        cells: page
            .iter()
            .map(|row| row.chars().map(code).collect())
            .collect(),
        arrows: arrows
            .iter()
            .map(|letters| letters.chars().map(place).collect())
            .collect(),
    }
}

/// Plain cells, no arrow.
fn blank(height: usize, width: usize) -> Vec<u8> {
    record(&Problem {
        cells: vec![vec![ProblemCell::Empty; width]; height],
        arrows: vec![],
    })
}

#[test]
fn strips_in_bytes() {
    assert_eq!(join(&S, &S), Ok(BOTH.to_vec()));
    // one row of five cells, the third black
    assert_eq!(join(&T, &T), Ok(vec![0x01, 0x00, 0x00, 0x20]));
}

#[test]
fn pages_side_by_side() {
    let left = record(&leaf(&["abc", "def"], &["f", "debc"]));
    let right = record(&leaf(&["gh", "ij"], &["ijh", "g"]));
    let there = leaf(&["abc#gh", "def#ij"], &["f", "debc", "ijh", "g"]);
    let back = leaf(&["gh#abc", "ij#def"], &["ijh", "g", "f", "debc"]);
    assert_eq!(join(&left, &right).unwrap(), record(&there));
    assert_eq!(join(&right, &left).unwrap(), record(&back));
}

#[test]
fn three_on_one_leaf() {
    let right = join(&T, &S).unwrap();
    let left = join(&S, &T).unwrap();
    assert_eq!(join(&S, &right), join(&left, &S));
}

#[test]
fn widths_about_the_limit() {
    for height in [1, 32] {
        for left in 1..=32 {
            for joined in [31, 32, 33] {
                let Some(right @ 1..) = (joined - 1_usize).checked_sub(left) else {
                    continue;
                };
                let answer = join(&blank(height, left), &blank(height, right));
                let mut whole = Problem {
                    cells: vec![vec![ProblemCell::Empty; joined]; height],
                    arrows: vec![],
                };
                for row in &mut whole.cells {
                    row[left] = ProblemCell::Black;
                }
                match joined {
                    33 => assert_eq!(answer, Err(Refusal::TooWide)),
                    _ => assert_eq!(answer, Ok(record(&whole))),
                }
            }
        }
    }
}

/// The longest record that two can be joined to: 32 by 32, an arrow on each cell but those of the column.
#[test]
fn an_arrow_on_each_cell() {
    let half = |width: usize| {
        record(&Problem {
            cells: vec![vec![ProblemCell::Empty; width]; 32],
            arrows: (0..32 * width)
                .map(|cell| vec![(cell / width, cell % width)])
                .collect(),
        })
    };
    let joined = join(&half(15), &half(16)).unwrap();
    assert_eq!(joined.len(), (21 + 2 * 1_024 + 20 * 992_usize).div_ceil(8));
    assert_eq!(finished(&joined, &[]), Ok(false));
}

#[test]
fn finished_by_halves() {
    // A row of five cells with an arrow along its first four: a block of one square, and then one of two.
    let half = rows(1, 5, 4);
    let half = half.bytes();
    let both = join(half, half).unwrap();
    let full = |cells: usize, squares: &[usize]| -> Vec<_> {
        let decision = |cell| (cell, squares.contains(&cell));
        (0..cells).map(decision).collect()
    };
    for (squares, yes) in [(&[0, 3, 4][..], true), (&[1, 3, 4], true), (&[], false)] {
        assert_eq!(finished(half, &full(5, squares)), Ok(yes));
    }
    for (squares, yes) in [
        (&[0, 3, 4, 6, 9, 10][..], true),
        (&[1, 3, 4, 7, 9, 10], true),
        (&[0, 3, 4, 5, 6, 9, 10], false),
        (&[0, 3, 4], false),
        (&[6, 9, 10], false),
    ] {
        assert_eq!(finished(&both, &full(11, squares)), Ok(yes), "{squares:?}");
    }
}

#[test]
fn refusals_in_order() {
    let mut output = [0xAA; 13];
    for (left, refusal) in refused_records() {
        for (right, _) in refused_records() {
            assert_eq!(join_bytes(&left, &right, &mut output), Err(refusal));
        }
        assert_eq!(join(&left, &S), Err(refusal));
        assert_eq!(join(&left, &blank(2, 32)), Err(refusal));
    }
    for (right, refusal) in refused_records() {
        assert_eq!(join(&S, &right), Err(refusal));
        assert_eq!(join_bytes(&blank(2, 32), &right, &mut []), Err(refusal));
    }
    let refusal_of = |left: &[u8], right: &[u8]| join_bytes(left, right, &mut []).unwrap_err();
    // a joined width of 33 too
    assert_eq!(refusal_of(&blank(2, 29), &S), Refusal::UnequalHeights);
    assert_eq!(refusal_of(&S, &blank(2, 29)), Refusal::UnequalHeights);
    assert_eq!(refusal_of(&S, &blank(1, 29)), Refusal::TooWide);
    assert_eq!(refusal_of(&S, &blank(1, 28)), Refusal::RecordOutputShort);
    for length in 0..11 {
        assert_eq!(
            join_bytes(&S, &S, &mut output[..length]),
            Err(Refusal::RecordOutputShort)
        );
    }
    assert_eq!(output, [0xAA; 13]);
}

/// The number of a record's refusal doesn't tell whose it is; the left record by itself does.
#[test]
fn whose_refusal() {
    for (wrong, refusal) in refused_records() {
        assert_eq!(join(&wrong, &S), Err(refusal));
        assert_eq!(finished(&wrong, &[]), Err(refusal));
        assert_eq!(join(&S, &wrong), Err(refusal));
        assert_eq!(finished(&S, &[]), Ok(false));
    }
}

#[test]
fn only_the_record_is_written() {
    let mut output = [0xAA; 13];
    assert_eq!(join_bytes(&S, &S, &mut output), Ok(11));
    assert_eq!(output[..11], BOTH);
    assert_eq!(output[11..], [0xAA; 2]);
    // an output of just the length
    assert_eq!(join_bytes(&T, &T, &mut output[..4]), Ok(4));
}

#[test]
fn refusals_of_joining_have_their_numbers() {
    for (number, refusal) in [(18, Refusal::UnequalHeights), (19, Refusal::TooWide)] {
        assert_eq!(Refusal::from_number(number), refusal);
        assert_eq!(refusal.number(), number);
        assert!(refusal.to_string().contains(&number.to_string()));
    }
}
