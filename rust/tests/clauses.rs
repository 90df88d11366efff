//! The clause sheet of document 02 §3: leaves, the order of the clauses, outputs that are too short, and DIMACS.

mod records;

use evolmino::{
    clauses, clauses_bytes, dimacs, finished, Literal, Problem, ProblemCell, Record, Refusal,
    SHEET_LIMIT,
};
use records::{refused_records, S, T};

/// The clause sheet of S.
const SHEET_OF_S: [u8; 30] = [
    0, 2, 0x00, 0, 0x00, 1, // cells 0 and 1 touch
    0, 2, 0x00, 1, 0x00, 2, // cells 1 and 2 touch
    0, 2, 0x80, 1, 0x80, 2, // beside cell 0
    0, 2, 0x80, 0, 0x80, 2, // beside cell 1
    0, 2, 0x80, 0, 0x80, 1, // beside cell 2
];

/// The record of a puzzle with these arrows, given by cells.
fn record(
    height: usize,
    width: usize,
    arrows: &[&[usize]],
    codes: &[(usize, ProblemCell)],
) -> Record {
    let place = |&cell: &usize| (cell / width, cell % width);
    let mut cells = vec![vec![ProblemCell::Empty; width]; height];
    for (cell, code) in codes {
        cells[cell / width][cell % width] = *code;
    }
    let arrows = arrows
        .iter()
        .map(|a| a.iter().map(place).collect())
        .collect();
    Record::new(&Problem { cells, arrows }).unwrap()
}

/// A clause whose literals all have this value.
fn all(value: bool, cells: &[usize]) -> Vec<Literal> {
    cells.iter().map(|&cell| (cell, value)).collect()
}

#[test]
fn the_sheet_of_s() {
    let mut output = [0xAA; 33];
    assert_eq!(clauses_bytes(&S, &mut output), Ok(30));
    assert_eq!(output[..30], SHEET_OF_S);
    assert_eq!(output[30..], [0xAA; 3]);
    assert_eq!(
        clauses(&S),
        Ok(vec![
            all(false, &[0, 1]),
            all(false, &[1, 2]),
            all(true, &[1, 2]),
            all(true, &[0, 2]),
            all(true, &[0, 1]),
        ])
    );
}

#[test]
fn no_clause() {
    let mut output = [0xAA; 2];
    assert_eq!(clauses_bytes(&T, &mut []), Ok(0));
    assert_eq!(clauses_bytes(&T, &mut output), Ok(0));
    assert_eq!(output, [0xAA; 2]);
    assert_eq!(clauses(&T), Ok(vec![]));
    assert_eq!(dimacs(2, &[]), "p cnf 2 0\n");
}

#[test]
fn an_arrow_of_one_cell() {
    let leaf = record(1, 1, &[&[0]], &[]);
    let mut output = [0xAA; 3];
    assert_eq!(clauses_bytes(leaf.bytes(), &mut output), Ok(2));
    assert_eq!(output, [0, 0, 0xAA]);
    assert_eq!(clauses(leaf.bytes()), Ok(vec![vec![]]));
    assert_eq!(dimacs(1, &[vec![]]), "p cnf 1 1\n0\n");
    // Such a clause is satisfied by no board, and such a leaf is never finished.
    assert_eq!(finished(leaf.bytes(), &[(0, true)]), Ok(false));
    assert_eq!(finished(leaf.bytes(), &[(0, false)]), Ok(false));
}

/// A ring of arrow cells about a cell with none, and codes in all three kinds of cells.
#[test]
fn four_parts_in_order() {
    // 0 1 2
    // 3 . 5
    // 6 7 8
    let leaf = record(
        3,
        3,
        &[&[7, 8, 5, 2, 1, 0], &[3, 6]],
        &[
            (4, ProblemCell::Black),
            (0, ProblemCell::Square),
            (7, ProblemCell::Black),
        ],
    );
    let others = |cells: &[usize], cell: usize| -> Vec<usize> {
        cells
            .iter()
            .copied()
            .filter(|&other| other != cell)
            .collect()
    };
    let mut expected = vec![all(true, &[0]), all(false, &[4]), all(false, &[7])];
    // The cell below comes before the cell to the right.
    for touching in [
        [0, 3],
        [0, 1],
        [1, 2],
        [2, 5],
        [3, 6],
        [5, 8],
        [6, 7],
        [7, 8],
    ] {
        expected.push(all(false, &touching));
    }
    // The neighbours of cell 4: 1 up, 3 left, 7 down, 5 right.
    for (later, earlier) in [(3, 1), (7, 1), (7, 3), (5, 1), (5, 3), (5, 7)] {
        expected.push(all(false, &[later, 4, earlier]));
    }
    let first = [7, 8, 5, 2, 1, 0];
    for cell in first {
        expected.push(all(true, &others(&first, cell)));
    }
    expected.push(all(true, &[6]));
    expected.push(all(true, &[3]));
    assert_eq!(clauses(leaf.bytes()), Ok(expected));
}

#[test]
fn short_outputs_are_unchanged() {
    for length in 0..30 {
        let mut guarded = [0xAA; 38];
        let output = &mut guarded[4..4 + length];
        assert_eq!(clauses_bytes(&S, output), Err(Refusal::SheetShort));
        assert_eq!(guarded, [0xAA; 38]);
    }
    for length in 30..34 {
        let mut guarded = [0xAA; 42];
        assert_eq!(clauses_bytes(&S, &mut guarded[4..4 + length]), Ok(30));
        assert_eq!(guarded[..4], [0xAA; 4]);
        assert_eq!(guarded[4..34], SHEET_OF_S);
        assert_eq!(guarded[34..], [0xAA; 8]);
    }
}

/// The record's refusals come before 13.
#[test]
fn refusals_in_order() {
    for (refused, why) in refused_records() {
        let mut output = [0xAA; 40];
        assert_eq!(clauses_bytes(&refused, &mut []), Err(why));
        assert_eq!(clauses_bytes(&refused, &mut output), Err(why));
        assert_eq!(output, [0xAA; 40]);
        assert_eq!(clauses(&refused), Err(why));
    }
    assert_eq!(clauses_bytes(&S, &mut []), Err(Refusal::SheetShort));
}

/// One arrow through all cells of the largest grid, each cell black.
#[test]
fn the_longest_sheet() {
    let rows = |row: usize| -> Vec<usize> {
        let cells = 32 * row..32 * (row + 1);
        if row % 2 == 1 {
            cells.rev().collect()
        } else {
            cells.collect()
        }
    };
    let snake: Vec<usize> = (0..32).flat_map(rows).collect();
    let black: Vec<_> = snake
        .iter()
        .map(|&cell| (cell, ProblemCell::Black))
        .collect();
    let leaf = record(32, 32, &[&snake], &black);
    let mut output = vec![0xAA; SHEET_LIMIT];
    let short = &mut output[..SHEET_LIMIT - 1];
    assert_eq!(clauses_bytes(leaf.bytes(), short), Err(Refusal::SheetShort));
    assert!(output.iter().all(|&byte| byte == 0xAA));
    assert_eq!(clauses_bytes(leaf.bytes(), &mut output), Ok(SHEET_LIMIT));
    let clauses = clauses(leaf.bytes()).unwrap();
    assert_eq!(clauses.len(), 1024 + 2 * 31 * 32 + 1024);
    let last: Vec<_> = snake[..1023].iter().map(|&cell| (cell, true)).collect();
    assert_eq!(clauses.last(), Some(&last));
}
