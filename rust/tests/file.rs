//! Setter's file and player's file, document 02 §11.

mod records;

use evolmino::{
    finished, player_file, player_file_bytes, setter_file, setter_file_bytes, write_file, Edition,
    FileError, Problem, ProblemCell, Record, Refusal,
};
use records::{refused_records, rows, S, T};

/// What stands behind S for grade 5 (101) and the cells 1, 0, 1, which are not finished.
const TAIL_OF_S: u8 = 0b1011_0100;
/// What stands behind T for grade 3 (011) and two empty cells, which are finished.
const TAIL_OF_T: u8 = 0b0110_0000;

const EDITIONS: [Edition; 2] = [Edition::ExactlyOne, Edition::OneOrMore];

/// A row of cells with an arrow along its first four.
fn row(width: usize) -> Vec<u8> {
    rows(1, width, 4).bytes().to_vec()
}

fn cells(squares: &[usize], number: usize) -> Vec<bool> {
    (0..number).map(|cell| squares.contains(&cell)).collect()
}

fn with(record: &[u8], tail: &[u8]) -> Vec<u8> {
    [record, tail].concat()
}

#[test]
fn files_in_bytes() {
    let file = write_file(&S, 5, &[true, false, true]).unwrap();
    assert_eq!(file, with(&S, &[TAIL_OF_S]));
    let read = player_file(&file).unwrap();
    assert_eq!((read.record, read.grade), (&S[..], 5));
    let file = write_file(&T, 3, &[false; 2]).unwrap();
    assert_eq!(file, with(&T, &[TAIL_OF_T]));
    let read = setter_file(&file, Edition::ExactlyOne).unwrap();
    assert_eq!((read.record, read.grade), (&T[..], 3));
    assert_eq!(read.solution, [false; 2]);
}

/// Tails of 3 and as many bits as there are cells: with no filler for 5 cells, with seven zero bits for 6.
#[test]
fn tails_about_a_whole_byte() {
    for (width, bytes) in [(4, 1), (5, 1), (6, 2), (12, 2), (13, 2), (14, 3)] {
        let record = row(width);
        let file = write_file(&record, 7, &vec![true; width]).unwrap();
        assert_eq!(file.len(), record.len() + bytes, "{width}");
        assert_eq!(player_file(&file).unwrap().record, record);
        let longer = with(&file, &[0]);
        assert_eq!(player_file(&longer), Err(Refusal::Tail));
        assert_eq!(player_file(&file[..file.len() - 1]), Err(Refusal::Tail));
    }
}

/// A solution that is finished in both editions, one that is in edition 2 alone, and two that are in neither.
#[test]
fn the_solution_is_vouched_for() {
    let record = row(6);
    for (squares, verdicts) in [
        (&[0, 3, 4][..], [true, true]),
        (&[0, 3, 4, 5], [false, true]),
        (&[0, 1, 3, 4], [false, false]),
        (&[], [false, false]),
    ] {
        let solution = cells(squares, 6);
        let file = write_file(&record, 1, &solution).unwrap();
        for (edition, verdict) in EDITIONS.into_iter().zip(verdicts) {
            match setter_file(&file, edition) {
                Ok(read) => assert_eq!((verdict, &read.solution), (true, &solution)),
                Err(refusal) => assert_eq!((verdict, refusal), (false, Refusal::Unfinished)),
            }
        }
        let full: Vec<_> = solution.iter().copied().enumerate().collect();
        assert_eq!(finished(&record, &full), Ok(verdicts[0]), "{squares:?}");
        assert_eq!(player_file(&file).unwrap().grade, 1);
    }
}

#[test]
fn every_grade() {
    for grade in 0..8 {
        let file = write_file(&T, grade, &[false; 2]).unwrap();
        assert_eq!(player_file(&file).unwrap().grade, grade);
        let read = setter_file(&file, Edition::OneOrMore).unwrap();
        assert_eq!(read.grade, grade);
    }
}

/// Every solution of a row, and of what is left of it in a file that ends early: the player's call says the same.
#[test]
fn players_see_nothing_of_the_solution() {
    let record = row(6);
    let answer = |file: &[u8]| {
        let mut output = [0xAA; 4];
        (player_file_bytes(file, &mut output), output)
    };
    for number in 0..64_usize {
        let solution: Vec<bool> = (0..6).map(|cell| number >> cell & 1 == 1).collect();
        let file = write_file(&record, 4, &solution).unwrap();
        assert_eq!(answer(&file), (Ok(record.len()), [4, 0xAA, 0xAA, 0xAA]));
        let shorter = &file[..record.len() + 1];
        assert_eq!(answer(shorter), (Err(Refusal::Tail), [0xAA; 4]));
    }
}

/// 5 counts filler of the record only: one of its own bits, and no byte behind it.
#[test]
fn filler_of_the_record() {
    for bit in 0..5 {
        let mut file = with(&S, &[TAIL_OF_S]);
        file[6] |= 1 << bit;
        assert_eq!(player_file(&file), Err(Refusal::Filler));
    }
    // no tail, a whole zero byte behind the record, and one more behind the tail
    assert_eq!(player_file(&S), Err(Refusal::Tail));
    assert_eq!(player_file(&with(&S, &[0])).unwrap().grade, 0);
    assert_eq!(player_file(&with(&S, &[0, 0])), Err(Refusal::Tail));
    for bit in 0..2 {
        let file = with(&S, &[TAIL_OF_S | 1 << bit]);
        assert_eq!(player_file(&file), Err(Refusal::Tail));
    }
}

#[test]
fn refusals_in_order() {
    let mut output = [0xAA; 6];
    for (record, refusal) in refused_records() {
        // neither output nor tail nor edition is right
        assert_eq!(player_file_bytes(&record, &mut []), Err(refusal));
        assert_eq!(setter_file_bytes(&record, 3, &mut []), Err(refusal));
    }
    // a tail that is too short, an edition that is none
    assert_eq!(player_file_bytes(&S, &mut []), Err(Refusal::OutputShort));
    for length in 0..4 {
        let answer = setter_file_bytes(&S, 3, &mut output[..length]);
        assert_eq!(answer, Err(Refusal::OutputShort));
    }
    let answer = |file: &[u8], edition, output: &mut [u8]| {
        setter_file_bytes(file, edition, &mut output[..4]).unwrap_err()
    };
    let unfinished = with(&S, &[TAIL_OF_S]);
    for tail in [&[][..], &[TAIL_OF_S, 0], &[TAIL_OF_S | 1]] {
        assert_eq!(answer(&with(&S, tail), 3, &mut output), Refusal::Tail);
    }
    for edition in [0, 3, 255, 256, 257, 258, 1 << 16, 1 << 31, u32::MAX] {
        assert_eq!(answer(&unfinished, edition, &mut output), Refusal::Edition);
    }
    for edition in [1, 2] {
        let refusal = answer(&unfinished, edition, &mut output);
        assert_eq!(refusal, Refusal::Unfinished);
    }
    assert_eq!(output, [0xAA; 6]);
}

#[test]
fn only_grade_and_cells_are_written() {
    let (record, solution) = (row(5), cells(&[0, 3, 4], 5));
    let file = write_file(&record, 6, &solution).unwrap();
    let mut output = [0xAA; 8];
    let length = setter_file_bytes(&file, 1, &mut output);
    assert_eq!(length, Ok(record.len()));
    assert_eq!(output, [6, 1, 0, 0, 1, 1, 0xAA, 0xAA]);
    // an output of just the length
    let mut output = [0xAA; 8];
    assert_eq!(setter_file_bytes(&file, 2, &mut output[..6]), length);
    assert_eq!(output, [6, 1, 0, 0, 1, 1, 0xAA, 0xAA]);
    let mut output = [0xAA; 2];
    assert_eq!(player_file_bytes(&file, &mut output), length);
    assert_eq!(output, [6, 0xAA]);
    assert_eq!(player_file_bytes(&file, &mut output[..1]), length);
}

/// The longest file: 32 by 32 cells, an arrow on each, which no solution finishes.
#[test]
fn the_longest_file() {
    let cell = |cell: usize| (cell / 32, cell % 32);
    let problem = Problem {
        cells: vec![vec![ProblemCell::Empty; 32]; 32],
        arrows: (0..1_024).map(|index| vec![cell(index)]).collect(),
    };
    let record = Record::new(&problem).unwrap();
    let file = write_file(record.bytes(), 7, &[true; 1_024]).unwrap();
    assert_eq!(file.len(), 2_819 + 129);
    assert_eq!(player_file(&file).unwrap().record, record.bytes());
    for edition in EDITIONS {
        assert_eq!(setter_file(&file, edition), Err(Refusal::Unfinished));
    }
}

#[test]
fn what_is_no_file() {
    for (record, refusal) in refused_records() {
        let error = write_file(&record, 9, &[]).unwrap_err();
        assert_eq!(error, FileError::Record(refusal));
        assert!(error.to_string().contains(&refusal.to_string()));
    }
    // a byte behind a record is none of the record
    let longer = with(&S, &[0]);
    let error = write_file(&longer, 5, &[true; 3]);
    assert_eq!(error, Err(FileError::Record(Refusal::Filler)));
    for grade in [8, 255] {
        assert_eq!(write_file(&S, grade, &[]), Err(FileError::Grade(grade)));
    }
    for cells in [0, 2, 4, 11] {
        let error = write_file(&S, 5, &vec![false; cells]);
        assert_eq!(error, Err(FileError::Cells(cells)));
    }
}

#[test]
fn refusals_of_files_have_their_numbers() {
    for (number, refusal) in [(20, Refusal::Tail), (21, Refusal::Unfinished)] {
        assert_eq!(Refusal::from_number(number), refusal);
        assert_eq!(refusal.number(), number);
        assert!(refusal.to_string().contains(&number.to_string()));
    }
}
