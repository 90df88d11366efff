//! Cells that are certain: answers, steps and budgets, black and given cells decided first, and the refusals of the call.

mod records;

use evolmino::{
    certain, certain_bytes, certain_given_first, Board, Certain, Fact, Literal, Problem,
    ProblemCell, Record, Refusal,
};
use records::{refused_records, S, T};
use std::thread;

const ANY: u64 = u64::MAX;

/// A row of five cells with an arrow along its first four.
fn row(codes: [ProblemCell; 5]) -> Record {
    Record::new(&Problem {
        cells: vec![codes.to_vec()],
        arrows: vec![(0..4).map(|x| (0, x)).collect()],
    })
    .unwrap()
}

fn plain_row() -> Record {
    row([ProblemCell::Empty; 5])
}

/// `#` for a square, `.` for an empty cell, `?` for an open one.
fn told(facts: &str, steps: u64) -> Certain {
    let fact = |letter| match letter {
        '#' => Fact::Square,
        '.' => Fact::Empty,
        _ => Fact::Open,
    };
    Certain::Cells {
        cells: facts.chars().map(fact).collect(),
        steps,
    }
}

#[test]
fn no_arrow() {
    // Each square has a reason against it, so that every cell gives two steps.
    assert_eq!(certain(&T, &[], ANY), Ok(told("..", 5)));
    assert_eq!(certain(&T, &[(0, false)], ANY), Ok(told("..", 3)));
    assert_eq!(
        certain(&T, &[(1, true)], ANY),
        Ok(Certain::NoBoard { steps: 1 })
    );
}

#[test]
fn no_such_board() {
    // A block of two has no room beside the arrow.
    assert_eq!(certain(&S, &[], ANY), Ok(Certain::NoBoard { steps: 13 }));
    // One full board, which has no reason against it and is not finished.
    let empty = [(2, false), (0, false), (1, false)];
    assert_eq!(certain(&S, &empty, ANY), Ok(Certain::NoBoard { steps: 1 }));
}

#[test]
fn square_empty_and_open() {
    let row = plain_row();
    assert_eq!(certain(row.bytes(), &[], ANY), Ok(told("??.##", 37)));
    let first = [(0, true)];
    assert_eq!(certain(row.bytes(), &first, ANY), Ok(told("#..##", 13)));
    let full: Vec<Literal> = [1, 0, 0, 1, 1]
        .map(|v| v == 1)
        .into_iter()
        .enumerate()
        .collect();
    assert_eq!(certain(row.bytes(), &full, 1), Ok(told("#..##", 1)));
}

#[test]
fn budgets_about_the_number_of_steps() {
    let row = plain_row();
    for (record, steps) in [(&S[..], 13), (&T[..], 5), (row.bytes(), 37)] {
        let whole = certain(record, &[], ANY).unwrap();
        assert_eq!(whole.steps(), steps);
        for budget in 0..steps {
            let spent = Certain::Spent { steps: budget };
            assert_eq!(certain(record, &[], budget), Ok(spent));
        }
        for budget in [steps, steps + 1, 1 << 32, ANY] {
            assert_eq!(certain(record, &[], budget), Ok(whole.clone()));
        }
    }
}

#[test]
fn black_and_given_cells_first() {
    let codes = [
        ProblemCell::Black,
        ProblemCell::Empty,
        ProblemCell::Empty,
        ProblemCell::Empty,
        ProblemCell::Square,
    ];
    let row = row(codes);
    let record = row.bytes();
    // The search without tries them, and drops what comes of it.
    assert_eq!(certain(record, &[], ANY), Ok(told(".#.##", 37)));
    let given_first = told(".#.##", 13);
    assert_eq!(
        certain_given_first(record, &[], ANY),
        Ok(given_first.clone())
    );
    let decided = certain(record, &[(0, false), (4, true)], ANY);
    assert_eq!(decided, Ok(given_first));
    // Those that are decided already are left, also where no board can follow.
    let kept = [(4, true), (1, true)];
    assert_eq!(
        certain_given_first(record, &kept, ANY),
        Ok(told(".#.##", 5))
    );
    for wrong in [(0, true), (4, false)] {
        let without = certain(record, &[wrong], ANY).unwrap();
        let first = certain_given_first(record, &[wrong], ANY).unwrap();
        assert!(matches!(without, Certain::NoBoard { .. }));
        assert!(matches!(first, Certain::NoBoard { .. }));
    }
    let spent = Certain::Spent { steps: 12 };
    assert_eq!(certain_given_first(record, &[], 12), Ok(spent));
}

#[test]
fn bytes_and_what_stands_behind_them() {
    let mut output = [0xFF; 12];
    assert_eq!(certain_bytes(&T, &[], 5, &mut output), Ok(0));
    assert_eq!(output, [0, 0, 0, 0, 0, 0, 0, 5, 0, 0, 0xFF, 0xFF]);
    // Where nothing is told of the cells, only the steps are written.
    let mut output = [0xFF; 12];
    assert_eq!(certain_bytes(&S, &[], 13, &mut output), Ok(1));
    assert_eq!(output, [0, 0, 0, 0, 0, 0, 0, 13, 0xFF, 0xFF, 0xFF, 0xFF]);
    let mut output = [0xFF; 12];
    assert_eq!(certain_bytes(&S, &[], 12, &mut output), Ok(2));
    assert_eq!(output, [0, 0, 0, 0, 0, 0, 0, 12, 0xFF, 0xFF, 0xFF, 0xFF]);
    let row = plain_row();
    let mut output = [0xFF; 13];
    assert_eq!(certain_bytes(row.bytes(), &[], ANY, &mut output), Ok(0));
    assert_eq!(output, [0, 0, 0, 0, 0, 0, 0, 37, 2, 2, 0, 1, 1]);
}

#[test]
fn refusals() {
    let mut output = [0xFF; 11];
    let mut call = |record: &[u8], decisions: &[u8], length: usize| {
        let answer = certain_bytes(record, decisions, ANY, &mut output[..length]);
        assert_eq!(output, [0xFF; 11]);
        answer
    };
    assert_eq!(call(&S[..6], &[0x80], 0), Err(Refusal::RecordEnds));
    // A short output comes before the decisions.
    assert_eq!(call(&S, &[0x80], 10), Err(Refusal::OutputShort));
    assert_eq!(call(&S, &[0x84, 0x00, 0x80], 11), Err(Refusal::Decision));
    assert_eq!(call(&S, &[0x80, 0x03], 11), Err(Refusal::Index));
    assert_eq!(
        call(&S, &[0x80, 0x01, 0x00, 0x01, 0x80], 11),
        Err(Refusal::Decided)
    );
    assert_eq!(call(&S, &[0x80, 0x00, 0x80], 11), Err(Refusal::Decision));
}

#[test]
fn refusals_of_both_ways() {
    // An arrow at the end of the largest grid: a search of it would have no end.
    let open = Record::new(&Problem {
        cells: vec![vec![ProblemCell::Empty; 32]; 32],
        arrows: vec![vec![(31, 30), (31, 31)]],
    })
    .unwrap();
    for way in [certain, certain_given_first] {
        for (record, refusal) in refused_records() {
            assert_eq!(way(&record, &[], ANY), Err(refusal));
        }
        assert_eq!(way(&S, &[(0, true), (3, true)], ANY), Err(Refusal::Index));
        assert_eq!(way(&S, &[(0, true), (0, true)], ANY), Err(Refusal::Decided));
        // An index of more than ten bits is refused after the decisions before it, and nothing is searched for it.
        let wide = [(0, true), (4000, true)];
        assert_eq!(way(open.bytes(), &wide, ANY), Err(Refusal::Index));
        let twice = [(0, true), (0, true), (4000, true)];
        assert_eq!(way(open.bytes(), &twice, ANY), Err(Refusal::Decided));
    }
}

/// The answer in a stack of 256 kilobytes.
fn in_a_small_stack<F>(search: F) -> Result<Certain, Refusal>
where
    F: FnOnce() -> Result<Certain, Refusal> + Send + 'static,
{
    let small = thread::Builder::new().stack_size(256 * 1024);
    small.spawn(search).unwrap().join().unwrap()
}

#[test]
fn the_largest_grid_in_a_small_stack() {
    let record = Record::new(&Problem {
        cells: vec![vec![ProblemCell::Empty; 32]; 32],
        arrows: vec![],
    })
    .unwrap();
    let due = told(&".".repeat(1024), 2049);
    let board = Board::open(record.bytes(), 1, &[]).unwrap();
    assert_eq!(
        in_a_small_stack(move || board.certain(ANY)),
        Ok(due.clone())
    );
    let search = move || certain(record.bytes(), &[], ANY);
    assert_eq!(in_a_small_stack(search), Ok(due));
}
