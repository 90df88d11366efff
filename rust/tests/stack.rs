//! What the calls take of the stack, on boards where they take much: each runs in a thread that has what its documentation says, and 16 kilobytes for the thread itself.

use evolmino::{
    certain_bytes, clauses_bytes, find_bytes, finished_bytes, join_bytes, player_file_bytes,
    setter_file_bytes, shades_bytes, turn_bytes, write_file, Board, Leaf, Problem, ProblemCell,
    Record, Refusal,
};
use std::thread;

const CELLS: usize = 32 * 32;

/// The squares of a solution of the grid with an arrow: a block of one and, moved and one larger, the next.
const SQUARES: [usize; 3] = [991, 1_021, 1_023];

/// Makes a call in a thread with so many kilobytes of stack. One that takes more ends the process.
fn within(kilobytes: usize, call: impl FnOnce() + Send) {
    let builder = thread::Builder::new().stack_size((kilobytes + 16) * 1_000);
    thread::scope(|scope| builder.spawn_scoped(scope, call).unwrap().join().unwrap());
}

/// An open grid of 32 rows, without an arrow or with one over its last three cells. While no cell
/// is decided it is one floating group, over which a find walks as deep as there are cells.
fn open_grid(width: usize, has_arrow: bool) -> Vec<u8> {
    let arrow = (width - 3..width).map(|x| (31, x)).collect();
    let problem = Problem {
        cells: vec![vec![ProblemCell::Empty; width]; 32],
        arrows: if has_arrow { vec![arrow] } else { vec![] },
    };
    Record::new(&problem).unwrap().bytes().to_vec()
}

fn solution() -> Vec<bool> {
    (0..CELLS).map(|i| SQUARES.contains(&i)).collect()
}

/// Two blocks of one on the arrow, of which the later is not one larger.
const UNFINISHED: [usize; 2] = [1_021, 1_023];

/// All cells decided, with these squares.
fn full_with(squares: &[usize]) -> Vec<u8> {
    let word = |i| i as u16 + if squares.contains(&i) { 32_768 } else { 0 };
    (0..CELLS).map(word).flat_map(u16::to_be_bytes).collect()
}

/// All cells decided as in the solution.
fn decisions() -> Vec<u8> {
    full_with(&SQUARES)
}

/// A certificate that claims that all cells are empty, with the step of no literals behind, which
/// does not close where no cell is decided.
fn claim_of_empty() -> Vec<u8> {
    let tag = 8_388_608;
    let claim = [tag + CELLS]
        .into_iter()
        .chain((0..CELLS).map(|i| 32_768 + i));
    let words = claim.chain([0, tag, 0]);
    words
        .flat_map(|word| (word as u32).to_be_bytes()[1..].to_vec())
        .collect()
}

#[test]
fn find_and_finished() {
    let (plain, arrowed, full) = (open_grid(32, false), open_grid(32, true), decisions());
    let sized = Leaf::new(&arrowed).sizes(&[(1_023, 1, 4)]);
    let mut output = vec![0; 6_146];
    within(105, || {
        assert_eq!(find_bytes(&plain, &[], &mut output), Ok(0))
    });
    within(105, || {
        assert_eq!(find_bytes(&arrowed, &[], &mut output), Ok(0))
    });
    within(120, || {
        assert_eq!(sized.find_bytes(&[], &mut output), Ok(0))
    });
    within(45, || assert_eq!(finished_bytes(&arrowed, &full), Ok(true)));
    within(55, || assert_eq!(sized.finished_bytes(&full), Ok(true)));
    // Where a full board has a reason against it, its fence is written too.
    let full = full_with(&UNFINISHED);
    within(45, || {
        assert_eq!(finished_bytes(&arrowed, &full), Ok(false))
    });
    within(55, || assert_eq!(sized.finished_bytes(&full), Ok(false)));
}

#[test]
fn certain() {
    let (plain, arrowed) = (open_grid(32, false), open_grid(32, true));
    let sized = Leaf::new(&arrowed).sizes(&[(1_023, 1, 4)]);
    let mut output = vec![0; 8 + CELLS];
    within(265, || {
        assert!(certain_bytes(&plain, &[], 5_000, &mut output).is_ok())
    });
    within(265, || {
        assert!(certain_bytes(&arrowed, &[], 5_000, &mut output).is_ok())
    });
    within(270, || {
        assert!(sized.certain_bytes(&[], 5_000, &mut output).is_ok())
    });
}

#[test]
fn records_and_files() {
    let (record, full) = (open_grid(32, true), decisions());
    let (left, right) = (open_grid(15, true), open_grid(16, true));
    let file = write_file(&record, 3, &solution()).unwrap();
    let unfinished: Vec<bool> = (0..CELLS).map(|i| UNFINISHED.contains(&i)).collect();
    let other = write_file(&record, 3, &unfinished).unwrap();
    let mut output = vec![0; 8_192];
    within(21, || assert!(clauses_bytes(&record, &mut output).is_ok()));
    within(40, || {
        assert!(shades_bytes(&record, &full, &mut output).is_ok())
    });
    within(30, || assert!(turn_bytes(&record, 7, &mut output).is_ok()));
    within(40, || {
        assert!(join_bytes(&left, &right, &mut output).is_ok())
    });
    within(45, || {
        assert!(setter_file_bytes(&file, 1, &mut output).is_ok())
    });
    within(45, || {
        let answer = setter_file_bytes(&other, 1, &mut output);
        assert_eq!(answer, Err(Refusal::Unfinished))
    });
    within(
        10,
        || assert!(player_file_bytes(&file, &mut output).is_ok()),
    );
}

#[test]
fn certificate() {
    let (record, claim) = (open_grid(32, false), claim_of_empty());
    let leaf = Leaf::new(&record);
    within(105, || {
        assert_eq!(leaf.unique(&claim), Err(Refusal::NotClosed))
    });
}

#[test]
fn board() {
    let record = open_grid(32, true);
    let mut board = Board::open(&record, 1, &[]).unwrap();
    let mut output = vec![0; 8 + CELLS];
    let mut literals = vec![0; 3 * CELLS + 1];
    within(30, || board = Board::open(&record, 1, &[]).unwrap());
    within(5, || assert_eq!(board.decide(0, false), Ok(())));
    within(5, || assert_eq!(board.undo(), Ok(())));
    within(90, || assert_eq!(board.find_words(0, &mut literals), Ok(0)));
    within(5, || assert_eq!(board.hints(0), Ok(1)));
    within(280, || {
        assert!(board.certain_bytes(5_000, &mut output).is_ok())
    });
    for (squares, is_finished) in [(&SQUARES[..], true), (&UNFINISHED[..], false)] {
        let mut full = Board::open(&record, 1, &[]).unwrap();
        for index in 0..CELLS {
            full.decide(index, squares.contains(&index)).unwrap();
        }
        within(50, || assert_eq!(full.finished(), Ok(is_finished)));
    }
}
