//! The leaves of documents 01 and 02, and the refusals that a caller can meet.

mod records;

use evolmino::{
    find, find_bytes, finished, finished_bytes, Board, Constraint, Problem, ProblemCell, Record,
    RecordError, Refusal,
};
use records::{refused_records, rows, S, T};

fn strip() -> Problem {
    Problem {
        cells: vec![vec![ProblemCell::Empty; 3]],
        arrows: vec![vec![(0, 0), (0, 1), (0, 2)]],
    }
}

#[test]
fn leaves() {
    assert_eq!(find(&S, &[]), Ok(None));
    assert_eq!(
        find(&S, &[(0, true), (1, true)]),
        Ok(Some(vec![(0, true), (1, true)]))
    );
    assert_eq!(
        find(&S, &[(0, true), (2, true)]),
        Ok(Some(vec![(0, true), (2, true), (0, true)]))
    );
    assert_eq!(find(&S, &[(0, false), (1, false), (2, false)]), Ok(None));
    assert_eq!(find(&T, &[(1, true)]), Ok(Some(vec![(1, true)])));
    assert_eq!(
        find(&T, &[(0, false), (1, true)]),
        Ok(Some(vec![(0, false), (1, true)]))
    );
}

#[test]
fn two_by_five() {
    let record = rows(2, 5, 5);
    let mut decisions = vec![
        (0, true),
        (4, true),
        (8, true),
        (9, true),
        (1, false),
        (5, false),
    ];
    assert_eq!(find(record.bytes(), &decisions), Ok(None));
    decisions.push((2, false));
    assert_eq!(
        find(record.bytes(), &decisions),
        Ok(Some(vec![
            (4, true),
            (8, true),
            (9, true),
            (0, true),
            (1, false),
            (5, false),
            (2, false)
        ]))
    );
}

/// Whether a leaf is finished when its cells have these values.
fn filled(record: &[u8], values: &[u8]) -> Result<bool, Refusal> {
    let decisions: Vec<_> = values.iter().map(|&value| value == 1).enumerate().collect();
    finished(record, &decisions)
}

#[test]
fn finished_leaves() {
    // S with no square, and with one; T
    assert_eq!(filled(&S, &[0, 0, 0]), Ok(false));
    assert_eq!(filled(&S, &[1, 0, 0]), Ok(false));
    assert_eq!(filled(&T, &[0, 0]), Ok(true));
    assert_eq!(finished(&T, &[(0, false)]), Ok(false));
    let leaf = |width: usize, arrows: &[&[usize]]| {
        let place = |&cell: &usize| (cell / width, cell % width);
        let problem = Problem {
            cells: vec![vec![ProblemCell::Empty; width]],
            arrows: arrows
                .iter()
                .map(|a| a.iter().map(place).collect())
                .collect(),
        };
        Record::new(&problem).unwrap()
    };
    // An arrow of one cell.
    assert_eq!(filled(leaf(1, &[&[0]]).bytes(), &[1]), Ok(false));
    // Blocks of 1 and 2.
    let row = leaf(5, &[&[0, 1, 2, 3]]);
    assert_eq!(filled(row.bytes(), &[1, 0, 0, 1, 1]), Ok(true));
    assert_eq!(finished(&S[..6], &[(3, true)]), Err(Refusal::RecordEnds));
    assert_eq!(finished(&S, &[(3, true)]), Err(Refusal::Index));
    assert_eq!(
        finished(&S, &[(0, true), (4000, true)]),
        Err(Refusal::Index)
    );
    assert_eq!(finished(&S, &[(0, true), (0, true)]), Err(Refusal::Decided));
    assert_eq!(finished_bytes(&S, &[0x84, 0x03]), Err(Refusal::Decision));
    assert_eq!(
        finished_bytes(&S, &[0x80, 0x00, 0x00]),
        Err(Refusal::Decision)
    );
}

#[test]
fn record_refusals() {
    for (record, refusal) in refused_records() {
        assert_eq!(find(&record, &[]), Err(refusal));
    }
}

#[test]
fn decision_refusals() {
    assert_eq!(find(&S, &[(3, true)]), Err(Refusal::Index));
    assert_eq!(find(&S, &[(0, true), (4000, true)]), Err(Refusal::Index));
    assert_eq!(find(&S, &[(0, true), (0, false)]), Err(Refusal::Decided));
    let mut output = [0xFF; 20];
    assert_eq!(
        find_bytes(&S, &[0x84, 0x00], &mut output),
        Err(Refusal::Decision)
    );
    assert_eq!(find_bytes(&S, &[0x80], &mut output), Err(Refusal::Decision));
    assert_eq!(
        find_bytes(&S, &[], &mut output[..19]),
        Err(Refusal::OutputShort)
    );
    assert_eq!(output, [0xFF; 20]);
}

#[test]
fn only_literals_are_written() {
    let mut output = [0xFF; 20];
    assert_eq!(
        find_bytes(&S, &[0x80, 0x00, 0x80, 0x02], &mut output),
        Ok(3)
    );
    assert_eq!(output[..6], [0x80, 0x00, 0x80, 0x02, 0x80, 0x00]);
    assert_eq!(output[6..], [0xFF; 14]);
}

#[test]
fn records() {
    assert_eq!(Record::new(&strip()).unwrap().bytes(), S);
    let mut bent = strip();
    bent.arrows[0].swap(0, 1);
    assert_eq!(Record::new(&bent), Err(RecordError::Step(0)));
    let mut twice = strip();
    twice.arrows.push(vec![(0, 1)]);
    assert_eq!(Record::new(&twice), Err(RecordError::UsedTwice(1)));
    let mut off = strip();
    off.arrows[0].push((1, 2));
    assert_eq!(Record::new(&off), Err(RecordError::OffGrid(0)));
    let mut none = strip();
    none.arrows.push(vec![]);
    assert_eq!(Record::new(&none), Err(RecordError::NoCell(1)));
    let wide = Problem {
        cells: vec![vec![ProblemCell::Empty; 33]],
        arrows: vec![],
    };
    assert_eq!(Record::new(&wide), Err(RecordError::Width(33)));
    let tall = Problem {
        cells: vec![vec![ProblemCell::Empty]; 33],
        arrows: vec![],
    };
    assert_eq!(Record::new(&tall), Err(RecordError::Height(33)));
    let mut many = strip();
    many.arrows = vec![vec![(0, 0)]; 2048];
    assert_eq!(Record::new(&many), Err(RecordError::Arrows(2048)));
    let ragged = Problem {
        cells: vec![vec![ProblemCell::Black; 2], vec![ProblemCell::Square; 3]],
        arrows: vec![],
    };
    assert_eq!(Record::new(&ragged), Err(RecordError::Row(1)));
    assert_eq!(
        Record::new(&Problem {
            cells: vec![],
            arrows: vec![]
        }),
        Err(RecordError::Height(0))
    );
}

#[test]
fn constraint() {
    let mut constraint = Constraint::new(&strip()).unwrap();
    constraint.initialize_sat(3);
    constraint.notify(0, true);
    assert_eq!(constraint.find_inconsistency(), None);
    constraint.notify(1, true);
    assert_eq!(
        constraint.find_inconsistency(),
        Some(vec![(0, true), (1, true)])
    );
    constraint.undo();
    constraint.notify(1, false);
    assert_eq!(constraint.find_inconsistency(), None);
    constraint.undo();
    constraint.undo();
    constraint.notify(0, true);
    constraint.notify(2, true);
    assert_eq!(
        constraint.find_inconsistency(),
        Some(vec![(0, true), (2, true), (0, true)])
    );
}

#[test]
fn a_constraint_and_a_board_go_from_thread_to_thread() {
    fn goes<T: Send + Sync>(_: &T) {}
    goes(&Constraint::new(&strip()).unwrap());
    let record = Record::new(&strip()).unwrap();
    goes(&Board::open(record.bytes(), 1, &[]).unwrap());
}

#[test]
#[should_panic(expected = "decided already")]
fn a_cell_is_decided_once() {
    let mut constraint = Constraint::new(&strip()).unwrap();
    constraint.notify(0, true);
    constraint.notify(0, false);
}

#[test]
#[should_panic(expected = "index out of bounds")]
fn a_cell_is_on_the_grid() {
    Constraint::new(&strip()).unwrap().notify(3, true);
}

#[test]
#[should_panic(expected = "left: 4")]
fn there_are_as_many_inputs_as_cells() {
    Constraint::new(&strip()).unwrap().initialize_sat(4);
}

#[test]
#[should_panic(expected = "a decision stands")]
fn nothing_to_undo() {
    Constraint::new(&strip()).unwrap().undo();
}

#[test]
fn refusals_have_their_numbers() {
    for number in 1..=22 {
        let refusal = Refusal::from_number(number);
        assert_eq!(refusal.number(), number);
        assert_ne!(refusal, Refusal::Unknown(number));
    }
    for number in [0, 100, u32::MAX] {
        assert_eq!(Refusal::from_number(number), Refusal::Unknown(number));
        assert_eq!(Refusal::Unknown(number).number(), number);
    }
    assert_eq!(
        Refusal::Unknown(100).to_string(),
        "refused 100: this package doesn't know why"
    );
}
