//! A leaf in an edition and with sizes: what it answers, that without them it answers as the calls that take neither, and the refusals of
//! its calls in their order.

mod records;

use evolmino::{
    blocks, certain, certain_given_first, find, finished, Block, Certain, Constraint, Fact, Leaf,
    Literal, Problem, ProblemCell, Record, Refusal, Size,
};
use records::{refused_records, rows, S};

const ANY: u64 = u64::MAX;

/// The decisions that fill a board with these values, cell by cell.
fn filling(values: &[u8]) -> Vec<Literal> {
    values.iter().map(|&value| value == 1).enumerate().collect()
}

fn squares(cells: &[usize]) -> Vec<Literal> {
    cells.iter().map(|&cell| (cell, true)).collect()
}

#[test]
fn a_block_that_is_too_large() {
    let row = rows(1, 6, 4);
    let grown = filling(&[1, 0, 0, 1, 1, 0]);
    for edition in [1, 2] {
        let leaf = |sizes: &[Size]| Leaf::new(row.bytes()).edition(edition).sizes(sizes);
        for fits in [(3, 1, 2), (3, 2, 2), (3, 2, 65_535)] {
            assert_eq!(leaf(&[fits]).find(&grown), Ok(None));
            assert_eq!(leaf(&[fits]).finished(&grown), Ok(true));
        }
        let small = leaf(&[(3, 1, 1)]);
        assert_eq!(small.find(&grown), Ok(Some(squares(&[3, 4]))));
        assert_eq!(small.finished(&grown), Ok(false));
        // A cell that isn't square asks for nothing.
        let beside = leaf(&[(1, 9, 9), (2, 9, 9)]);
        assert_eq!(beside.find(&grown), Ok(None));
        assert_eq!(beside.finished(&grown), Ok(true));
        assert_eq!(small.find(&[]), Ok(None));
    }
}

#[test]
fn a_block_that_is_too_small() {
    let row = rows(1, 6, 4);
    let grown = filling(&[1, 0, 0, 1, 1, 0]);
    for edition in [1, 2] {
        let leaf = Leaf::new(row.bytes()).edition(edition).sizes(&[(3, 3, 4)]);
        let reason = vec![(3, true), (2, false), (5, false)];
        assert_eq!(leaf.find(&grown), Ok(Some(reason.clone())));
        assert_eq!(leaf.finished(&grown), Ok(false));
        // The block has two squares, and its reach has three.
        assert_eq!(leaf.find(&grown[..5]), Ok(None));
        let larger = leaf.sizes(&[(3, 4, 4)]);
        let reason = vec![(3, true), (2, false)];
        assert_eq!(larger.find(&grown[..5]), Ok(Some(reason)));
    }
}

/// By rising cell, whichever end of a range is missed; and reason 4 before them.
#[test]
fn which_cell_comes_first() {
    let row = rows(1, 6, 4);
    let grown = filling(&[1, 0, 0, 1, 1, 0]);
    let both = Leaf::new(row.bytes()).sizes(&[(0, 2, 9), (3, 1, 1)]);
    let first = vec![(0, true), (1, false)];
    assert_eq!(both.find(&grown), Ok(Some(first)));
    let later = Leaf::new(row.bytes()).sizes(&[(0, 1, 9), (3, 1, 1)]);
    assert_eq!(later.find(&grown), Ok(Some(squares(&[3, 4]))));
    // In edition 1 the second block is one too large.
    let by_two = filling(&[1, 0, 0, 1, 1, 1]);
    let sized = Leaf::new(row.bytes()).sizes(&[(0, 2, 9)]);
    let reason = vec![(3, true), (4, true), (5, true), (0, true), (1, false)];
    assert_eq!(sized.find(&by_two), Ok(Some(reason)));
    let reason = vec![(0, true), (1, false)];
    assert_eq!(sized.edition(2).find(&by_two), Ok(Some(reason)));
}

#[test]
fn sizes_take_the_place_of_those_before() {
    let row = rows(1, 6, 4);
    let grown = filling(&[1, 0, 0, 1, 1, 0]);
    let leaf = Leaf::new(row.bytes()).sizes(&[(3, 1, 1)]);
    assert_eq!(leaf.finished(&grown), Ok(false));
    assert_eq!(leaf.clone().sizes(&[(0, 1, 1)]).finished(&grown), Ok(true));
    assert_eq!(leaf.clone().sizes(&[]), Leaf::new(row.bytes()));
    assert_eq!(leaf.clone().into_owned().finished(&grown), Ok(false));
    let bytes = [0, 3, 0, 1, 0, 1];
    assert_eq!(leaf, Leaf::new(row.bytes()).sizes_bytes(&bytes));
}

#[test]
fn certain_cells() {
    let row = rows(1, 6, 4);
    let leaf = Leaf::new(row.bytes()).edition(2);
    let cells = |leaf: &Leaf| match leaf.certain(&[], ANY).unwrap() {
        Certain::Cells { cells, .. } => cells,
        other => panic!("{other:?}"),
    };
    use Fact::{Empty, Open, Square};
    let free = [Open, Open, Empty, Square, Square, Open];
    assert_eq!(cells(&leaf), free);
    let three = [Open, Open, Empty, Square, Square, Square];
    assert_eq!(cells(&leaf.clone().sizes(&[(3, 3, 9)])), three);
    let none = leaf.clone().sizes(&[(0, 2, 9), (1, 2, 9), (3, 1, 1)]);
    assert!(matches!(
        none.certain(&[], ANY),
        Ok(Certain::NoBoard { .. })
    ));
    let steps = leaf.certain(&[], ANY).unwrap().steps();
    let spent = Certain::Spent { steps: steps - 1 };
    assert_eq!(leaf.certain(&[], steps - 1), Ok(spent));
    // Decisions that can't be handed over are refused, and nothing is searched for them.
    let open = rows(32, 32, 2);
    let wide = Leaf::new(open.bytes()).sizes(&[(0, 1, 1)]);
    for way in [Leaf::certain, Leaf::certain_given_first] {
        assert_eq!(way(&wide, &[(4000, true)], ANY), Err(Refusal::Index));
    }
}

#[test]
fn given_cells_first() {
    let mut problem = Problem {
        cells: vec![vec![ProblemCell::Empty; 6]],
        arrows: vec![(0..4).map(|x| (0, x)).collect()],
    };
    problem.cells[0][0] = ProblemCell::Black;
    problem.cells[0][4] = ProblemCell::Square;
    let record = Record::new(&problem).unwrap();
    let leaf = Leaf::new(record.bytes()).edition(2).sizes(&[(3, 3, 3)]);
    let first = leaf.certain_given_first(&[], ANY).unwrap();
    let decided = leaf.certain(&[(0, false), (4, true)], ANY).unwrap();
    assert_eq!(first, decided);
    let without = leaf.certain(&[], ANY).unwrap();
    assert!(first.steps() < without.steps());
    match (first, without) {
        (Certain::Cells { cells: a, .. }, Certain::Cells { cells: b, .. }) => assert_eq!(a, b),
        other => panic!("{other:?}"),
    }
}

/// In edition 1 and without sizes a leaf answers as the calls that take neither.
#[test]
fn without_edition_and_sizes() {
    let row = rows(2, 5, 5);
    let boards = [
        vec![],
        squares(&[0, 1]),
        squares(&[0, 4, 8, 9]),
        filling(&[1, 0, 0, 0, 1, 0, 0, 0, 0, 1]),
        squares(&[3, 3]),
        squares(&[10]),
        squares(&[3, 1024]),
    ];
    let cut = &row.bytes()[..row.bytes().len() - 1];
    for record in [row.bytes(), &S, cut] {
        let leaf = Leaf::new(record);
        for decisions in &boards {
            assert_eq!(leaf.find(decisions), find(record, decisions));
            assert_eq!(leaf.finished(decisions), finished(record, decisions));
            for budget in [0, 1, 50] {
                let told = certain(record, decisions, budget);
                assert_eq!(leaf.certain(decisions, budget), told);
                let told = certain_given_first(record, decisions, budget);
                assert_eq!(leaf.certain_given_first(decisions, budget), told);
            }
            let of_leaf = leaf
                .blocks(decisions)
                .map(|all| all.collect::<Vec<Block>>());
            let plain = blocks(record, decisions).map(|all| all.collect::<Vec<Block>>());
            assert_eq!(of_leaf, plain);
        }
    }
}

#[test]
fn the_constraint_of_a_leaf() {
    let row = rows(1, 6, 4);
    let leaf = Leaf::new(row.bytes()).edition(2).sizes(&[(3, 1, 2)]);
    let mut constraint = leaf.constraint().unwrap();
    constraint.initialize_sat(6);
    for (cell, value) in [(0, true), (1, false), (2, false), (3, true), (4, true)] {
        constraint.notify(cell, value);
        assert_eq!(constraint.find_inconsistency(), None);
    }
    constraint.notify(5, true);
    assert_eq!(constraint.find_inconsistency(), Some(squares(&[3, 4, 5])));
    constraint.undo();
    constraint.notify(5, false);
    assert_eq!(constraint.find_inconsistency(), None);
    // It outlives the record that it was made of, and a clone goes its own way.
    drop(row);
    let mut other = constraint.clone();
    other.undo();
    other.notify(5, true);
    assert!(other.find_inconsistency().is_some());
    assert_eq!(constraint.find_inconsistency(), None);
}

/// Edition 1 without sizes is the original's.
#[test]
fn the_constraint_of_a_problem() {
    let problem = Problem {
        cells: vec![vec![ProblemCell::Empty; 6]],
        arrows: vec![(0..4).map(|x| (0, x)).collect()],
    };
    let record = Record::new(&problem).unwrap();
    let mut of_problem = Constraint::new(&problem).unwrap();
    let mut of_leaf = Leaf::new(record.bytes()).constraint().unwrap();
    for (cell, value) in filling(&[1, 0, 0, 1, 1, 1]) {
        of_problem.notify(cell, value);
        of_leaf.notify(cell, value);
        assert_eq!(
            of_leaf.find_inconsistency(),
            of_problem.find_inconsistency()
        );
    }
    assert!(of_leaf.find_inconsistency().is_some());
}

/// What is wrong with a list of sizes for strip S.
const REFUSED: [&[u8]; 17] = [
    // ends inside a range
    &[0],
    &[0, 0],
    &[0, 0, 0],
    &[0, 0, 0, 1],
    &[0, 0, 0, 1, 0],
    &[0, 0, 0, 1, 0, 1, 0],
    &[0, 0, 0, 1, 0, 1, 0, 2, 0, 1],
    // starts at 0
    &[0, 0, 0, 0, 0, 5],
    &[0, 0, 0, 0, 0, 0],
    // is upside down
    &[0, 0, 0, 2, 0, 1],
    &[0, 0, 1, 0, 0, 255],
    // sits off an arrow
    &[0, 3, 0, 1, 0, 1],
    &[4, 0, 0, 1, 0, 1],
    &[255, 255, 0, 1, 0, 1],
    // doesn't rise
    &[0, 1, 0, 1, 0, 1, 0, 0, 0, 1, 0, 1],
    &[0, 1, 0, 1, 0, 1, 0, 1, 0, 1, 0, 1],
    &[0, 0, 0, 1, 0, 1, 0, 2, 0, 1, 0, 1, 0, 1, 0, 1, 0, 1],
];

/// What each call of a leaf says that is refused before a board is opened.
fn refused(leaf: &Leaf) -> Refusal {
    let refusal = leaf.accepted().unwrap_err();
    let mut output = [0xFF; 20];
    // Neither the decisions nor the output are looked at.
    for (decisions, length) in [(&[][..], 20), (&[0x84][..], 20), (&[][..], 0)] {
        let output = &mut output[..length];
        assert_eq!(leaf.find_bytes(decisions, output), Err(refusal));
        assert_eq!(leaf.finished_bytes(decisions), Err(refusal));
        assert_eq!(leaf.certain_bytes(decisions, 0, output), Err(refusal));
        assert_eq!(leaf.shades_bytes(decisions, output), Err(refusal));
    }
    assert_eq!(output, [0xFF; 20]);
    let decisions = [(4000, true)];
    assert_eq!(leaf.find(&decisions), Err(refusal));
    assert_eq!(leaf.finished(&decisions), Err(refusal));
    assert_eq!(leaf.certain(&decisions, ANY), Err(refusal));
    assert_eq!(leaf.certain_given_first(&decisions, ANY), Err(refusal));
    assert_eq!(leaf.blocks(&decisions).unwrap_err(), refusal);
    assert_eq!(leaf.constraint().unwrap_err(), refusal);
    refusal
}

#[test]
fn refusals_of_a_leaf() {
    let records = refused_records();
    for edition in [0, 1, 3, 258, u32::MAX] {
        for sizes in REFUSED {
            // The record comes first, then the edition, then the sizes.
            for (record, refusal) in &records {
                let leaf = Leaf::new(record).edition(edition).sizes_bytes(sizes);
                assert_eq!(refused(&leaf), *refusal);
            }
            let leaf = Leaf::new(&S).edition(edition).sizes_bytes(sizes);
            let due = match edition {
                1 => Refusal::Sizes,
                _ => Refusal::Edition,
            };
            assert_eq!(refused(&leaf), due, "{edition}, {sizes:?}");
        }
    }
    for sizes in REFUSED {
        let leaf = Leaf::new(&S).edition(2).sizes_bytes(sizes);
        assert_eq!(refused(&leaf), Refusal::Sizes, "{sizes:?}");
    }
    // A cell that has no 16 bits is on no arrow.
    for cell in [65_536, 65_537, usize::MAX] {
        let leaf = Leaf::new(&S).sizes(&[(0, 1, 1), (cell, 1, 1)]);
        assert_eq!(refused(&leaf), Refusal::Sizes);
    }
    assert_eq!(Refusal::Sizes.number(), 22);
    assert_eq!(Refusal::from_number(22), Refusal::Sizes);
}

/// Behind 22 come the refusals of the calls that take no sizes, in their order.
#[test]
fn refusals_behind_the_sizes() {
    let leaf = Leaf::new(&S).edition(2).sizes(&[(0, 1, 1), (2, 1, 65_535)]);
    assert_eq!(leaf.accepted(), Ok(()));
    let mut output = [0xFF; 20];
    let decisions: [(&[u8], Refusal); 4] = [
        (&[0x84, 0x00, 0x80], Refusal::Decision),
        (&[0x80, 0x03], Refusal::Index),
        (&[0x80, 0x01, 0x00, 0x01, 0x80], Refusal::Decided),
        (&[0x80, 0x00, 0x80], Refusal::Decision),
    ];
    for (bytes, refusal) in decisions {
        assert_eq!(
            leaf.find_bytes(bytes, &mut output[..19]),
            Err(Refusal::OutputShort)
        );
        assert_eq!(leaf.find_bytes(bytes, &mut output), Err(refusal));
        assert_eq!(leaf.finished_bytes(bytes), Err(refusal));
        assert_eq!(
            leaf.certain_bytes(bytes, ANY, &mut output[..10]),
            Err(Refusal::OutputShort)
        );
        assert_eq!(
            leaf.certain_bytes(bytes, ANY, &mut output[..11]),
            Err(refusal)
        );
        assert_eq!(
            leaf.shades_bytes(bytes, &mut output[..11]),
            Err(Refusal::OutputShort)
        );
        assert_eq!(leaf.shades_bytes(bytes, &mut output[..12]), Err(refusal));
    }
    assert_eq!(output, [0xFF; 20]);
}

#[test]
fn bytes_and_what_stands_behind_them() {
    let leaf = Leaf::new(&S).sizes(&[(0, 4, 9)]);
    let mut output = [0xFF; 20];
    assert_eq!(leaf.find_bytes(&[0x80, 0x00], &mut output), Ok(1));
    assert_eq!(output[..2], [0x80, 0x00]);
    assert_eq!(output[2..], [0xFF; 18]);
    let mut output = [0xFF; 14];
    assert_eq!(leaf.certain_bytes(&[0x80, 0x00], ANY, &mut output), Ok(1));
    assert_eq!(output[..8], [0, 0, 0, 0, 0, 0, 0, 1]);
    assert_eq!(output[8..], [0xFF; 6]);
    let mut output = [0xFF; 14];
    assert_eq!(leaf.shades_bytes(&[0x80, 0x00], &mut output), Ok(12));
    assert_eq!(output[..4], [0, 0, 0, 1]);
    assert_eq!(output[12..], [0xFF; 2]);
}

/// A range beside every cell of the largest grid, and lists of a million numbers.
#[test]
fn the_longest_lists() {
    let mut arrow = Vec::new();
    for y in 0..32 {
        let row = 0..32;
        match y % 2 {
            0 => arrow.extend(row.map(|x| (y, x))),
            _ => arrow.extend(row.rev().map(|x| (y, x))),
        }
    }
    let record = Record::new(&Problem {
        cells: vec![vec![ProblemCell::Empty; 32]; 32],
        arrows: vec![arrow],
    })
    .unwrap();
    let every: Vec<Size> = (0..1024).map(|cell| (cell, 1, 1)).collect();
    let leaf = Leaf::new(record.bytes()).sizes(&every);
    assert_eq!(leaf.find(&[]), Ok(None));
    assert_eq!(leaf.find(&[(1023, true)]), Ok(None));
    let none: Vec<Literal> = (0..1024).map(|cell| (cell, false)).collect();
    assert_eq!(leaf.finished(&none), Ok(false));
    let more: Vec<Size> = (0..333_334).map(|cell| (cell, 1, 1)).collect();
    let long = Leaf::new(record.bytes()).sizes(&more);
    assert_eq!(refused(&long), Refusal::Sizes);
    let again: Vec<Size> = every.iter().copied().cycle().take(333_334).collect();
    let long = Leaf::new(record.bytes()).sizes(&again);
    assert_eq!(refused(&long), Refusal::Sizes);
}
