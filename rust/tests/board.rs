//! A board that is kept: its calls beside the leaf's on the same decisions, what it refuses, and boards of any bytes.

mod records;

use evolmino::{Board, Cell, Leaf, Literal, Refusal};
use records::{refused_records, rows, S};

fn strip() -> Board {
    Board::open(&S, 1, &[]).unwrap()
}

/// A board with all its calls' answers, none of which may change it: the finds are made on a clone.
fn check_beside(leaf: &Leaf, board: &Board, decisions: &[Literal]) {
    let before = board.to_bytes();
    assert_eq!(board.accepted(), Ok(()));
    assert_eq!(board.decisions().unwrap(), decisions);
    assert_eq!(board.finished(), leaf.finished(decisions));
    for budget in [0, 1, 40] {
        assert_eq!(board.certain(budget), leaf.certain(decisions, budget));
    }
    let mut clone = board.clone();
    for player in 0..4 {
        assert_eq!(clone.find(player), leaf.find(decisions));
    }
    assert_eq!(clone.decisions(), board.decisions());
    let mut cells = vec![Cell::Undecided; board.cells().unwrap().len()];
    for &(index, square) in decisions {
        cells[index] = match square {
            true => Cell::Square,
            false => Cell::Empty,
        };
    }
    for (index, &cell) in cells.iter().enumerate() {
        assert_eq!(board.cell(index), Ok(cell));
    }
    assert_eq!(board.cell(cells.len()), Err(Refusal::Index));
    assert_eq!(board.cell(usize::MAX), Err(Refusal::Index));
    assert_eq!(board.cells(), Ok(cells));
    assert_eq!(board.to_bytes(), before);
}

#[test]
fn there_and_back_beside_the_leaf() {
    let record = rows(2, 5, 5);
    let decisions: Vec<Literal> = [0, 4, 8, 9]
        .map(|cell| (cell, true))
        .into_iter()
        .chain([1, 5, 2].map(|cell| (cell, false)))
        .collect();
    for edition in [1, 2] {
        for sizes in [&[][..], &[(0, 2, 9), (4, 1, 2)]] {
            let leaf = Leaf::new(record.bytes()).edition(edition).sizes(sizes);
            let mut board = Board::open(record.bytes(), edition, sizes).unwrap();
            assert_eq!(leaf.board(), Ok(board.clone()));
            assert_eq!(board.size(), Ok((2, 5)));
            let mut on_the_way = vec![board.clone()];
            for k in 0..decisions.len() {
                check_beside(&leaf, &board, &decisions[..k]);
                let (index, square) = decisions[k];
                assert_eq!(board.decide(index, square), Ok(()));
                on_the_way.push(board.clone());
            }
            for k in (0..decisions.len()).rev() {
                assert_eq!(board, on_the_way[k + 1]);
                assert_eq!(board.undo(), Ok(()));
                check_beside(&leaf, &board, &decisions[..k]);
            }
            assert_eq!(board, on_the_way[0]);
            assert_eq!(board.undo(), Err(Refusal::NothingDecided));
        }
    }
}

#[test]
fn a_full_game() {
    let record = rows(1, 5, 4);
    let mut board = Leaf::new(record.bytes()).board().unwrap();
    for (cell, square) in [true, false, false, true, true].into_iter().enumerate() {
        assert_eq!(board.finished(), Ok(false));
        board.decide(cell, square).unwrap();
    }
    assert_eq!(board.finished(), Ok(true));
    assert_eq!(board.find(1), Ok(None));
    board.undo().unwrap();
    board.decide(4, false).unwrap();
    assert_eq!(board.finished(), Ok(false));
}

#[test]
fn hints_of_four_players() {
    let mut board = strip();
    let counts = |board: &Board| [0, 1, 2, 3].map(|player| board.hints(player).unwrap());
    assert_eq!(counts(&board), [0; 4]);
    for player in [2, 0, 2, 3, 2] {
        board.find(player).unwrap();
    }
    assert_eq!(counts(&board), [1, 0, 3, 1]);
    // Undo, refused finds and the other calls leave them.
    board.decide(0, true).unwrap();
    board.undo().unwrap();
    for player in [4, 5, 128, 255] {
        assert_eq!(board.find(player), Err(Refusal::Player));
        assert_eq!(board.find_words(player, &mut []), Err(Refusal::Player));
        assert_eq!(board.hints(player), Err(Refusal::Player));
    }
    assert_eq!(board.find_words(1, &mut [0; 9]), Err(Refusal::OutputShort));
    board.certain(100).unwrap();
    board.finished().unwrap();
    assert_eq!(counts(&board), [1, 0, 3, 1]);
    // At 65,535 a count stops rising.
    for _ in 0..65_540 {
        board.find(1).unwrap();
    }
    assert_eq!(counts(&board), [1, 65_535, 3, 1]);
}

#[test]
fn refusals_change_nothing() {
    let mut board = strip();
    board.decide(1, true).unwrap();
    board.find(3).unwrap();
    let before = board.to_bytes();
    for index in [3, 4, 1024, 65_536, 65_537, 1 << 32, usize::MAX] {
        assert_eq!(board.decide(index, true), Err(Refusal::Index));
        assert_eq!(board.decide_byte(index, 2), Err(Refusal::Index));
    }
    for value in [2, 3, 128, 255] {
        assert_eq!(board.decide_byte(0, value), Err(Refusal::Value));
        assert_eq!(board.decide_byte(1, value), Err(Refusal::Value));
    }
    assert_eq!(board.decide(1, true), Err(Refusal::Decided));
    assert_eq!(board.decide(1, false), Err(Refusal::Decided));
    let mut output = [0xFF; 10];
    let short = Err(Refusal::OutputShort);
    assert_eq!(board.certain_bytes(9, &mut output), short);
    assert_eq!(output, [0xFF; 10]);
    assert_eq!(board.to_bytes(), before);
}

#[test]
fn buffers_and_what_stands_behind() {
    let mut board = strip();
    board.decide(0, true).unwrap();
    board.decide(2, true).unwrap();
    let mut words = [7; 12];
    assert_eq!(board.find_words(0, &mut words), Ok(3));
    assert_eq!(words[..4], [0x8000, 0x8002, 0x8000, 7]);
    assert_eq!(words[3..], [7; 9]);
    let mut output = [0xFF; 13];
    assert_eq!(board.certain_bytes(9, &mut output), Ok(1));
    assert_eq!(output[..8], [0, 0, 0, 0, 0, 0, 0, 1]);
    assert_eq!(output[8..], [0xFF; 5]);
}

#[test]
fn refusals_of_open() {
    let good = [(0, 1, 1)];
    let bad = [(0, 1, 1), (3, 1, 1)];
    for (record, refusal) in refused_records() {
        for edition in [1, 2, 3] {
            let opened = Board::open(&record, edition, &bad);
            assert_eq!(opened, Err(refusal));
        }
    }
    for edition in [0, 3, 255, 257, 258, 65_537, (1 << 31) + 1, u32::MAX] {
        for sizes in [&good[..], &bad] {
            let opened = Board::open(&S, edition, sizes);
            assert_eq!(opened, Err(Refusal::Edition), "{edition}");
        }
    }
    for edition in [1, 2] {
        assert!(Board::open(&S, edition, &good).is_ok());
        assert_eq!(Board::open(&S, edition, &bad), Err(Refusal::Sizes));
        for cell in [65_535, 65_536, 65_537, usize::MAX] {
            let opened = Board::open(&S, edition, &[(0, 1, 1), (cell, 1, 1)]);
            assert_eq!(opened, Err(Refusal::Sizes), "{cell}");
        }
    }
    // A list of bytes that ends inside a number or inside a range.
    let bytes = [0, 0, 0, 1, 0, 1, 0, 2, 0, 1, 0, 1];
    for length in 0..=bytes.len() {
        let leaf = Leaf::new(&S).sizes_bytes(&bytes[..length]);
        let due = leaf.accepted();
        assert_eq!(leaf.board().map(|_| ()), due, "{length}");
        assert_eq!(due.is_ok(), length % 6 == 0);
    }
}

/// What every call says of a board of these bytes, each of which must leave them.
fn refused(bytes: &[u8; Board::SIZE]) -> Refusal {
    let mut board = Board::from_bytes(bytes);
    let kept = board.to_bytes();
    let refusal = board.accepted().unwrap_err();
    // Whatever else would be refused comes behind.
    for (index, value) in [(0, 0), (1 << 40, 1), (0, 2), (usize::MAX, 255)] {
        assert_eq!(board.decide_byte(index, value), Err(refusal));
    }
    assert_eq!(board.decide(0, true), Err(refusal));
    assert_eq!(board.undo(), Err(refusal));
    let mut words = [7; 3073];
    for player in [0, 3, 4, 255] {
        for length in [0, 1, 3073] {
            let buffer = &mut words[..length];
            assert_eq!(board.find_words(player, buffer), Err(refusal));
        }
        assert_eq!(board.find(player), Err(refusal));
        assert_eq!(board.hints(player), Err(refusal));
    }
    assert_eq!(words, [7; 3073]);
    assert_eq!(board.finished(), Err(refusal));
    assert_eq!(board.certain(5), Err(refusal));
    assert_eq!(board.certain_bytes(5, &mut []), Err(refusal));
    assert_eq!(board.size(), Err(refusal));
    for index in [0, 1, usize::MAX] {
        assert_eq!(board.cell(index), Err(refusal));
    }
    assert_eq!(board.cells(), Err(refusal));
    assert_eq!(board.decisions(), Err(refusal));
    assert_eq!(format!("{board:?}"), "Board(Board)");
    assert_eq!(board.to_bytes(), kept);
    refusal
}

#[test]
fn boards_of_any_bytes() {
    for byte in [0, 1, 2, 3, 32, 127, 128, 255] {
        assert_eq!(refused(&[byte; Board::SIZE]), Refusal::Board);
    }
    let mut board = Board::open(&S, 1, &[(1, 1, 2)]).unwrap();
    board.decide(2, true).unwrap();
    board.find(0).unwrap();
    let good = board.to_bytes();
    assert_eq!(Board::from_bytes(&good), board);
    // By the places that the header asserts.
    let damages: [(usize, u8); 19] = [
        (0, 0),    // no row
        (0, 33),   // too many
        (7, 1),    // far too many
        (8, 2),    // a narrower grid, off which the arrow leads
        (16, 3),   // a code that there is not
        (19, 1),   // a code behind the grid
        (1040, 2), // a cell that is on the arrow already
        (1046, 1), // an arrow cell behind the arrows
        (3088, 4), // an arrow that goes on behind its last cell
        (3090, 3), // an end behind the ends
        (5136, 0), // no arrow, but its cells
        (5136, 2), // an arrow without a cell
        (5144, 0), // an edition that there is not
        (5144, 3), // and another
        (5145, 1), // a square that was not decided
        (5148, 0), // a cell behind the grid
        (6172, 1), // a decision behind the decisions
        (8224, 2), // a decision more
        (8240, 1), // a lowest size without a highest
    ];
    for (place, byte) in damages {
        let mut bytes = good;
        assert_ne!(bytes[place], byte);
        bytes[place] = byte;
        assert_eq!(refused(&bytes), Refusal::Board, "{place}");
    }
    // A highest size without a lowest.
    let mut bytes = good;
    bytes[8242] = 0;
    assert_eq!(refused(&bytes), Refusal::Board);
    // A wider grid could be left: the cell that it has more is plain and undecided.
    let mut bytes = good;
    bytes[8] = 4;
    let wider = Board::from_bytes(&bytes);
    assert_eq!(wider.cell(3), Ok(Cell::Undecided));
    // Any counts of hints could be left, and what stands between the fields means nothing.
    let mut bytes = good;
    bytes[8232..8240].fill(0xFF);
    for place in [6169, 8218, 8223] {
        bytes[place] = 0xAA;
    }
    let mut other = Board::from_bytes(&bytes);
    assert_eq!(other.hints(2), Ok(65_535));
    assert_eq!(other.find(2), board.find(2));
    assert_eq!(other.hints(2), Ok(65_535));
    assert_eq!(other.decisions(), board.decisions());
    assert_ne!(other, board);
}

#[test]
fn shown_in_a_line() {
    let mut board = strip();
    board.decide(2, true).unwrap();
    board.find(1).unwrap();
    assert_eq!(
        format!("{board:?}"),
        "Board { height: 1, width: 3, edition: 1, decided: 1, hints: [0, 1, 0, 0] }"
    );
    let wide = rows(32, 32, 32);
    let mut board = Leaf::new(wide.bytes()).board().unwrap();
    for cell in 0..1024 {
        board.decide(cell, cell % 3 == 0).unwrap();
    }
    assert!(format!("{board:?}").len() < 100);
    assert_eq!(board.decisions().unwrap().len(), 1024);
    assert_eq!(board.decide(1023, true), Err(Refusal::Decided));
    assert_eq!(board.decide(1024, true), Err(Refusal::Index));
}

/// A board may be handed to another thread, and clones go their own ways.
#[test]
fn clones_and_threads() {
    let mut board = strip();
    board.decide(0, true).unwrap();
    let mut other = board.clone();
    let found = std::thread::spawn(move || {
        other.decide(1, true).unwrap();
        other.find(0)
    });
    assert_eq!(found.join().unwrap(), Ok(Some(vec![(0, true), (1, true)])));
    assert_eq!(board.find(0), Ok(None));
    assert_eq!(board.cell(1), Ok(Cell::Undecided));
}
