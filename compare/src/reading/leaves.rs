//! "Leaves to check", the program's example, the boards that tell two tempting faults, and the
//! leaves that document 02 names.

use super::board::{Board, Cell};
use super::certain::searched_with;
use super::finished::finished;
use super::groups::{block_rules_hold, blocks, potential_groups, Groups};
use super::host::{finished_call, found_with, host_call, judged_with, literal_bytes};
use super::leaf::{Leaf, Opening};
use super::program::reason;
use super::reasons::{find, find_reason, Which};
use super::record::{decode, encode, plain, Code};
use super::turn::{turned, turned_decisions, turned_sizes, TURNINGS};
use super::{Edition, Literal, Refusal};

const S: [u8; 7] = [0x00, 0x80, 0x08, 0x00, 0x00, 0x05, 0xE0];
const T: [u8; 4] = [0x00, 0x40, 0x00, 0x00];

fn board_in(edition: Edition, record: &[u8], decisions: &[Literal]) -> Board {
    Board::after(&decode(record).unwrap(), edition, decisions)
}

fn board(record: &[u8], decisions: &[Literal]) -> Board {
    board_in(Edition::ExactlyOne, record, decisions)
}

fn found_in(edition: Edition, record: &[u8], decisions: &[Literal]) -> Option<Vec<Literal>> {
    let reason = find(&mut board_in(edition, record, decisions), 0, 100).unwrap();
    reason.map(|reason| reason.literals)
}

fn found(record: &[u8], decisions: &[Literal]) -> Option<Vec<Literal>> {
    found_in(Edition::ExactlyOne, record, decisions)
}

/// The block rules of the board's leaf, on a full board.
fn rules_hold(full: &Board) -> bool {
    block_rules_hold(full.leaf(), &full.cells())
}

#[test]
fn strip_s() {
    assert_eq!(encode(&plain(1, 3, vec![vec![0, 1, 2]])), S);
    assert_eq!(found(&S, &[]), None);
    assert_eq!(found(&S, &[(0, 1), (1, 1)]), Some(vec![(0, 1), (1, 1)]));
    assert_eq!(
        found(&S, &[(0, 1), (2, 1)]),
        Some(vec![(0, 1), (2, 1), (0, 1)])
    );
    assert_eq!(found(&S, &[(0, 0), (1, 0), (2, 0)]), None);
}

#[test]
fn pair_t() {
    assert_eq!(encode(&plain(1, 2, vec![])), T);
    assert_eq!(found(&T, &[(1, 1)]), Some(vec![(1, 1)]));
    assert_eq!(found(&T, &[(0, 0), (1, 1)]), Some(vec![(0, 0), (1, 1)]));
}

#[test]
fn grid_of_2_by_5() {
    let record = encode(&plain(2, 5, vec![(0..5).collect()]));
    let mut decisions = vec![(0, 1), (4, 1), (8, 1), (9, 1), (1, 0), (5, 0)];
    assert_eq!(found(&record, &decisions), None);
    decisions.push((2, 0));
    let reason = vec![(4, 1), (8, 1), (9, 1), (0, 1), (1, 0), (5, 0), (2, 0)];
    assert_eq!(found(&record, &decisions), Some(reason));
}

#[test]
fn refused_records() {
    let s_ending = |last: u8| [&S[..6], &[last]].concat();
    assert_eq!(decode(&s_ending(0xE1)), Err(Refusal::Filler));
    assert_eq!(decode(&S[..6]), Err(Refusal::RecordEnds));
    assert_eq!(decode(&s_ending(0xC0)), Err(Refusal::UsedTwice));
    assert_eq!(decode(&s_ending(0x80)), Err(Refusal::OffGrid));
    assert_eq!(decode(&[0x00, 0x40, 0x01, 0x80]), Err(Refusal::CellCode));
    assert_eq!(decode(&[]), Err(Refusal::RecordEnds));
    assert_eq!(decode(&[&S[..], &[0]].concat()), Err(Refusal::Filler));
}

#[test]
fn refused_calls() {
    let mut fresh = board(&S, &[]);
    assert_eq!(fresh.decide(3, 2), Err(Refusal::Index));
    assert_eq!(fresh.decide(0, 2), Err(Refusal::Value));
    assert_eq!(fresh.undo(), Err(Refusal::NothingDecided));
    assert_eq!(fresh.decide(0, 1), Ok(()));
    assert_eq!(fresh.decide(0, 1), Err(Refusal::Decided));
    assert_eq!(find(&mut fresh, 0, 9), Err(Refusal::OutputShort));
    assert_eq!(find(&mut fresh, 0, 10), Ok(None));
    assert_eq!(fresh.undo(), Ok(()));
    assert_eq!(fresh.cells(), [Cell::Undecided; 3]);
}

#[test]
fn hints() {
    let mut leaf = board(&S, &[(0, 1)]);
    let mut counts_after = |(player, buffer): (u8, usize)| {
        let _ = find(&mut leaf, player, buffer);
        leaf.hints()
    };
    assert_eq!(
        [(0, 9), (0, 10), (3, 0), (3, 10), (1, 10), (4, 10), (0, 10)].map(&mut counts_after),
        [
            [0, 0, 0, 0],
            [1, 0, 0, 0],
            [1, 0, 0, 0],
            [1, 0, 0, 1],
            [1, 1, 0, 1],
            [1, 1, 0, 1],
            [2, 1, 0, 1]
        ]
    );
    assert_eq!(leaf.undo(), Ok(()));
    assert_eq!(leaf.hints(), [2, 1, 0, 1]);
}

/// Each player's count stops rising by itself, and no other rises for it.
#[test]
fn hints_at_the_limit() {
    for player in 0..4 {
        for (handed_in, left) in [(65_534, 65_535), (65_535, 65_535)] {
            let mut hints = [65_534, 0, 65_535, 7];
            hints[usize::from(player)] = handed_in;
            let puzzle = decode(&S).unwrap();
            let mut long_used = Board::with_hints(puzzle, Edition::ExactlyOne, hints);
            hints[usize::from(player)] = left;
            for _ in 0..3 {
                assert_eq!(find(&mut long_used, player, 10), Ok(None));
                assert_eq!(long_used.hints(), hints);
            }
        }
    }
}

/// Document 02 §9: above 3 is refused, before a short buffer, and the reason is every player's.
#[test]
fn players() {
    for edition in Edition::BOTH {
        let reason = found_in(edition, &S, &[(0, 1), (1, 1)]);
        assert_eq!(reason, Some(vec![(0, 1), (1, 1)]));
        let mut leaf = board_in(edition, &S, &[(0, 1), (1, 1)]);
        for player in 0..=255 {
            let short = find(&mut leaf, player, 9);
            let long = find(&mut leaf, player, 10);
            if player > 3 {
                assert_eq!([short, long], [(); 2].map(|()| Err(Refusal::Player)));
            } else {
                assert_eq!(short, Err(Refusal::OutputShort));
                assert_eq!(long.unwrap().map(|reason| reason.literals), reason);
            }
        }
        assert_eq!(leaf.hints(), [1; 4]);
    }
}

/// 1 × 3, arrow 2 1 0: the cell between the two squares is a barrier.
#[test]
fn counts_of_groups() {
    let cells = board(&S, &[(0, 1), (2, 1)]).cells();
    let puzzle = decode(&S).unwrap();
    let on_arrow = puzzle.arrow_cells();
    let counts = |groups: Groups| {
        let squares = groups.counts(|cell| cells[cell] == Cell::Square);
        (squares, groups.counts(|cell| on_arrow[cell]))
    };
    // the undecided cell is in the potential group and is no square of it
    let potential = counts(potential_groups(puzzle.size, &cells));
    assert_eq!(potential, (vec![2, 0, 0], vec![3, 0, 0]));
    let blocks = counts(blocks(puzzle.size, &cells));
    assert_eq!(blocks, (vec![1, 0, 1], vec![1, 0, 1]));
}

#[test]
fn barrier_is_not_reachable() {
    let record = encode(&plain(1, 3, vec![vec![2, 1, 0]]));
    let reason = vec![(2, 1), (0, 1), (2, 1)];
    assert_eq!(found(&record, &[(0, 1), (2, 1)]), Some(reason));
}

/// 2 × 4, full: the first pair meets 4 (a), but a later one meets 3.
#[test]
fn four_waits_for_three() {
    let record = encode(&plain(2, 4, vec![vec![7, 6, 5, 1, 2, 3]]));
    let values = [1, 0, 1, 0, 1, 1, 0, 1];
    let decisions: Vec<Literal> = values.into_iter().enumerate().collect();
    let reason = vec![(0, 1), (4, 1), (5, 1), (2, 1), (1, 0), (3, 0), (6, 0)];
    assert_eq!(found(&record, &decisions), Some(reason));
}

/// The decisions that fill a board with these values, cell by cell.
fn filling(values: &[u8]) -> Vec<Literal> {
    values.iter().copied().enumerate().collect()
}

#[test]
fn finished_boards() {
    let mut puzzle = plain(2, 3, vec![vec![0, 1, 2]]);
    puzzle.codes[3] = Code::Black;
    puzzle.codes[5] = Code::Given;
    let decisions = filling(&[1, 0, 1, 0, 0, 1]);
    let solved = board(&encode(&puzzle), &decisions);
    assert!(finished(&solved));
    assert_eq!(find_reason(solved.leaf(), &solved.cells()), None);
    assert!(!finished(&board(&encode(&puzzle), &decisions[..5])));
    puzzle.codes[0] = Code::Black;
    let black_square = board(&encode(&puzzle), &decisions);
    assert!(!finished(&black_square));
    assert!(rules_hold(&black_square));
}

/// Document 02 §1.
#[test]
fn one_lonely_block() {
    for values in [[0, 0, 0], [1, 0, 0]] {
        let lonely = board(&S, &filling(&values));
        assert!(!finished(&lonely));
        assert!(rules_hold(&lonely));
    }
    assert!(finished(&board(&T, &filling(&[0, 0]))));
    assert!(!finished(&board(&T, &filling(&[0, 1]))));
    // An arrow of one cell.
    let short = encode(&plain(1, 1, vec![vec![0]]));
    assert!(!finished(&board(&short, &filling(&[0]))));
    assert!(!finished(&board(&short, &filling(&[1]))));
    // Blocks of 1 and 2.
    let row = encode(&plain(1, 5, vec![vec![0, 1, 2, 3]]));
    assert!(finished(&board(&row, &filling(&[1, 0, 0, 1, 1]))));
    // A second arrow that passes one block.
    let two = encode(&plain(2, 5, vec![vec![0, 1, 2, 3], vec![5, 6]]));
    assert!(!finished(&board(
        &two,
        &filling(&[1, 0, 0, 1, 1, 0, 0, 0, 0, 0])
    )));
    // A square is given where no arrow leads.
    let mut given = plain(1, 2, vec![]);
    given.codes[1] = Code::Given;
    assert!(!finished(&board(&encode(&given), &filling(&[0, 0]))));
    assert!(!finished(&board(&encode(&given), &filling(&[0, 1]))));
}

/// Document 02 §7: what edition 1 and edition 2 find, in this order. A full board has no reason
/// exactly when its edition's rules hold; with two squares on its arrow it is finished then.
fn found_in_both(record: &[u8], decisions: &[Literal]) -> [Option<Vec<Literal>>; 2] {
    Edition::BOTH.map(|edition| {
        let found = found_in(edition, record, decisions);
        let leaf = board_in(edition, record, decisions);
        if !leaf.cells().contains(&Cell::Undecided) {
            assert_eq!(rules_hold(&leaf), found.is_none());
            assert_eq!(finished(&leaf), found.is_none());
        }
        found
    })
}

#[test]
fn grown_by_two() {
    let row = encode(&plain(1, 6, vec![vec![0, 1, 2, 3]]));
    let too_large = vec![(3, 1), (4, 1), (5, 1), (0, 1), (1, 0)];
    assert_eq!(
        found_in_both(&row, &filling(&[1, 0, 0, 1, 1, 1])),
        [Some(too_large), None]
    );
    // By one, which both editions take.
    let by_one = filling(&[1, 0, 0, 1, 1, 0]);
    assert_eq!(found_in_both(&row, &by_one), [None, None]);
}

/// 3 × 6, blocks of 1 and 3 and a third one: the first pair meets 4 (b) in edition 1 alone.
#[test]
fn three_blocks() {
    let record = encode(&plain(3, 6, vec![(0..5).collect()]));
    let first_pair = vec![(2, 1), (8, 1), (14, 1), (0, 1), (1, 0), (6, 0)];
    let mut values = [1, 0, 1, 0, 1, 0, 0, 0, 1, 0, 1, 0, 0, 0, 1, 0, 1, 1];
    assert_eq!(
        found_in_both(&record, &filling(&values)),
        [Some(first_pair.clone()), None]
    );
    // The third block has 3 squares too.
    values[17] = 0;
    let second_pair = [(2, 1), (8, 1), (14, 1), (4, 1)].into_iter();
    let fence = [3, 5, 9, 11, 15, 17].map(|cell| (cell, 0));
    assert_eq!(
        found_in_both(&record, &filling(&values)),
        [Some(first_pair), Some(second_pair.chain(fence).collect())]
    );
}

#[test]
fn no_four_b_in_edition_2() {
    let record = encode(&plain(2, 5, vec![(0..5).collect()]));
    let decisions = [(0, 1), (4, 1), (8, 1), (9, 1), (1, 0), (5, 0), (2, 0)];
    let reason = vec![(4, 1), (8, 1), (9, 1), (0, 1), (1, 0), (5, 0), (2, 0)];
    assert_eq!(found_in_both(&record, &decisions), [Some(reason), None]);
}

#[test]
fn refused_in_both_editions() {
    let refused = |record: &[u8], decisions: &[Literal], reason: &[Literal]| {
        let reason = Some(reason.to_vec());
        let expected = [reason.clone(), reason];
        assert_eq!(found_in_both(record, decisions), expected);
    };
    refused(&T, &[(1, 1)], &[(1, 1)]);
    refused(&S, &[(0, 1), (1, 1)], &[(0, 1), (1, 1)]);
    let row = encode(&plain(1, 6, vec![vec![0, 1, 2, 3]]));
    let same_size = filling(&[1, 0, 0, 1, 0, 0]);
    refused(&row, &same_size, &[(0, 1), (3, 1), (2, 0), (4, 0)]);
    let turned_round = encode(&plain(1, 6, vec![vec![3, 2, 1, 0]]));
    let smaller = filling(&[1, 0, 0, 1, 1, 1]);
    let reason = [(3, 1), (4, 1), (5, 1), (0, 1), (1, 0)];
    refused(&turned_round, &smaller, &reason);
    // Two squares side by side, and four in a column.
    let grid = encode(&plain(4, 4, vec![vec![1, 2, 3]]));
    let no_copy = filling(&[1, 1, 0, 1, 0, 0, 0, 1, 0, 0, 0, 1, 0, 0, 0, 1]);
    let reason = [(0, 1), (1, 1), (3, 1), (2, 0), (6, 0), (10, 0), (14, 0)];
    refused(&grid, &no_copy, &reason);
}

/// The record's refusals come first; the board keeps its edition.
#[test]
fn opened_in_an_edition() {
    for edition in [0, 3, 16, 255, 256, 257, 258, u32::MAX] {
        let open = |record: &[u8]| Board::open(record, edition, &[]);
        assert_eq!(open(&S).err(), Some(Refusal::Edition));
        let cut = open(&S[..6]);
        assert_eq!(cut.err(), Some(Refusal::RecordEnds));
        let filler = open(&[&S[..], &[0]].concat());
        assert_eq!(filler.err(), Some(Refusal::Filler));
    }
    for edition in Edition::BOTH {
        let mut leaf = Board::open(&S, edition.number().into(), &[]).unwrap();
        assert_eq!(leaf.decide(0, 1), Ok(()));
        assert_eq!(find(&mut leaf, 0, 10), Ok(None));
        assert_eq!(leaf.undo(), Ok(()));
        assert_eq!(leaf.edition(), edition);
    }
}

/// A leaf in each edition with sizes, given as cell, lowest and highest for each.
fn sized(record: &[u8], sizes: &[u16]) -> [Leaf; 2] {
    [1, 2].map(|edition| Leaf::open(record, edition, sizes).unwrap())
}

/// Document 02 §12: both editions find the same. A full board has no reason exactly when the rules hold;
/// with two squares on its arrow it is finished then.
fn found_sized(record: &[u8], sizes: &[u16], decisions: &[Literal]) -> Option<Vec<Literal>> {
    let [in_1, in_2] = sized(record, sizes).map(|leaf| {
        let mut board = Board::of_leaf(&leaf, decisions);
        let found = find(&mut board, 0, 100).unwrap();
        if !board.cells().contains(&Cell::Undecided) {
            assert_eq!(rules_hold(&board), found.is_none());
            assert_eq!(finished(&board), found.is_none());
        }
        found.map(|reason| reason.literals)
    });
    assert_eq!(in_1, in_2);
    in_1
}

#[test]
fn sizes_of_a_full_board() {
    let row = encode(&plain(1, 6, vec![vec![0, 1, 2, 3]]));
    let full = filling(&[1, 0, 0, 1, 1, 0]);
    // both ends are in the range, and a cell that isn't square asks for nothing
    let kept: [&[u16]; 5] = [
        &[],
        &[3, 2, 2],
        &[3, 1, 2],
        &[0, 1, 1, 1, 9, 9, 3, 2, 65_535],
        &[2, 65_535, 65_535],
    ];
    for sizes in kept {
        assert_eq!(found_sized(&row, sizes, &full), None, "{sizes:?}");
    }
    let block = Some(vec![(3, 1), (4, 1)]);
    assert_eq!(found_sized(&row, &[3, 1, 1], &full), block);
    let shut_in = Some(vec![(3, 1), (2, 0), (5, 0)]);
    assert_eq!(found_sized(&row, &[3, 3, 3], &full), shut_in);
}

/// The reach counts and not the block: a block that may still grow is no reason.
#[test]
fn sizes_and_reach() {
    let row = encode(&plain(1, 6, vec![vec![0, 1, 2, 3]]));
    let open = [(3, 1), (4, 1), (2, 0)];
    assert_eq!(found_sized(&row, &[3, 3, 3], &open), None);
    let reason = Some(vec![(3, 1), (2, 0)]);
    assert_eq!(found_sized(&row, &[3, 4, 9], &open), reason);
    // of a cell that is undecided or empty nothing is asked
    assert_eq!(found_sized(&row, &[2, 9, 9], &[(3, 0), (2, 0)]), None);
    assert_eq!(found_sized(&row, &[3, 9, 9], &[(4, 1)]), None);
    // cell 1 is a barrier, and the other block is in the fence
    let between = [(0, 1), (2, 1), (5, 0)];
    let grid = encode(&plain(2, 3, vec![vec![0, 1, 2]]));
    let fence = Some(vec![(2, 1), (0, 1), (5, 0)]);
    assert_eq!(found_sized(&grid, &[2, 2, 9], &between[..2]), None);
    let shorter = encode(&plain(2, 3, vec![vec![0], vec![2]]));
    assert_eq!(found_sized(&shorter, &[2, 2, 9], &between), fence);
}

/// The sized cells by index, whichever end is missed; and reason 4 before them.
#[test]
fn which_size_comes_first() {
    let row = encode(&plain(1, 6, vec![vec![0, 1, 2, 3]]));
    let full = filling(&[1, 0, 0, 1, 1, 0]);
    let low = Some(vec![(0, 1), (1, 0)]);
    assert_eq!(found_sized(&row, &[0, 2, 9, 3, 1, 1], &full), low);
    let turned = encode(&plain(1, 6, vec![vec![5, 4, 3, 2]]));
    let back = filling(&[0, 1, 1, 0, 0, 1]);
    let high = Some(vec![(1, 1), (2, 1)]);
    assert_eq!(found_sized(&turned, &[2, 1, 1, 5, 2, 9], &back), high);
    let by_two = filling(&[1, 0, 0, 1, 1, 1]);
    let found = sized(&row, &[0, 2, 9]).map(|leaf| {
        let cells = Board::of_leaf(&leaf, &by_two).cells();
        find_reason(&leaf, &cells).map(|reason| reason.literals)
    });
    let too_large = Some(vec![(3, 1), (4, 1), (5, 1), (0, 1), (1, 0)]);
    assert_eq!(found, [too_large, low]);
}

/// Document 02 §13: turned, the leaf has a reason too, and in four turnings another one, since the other sized
/// cell comes first.
#[test]
fn sizes_whichever_way_up() {
    let row = encode(&plain(1, 6, vec![vec![0, 1, 2, 3]]));
    let full = filling(&[1, 0, 0, 1, 1, 0]);
    let low = (Which::FiveLow, vec![(0, 1), (1, 0)]);
    let high = (Which::FiveHigh, vec![(3, 1), (4, 1)]);
    for leaf in sized(&row, &[0, 2, 9, 3, 1, 1]) {
        let size = leaf.puzzle.size;
        for k in TURNINGS {
            let image = Leaf {
                puzzle: turned(k, &leaf.puzzle),
                edition: leaf.edition,
                sizes: turned_sizes(k, size, &leaf.sizes),
            };
            let cells = Board::of_leaf(&image, &turned_decisions(k, size, &full)).cells();
            let found = find_reason(&image, &cells).unwrap();
            let (which, literals) = match k {
                0 | 1 | 6 | 7 => &low,
                _ => &high,
            };
            let mut literals = turned_decisions(k, size, literals);
            if *which == Which::FiveHigh {
                literals.sort();
            }
            assert_eq!((found.which, found.literals), (*which, literals));
        }
    }
}

/// 1 to 5, 16, 22, and then the refusals of the calls without sizes.
#[test]
fn opened_with_sizes() {
    let refused = |record: &[u8], edition, sizes: &[u8], decisions: &[u8], output| {
        let opening = Opening {
            record,
            edition,
            sizes,
        };
        let found = found_with(opening, decisions, output).unwrap_err();
        let searched = searched_with(opening, decisions, 0, output / 2).unwrap_err();
        assert_eq!(found, searched);
        if found != Refusal::OutputShort {
            assert_eq!(judged_with(opening, decisions), Err(found));
        }
        found
    };
    let bad = [0, 0, 0, 0, 0, 5];
    let good = [0, 0, 0, 1, 0, 1];
    assert_eq!(refused(&S[..6], 0, &bad, &[4], 0), Refusal::RecordEnds);
    for edition in [0, 3, 258, u32::MAX] {
        assert_eq!(refused(&S, edition, &bad, &[4], 0), Refusal::Edition);
    }
    for edition in [1, 2] {
        assert_eq!(refused(&S, edition, &bad, &[4], 0), Refusal::Sizes);
        for cut in 1..6 {
            let cut = &good[..cut];
            assert_eq!(refused(&S, edition, cut, &[4], 0), Refusal::Sizes);
        }
        let odd = [&good[..], &[0]].concat();
        assert_eq!(refused(&S, edition, &odd, &[4], 0), Refusal::Sizes);
        assert_eq!(refused(&S, edition, &good, &[4], 19), Refusal::OutputShort);
        assert_eq!(refused(&S, edition, &good, &[4], 22), Refusal::Decision);
    }
}

#[test]
fn exported_calls_stay_with_edition_1() {
    let row = encode(&plain(1, 6, vec![vec![0, 1, 2, 3]]));
    let decisions = literal_bytes(&filling(&[1, 0, 0, 1, 1, 1]));
    assert_eq!(host_call(&row, &decisions, &mut [0; 38]), 5);
    assert_eq!(finished_call(&row, &decisions), 0);
    let input = [&[0x00, row.len() as u8], &row[..], &decisions].concat();
    assert_eq!(reason(&input), "reason 5\n3 1\n4 1\n5 1\n0 1\n1 0\n");
}

#[test]
fn finished_refusals_in_order() {
    assert_eq!(finished_call(&S, &[0x00, 0x00, 0x00, 0x01, 0x00, 0x02]), 0);
    assert_eq!(finished_call(&T, &[0x00, 0x00, 0x00, 0x01]), 1);
    assert_eq!(finished_call(&T, &[0x00, 0x00]), 0);
    assert_eq!(finished_call(&S[..6], &[0x04]), -1);
    assert_eq!(finished_call(&S, &[0x84, 0x03]), -12);
    assert_eq!(finished_call(&S, &[0x80, 0x03, 0x04, 0x00]), -7);
    assert_eq!(finished_call(&S, &[0x80, 0x00, 0x00, 0x00, 0x00]), -9);
    assert_eq!(finished_call(&S, &[0x80, 0x00, 0x00]), -12);
}

#[test]
fn program_example() {
    let input = [&[0x00, 0x07], &S[..], &[0x80, 0x00, 0x80, 0x02]].concat();
    assert_eq!(reason(&input), "reason 3\n0 1\n2 1\n0 1\n");
    assert_eq!(reason(&input[..9]), "none\n");
    assert_eq!(reason(&input[..8]), "refused 1\n");
    assert_eq!(reason(&input[..1]), "refused 1\n");
    assert_eq!(reason(&[0; 8_192]), "refused 1\n");
    assert_eq!(reason(&[0; 8_193]), "refused 12\n");
    assert_eq!(reason(&input[..12]), "refused 12\n");
}

#[test]
fn host_refusals_in_order() {
    let call = |record: &[u8], decisions: &[u8], output: usize| {
        host_call(record, decisions, &mut vec![0; output])
    };
    assert_eq!(call(&S, &[], 20), 0);
    assert_eq!(call(&S, &[], 19), -11);
    assert_eq!(call(&S[..6], &[0x04], 0), -1);
    assert_eq!(call(&S, &[0x04, 0x00], 19), -11);
    assert_eq!(call(&S, &[0x84, 0x03], 20), -12);
    assert_eq!(call(&S, &[0x80, 0x03, 0x04, 0x00], 20), -7);
    assert_eq!(call(&S, &[0x80, 0x00, 0x00, 0x00, 0x00], 20), -9);
    assert_eq!(call(&S, &[0x80, 0x00, 0x00], 20), -12);
}

#[test]
fn host_writes_only_literals() {
    let mut output = [0xAA; 21];
    let decisions = [0x80, 0x00, 0x80, 0x02];
    assert_eq!(host_call(&S, &decisions, &mut output), 3);
    assert_eq!(output[..6], [0x80, 0x00, 0x80, 0x02, 0x80, 0x00]);
    assert_eq!(output[6..], [0xAA; 15]);
}
