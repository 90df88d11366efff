//! `compare board`: lists of calls on one lent board, beside the reading's plain machine, beside the original in
//! edition 1 and without sizes, and beside the package's board; then boards that are damaged, byte by byte
//! and in known ways: 6 exactly where no list of calls leaves what stands in the memory.

use super::board_beside::Beside;
use super::board_calls::Checker;
use super::sizes::{any_damage, any_edition};
use crate::generate::boards::{any_board, Decided};
use crate::generate::calls::any_hints;
use crate::generate::lent::{any_call, each_byte, lent_calls, Damage};
use crate::generate::mutations::change;
use crate::generate::puzzles::{each_cell, square};
use crate::generate::records::damaged;
use crate::generate::sizes::{any_sizes, as_written, kept_sizes, long_lists};
use crate::generate::small::{finished_leaves, freely_grown_leaves};
use crate::lent::Lent;
use crate::original::AT_HAND;
use crate::package_board::PACKAGE_BOARD;
use crate::progress::{leaf_facts, repeatedly, Outcome};
use crate::random::Random;
use crate::reading::board::{Board, Hints};
use crate::reading::leaf::Leaf;
use crate::reading::lent::{field_of, Fields, LentCall, Said, SIZE};
use crate::reading::record::encode;
use crate::reading::sizes::{numbers, ranges};
use crate::reading::{Edition, Refusal};
use crate::shrink::shrunk;

/// So many leaves that are finished in edition 1, and so many in edition 2 alone.
const FINISHED: usize = 25;

/// So many lists for a board whose every byte is damaged.
const FOR_EACH_BYTE: usize = 2_000;

/// So many damages of the board that a list leaves.
const DAMAGES: usize = 5;

/// So many percent of the lists are made on the package's board too.
const BY_THE_PACKAGE: usize = 20;

/// What was compared beside the calls themselves.
#[derive(Default)]
struct Counts {
    calls: usize,
    /// Answers that the original has too.
    original: usize,
    package: usize,
    /// Of each damage how often it was refused, and how often calls leave the board all the same.
    damages: [[usize; 2]; Damage::ALL.len()],
    /// The same of single bytes, those between fields in the second row.
    bytes: [[usize; 2]; 2],
    /// Leaves that were opened in memory that another board stood in.
    again: usize,
}

pub fn run(seed: u64, count: usize) -> Outcome {
    let mut checker = Checker::new()?;
    let mut counts = Counts::default();
    let mut random = Random::new(seed);
    let leaves = finished_in_each(&mut random);
    long(&mut random, &mut checker)?;
    repeatedly("board", seed, count, |random| {
        let list = any_list(random, &leaves);
        let mut lent = compare(&mut checker, &list, &mut counts)?;
        damaged_open(random, &mut checker, &mut lent, &list.leaf)?;
        damage(random, &mut checker, &mut lent, &mut counts)?;
        again(random, &mut checker, &mut lent, &leaves, &mut counts)
    })?;
    repeatedly(
        "board, each byte",
        seed,
        count.div_ceil(FOR_EACH_BYTE),
        |random| each_byte_of(random, &mut checker, &leaves, &mut counts),
    )?;
    print(count, &checker, &counts);
    let mut missing = checker.met.missing();
    missing.extend(counts.missing());
    match missing[..] {
        [] => Ok(()),
        _ => Err(format!(
            "not every case was met, or one that there is not: more lists are needed\n{}",
            missing.join("\n")
        )),
    }
}

fn print(count: usize, checker: &Checker, counts: &Counts) {
    for line in checker.met.lines().lines() {
        println!("board: {line}");
    }
    println!(
        "board: {count} lists of {} calls, {} answers compared with the original, {} with the package; \
         {} boards opened again",
        counts.calls, counts.original, counts.package, counts.again
    );
    println!(
        "board: damages refused, and left by calls all the same: {:?}; single bytes in fields: {:?}, \
         between them: {:?}",
        counts.damages, counts.bytes[0], counts.bytes[1]
    );
}

impl Counts {
    fn missing(&self) -> Vec<String> {
        let mut missing = Vec::new();
        for (damage, [refused, left]) in Damage::ALL.into_iter().zip(self.damages) {
            if (refused > 0) != damage.can_refuse() || (left > 0) != damage.can_leave() {
                missing.push(format!("{damage:?} refused {refused} times, left {left}"));
            }
        }
        let [[refused, left], [between_refused, between_left]] = self.bytes;
        if refused == 0 || left == 0 || between_refused > 0 || between_left == 0 {
            missing.push(format!("single bytes {:?}", self.bytes));
        }
        let original = (self.original > 0) == AT_HAND;
        if !original || self.package == 0 || self.again == 0 {
            missing.push("the original, the package, or a board opened again".to_string());
        }
        missing
    }
}

/// A range beside every cell of the largest grid is taken; lists of a million numbers are refused, and so
/// are those that would be good by a count of fewer bits.
fn long(random: &mut Random, checker: &mut Checker) -> Outcome {
    let record = encode(&each_cell(random, square(32)));
    let every: Vec<[u16; 3]> = (0..1_024).map(|cell| [cell, 1, 65_535]).collect();
    let mut lent = Lent::new(true, &[0xFF; SIZE]);
    for bytes in long_lists(random, &every) {
        let sizes = numbers(&bytes).0;
        let opened = checker.open(&mut lent, &record, 2, &sizes)?;
        if opened.map(|_| ()) != Err(Refusal::Sizes) {
            return Err(format!("a list of {} sizes is taken", sizes.len()));
        }
    }
    let opened = checker.open(&mut lent, &record, 2, every.as_flattened())?;
    match opened {
        Ok(_) => Ok(()),
        Err(refusal) => Err(format!("a range beside every cell is refused: {refusal:?}")),
    }
}

/// A leaf, the counts of hints that its board is handed in with, and calls on it.
struct List {
    leaf: Leaf,
    /// None for those that open leaves.
    hints: Option<Hints>,
    calls: Vec<LentCall>,
    guarded: bool,
    by_the_package: bool,
    /// Of the buffers.
    seed: u64,
}

/// Leaves that are finished in edition 1, and leaves that are so in edition 2 alone.
fn finished_in_each(random: &mut Random) -> Vec<Decided> {
    let mut leaves = finished_leaves(random, FINISHED);
    leaves.extend(freely_grown_leaves(random, FINISHED));
    leaves
}

fn any_list(random: &mut Random, leaves: &[Decided]) -> List {
    let is_finished = random.percent(10);
    let goal = match is_finished {
        true => leaves[random.below(leaves.len())].clone(),
        false => any_board(random),
    };
    let leaf = any_leaf(random, &goal, is_finished);
    let wanted = match is_finished {
        true => 4 * goal.decisions.len() + 4,
        false => random.between(1, 20 + 2 * goal.decisions.len().min(60)),
    };
    List {
        leaf,
        hints: random.percent(50).then(|| any_hints(random)),
        calls: lent_calls(random, &goal, wanted),
        guarded: random.percent(50),
        by_the_package: random.percent(BY_THE_PACKAGE),
        seed: random.next(),
    }
}

/// In either edition, without sizes or with ones that a finished board mostly keeps.
fn any_leaf(random: &mut Random, goal: &Decided, is_finished: bool) -> Leaf {
    let sizes = match random.below(10) {
        0..=4 => Vec::new(),
        5..=7 if is_finished => kept_sizes(random, goal),
        _ => any_sizes(random, goal),
    };
    Leaf {
        puzzle: goal.puzzle.clone(),
        edition: random.pick(&Edition::BOTH),
        sizes: ranges(&goal.puzzle, sizes.as_flattened()).expect("a good list"),
    }
}

/// The board's memory after the list, if no call says or leaves anything else than the reading.
fn compare(checker: &mut Checker, list: &List, counts: &mut Counts) -> Result<Lent, String> {
    let mut made = |calls: &[LentCall]| make_calls(checker, list, calls, counts);
    made(&list.calls).map_err(|difference| {
        let mut checker = Checker::new().expect("it was made before");
        let mut again = |calls: &[LentCall]| {
            make_calls(&mut checker, list, calls, &mut Counts::default()).err()
        };
        let again = std::cell::RefCell::new(&mut again);
        let calls = shrunk(&list.calls, |calls| (again.borrow_mut())(calls).is_some());
        let shrunk = (again.borrow_mut())(&calls).unwrap_or(difference);
        let facts = leaf_facts(&list.leaf, &[]);
        format!(
            "{facts}\ncounts {:?}, calls {calls:?}\n{shrunk}",
            list.hints
        )
    })
}

/// Opens the leaf and makes the calls on the one board, up to the first difference.
fn make_calls(
    checker: &mut Checker,
    list: &List,
    calls: &[LentCall],
    counts: &mut Counts,
) -> Result<Lent, String> {
    let mut random = Random::new(list.seed);
    // what stands in the memory before it is opened does not matter
    let noise = random.byte();
    let mut lent = Lent::new(list.guarded, &[noise; SIZE]);
    let mut board = checker.open_leaf(&mut lent, &list.leaf)?;
    if let Some(hints) = list.hints {
        board.hand_in(hints);
        Fields::of(&board).write(lent.bytes());
    }
    let handed_in = list.hints.map(|_| &*lent.bytes());
    let mut beside = Beside::new(&list.leaf, list.by_the_package, handed_in)?;
    for &call in calls {
        let before = board.clone();
        let said = checker.check(&mut random, &mut lent, &mut board, call)?;
        counts.calls += 1;
        let [original, package] = beside.call(&before, &board, call, &said)?;
        counts.original += original;
        counts.package += package;
    }
    beside.at_the_end(&board, lent.bytes())?;
    Ok(lent)
}

/// What can't be opened leaves the board that stands in the memory; some of it can.
fn damaged_open(
    random: &mut Random,
    checker: &mut Checker,
    lent: &mut Lent,
    leaf: &Leaf,
) -> Outcome {
    let mut record = encode(&leaf.puzzle);
    let good = as_written(&leaf.sizes);
    let mut sizes = good.as_flattened().to_vec();
    let mut edition = any_edition(random);
    match random.below(6) {
        0 => record = damaged(random, &leaf.puzzle).record,
        1 => change(random, &mut record),
        2 => sizes = numbers(&any_damage(random, &leaf.puzzle, &good)).0,
        3 if !sizes.is_empty() => sizes[random.below(leaf.sizes.len())] = random.next() as u16,
        4 => edition = random.pick(&[0, 3, 257, 258, u32::MAX]),
        _ => {}
    }
    let before = *lent.bytes();
    let opened = checker.open(lent, &record, edition, &sizes);
    let facts = || {
        format!(
            "{}, edition {edition}, sizes {sizes:?}",
            leaf_facts(leaf, &[])
        )
    };
    opened.map_err(|what| format!("{}\n{what}", facts()))?.ok();
    *lent.bytes() = before;
    Ok(())
}

/// A board is opened where another one stands, and played on.
fn again(
    random: &mut Random,
    checker: &mut Checker,
    lent: &mut Lent,
    leaves: &[Decided],
    counts: &mut Counts,
) -> Outcome {
    let goal = leaves[random.below(leaves.len())].clone();
    let leaf = any_leaf(random, &goal, true);
    let mut board = checker.open_leaf(lent, &leaf)?;
    for call in lent_calls(random, &goal, 5) {
        let said = checker.check(random, lent, &mut board, call);
        said.map_err(|what| format!("{}, opened again\n{what}", leaf_facts(&leaf, &[])))?;
        counts.calls += 1;
    }
    counts.again += 1;
    Ok(())
}

/// Some damages of the board, and a call on each.
fn damage(
    random: &mut Random,
    checker: &mut Checker,
    lent: &mut Lent,
    counts: &mut Counts,
) -> Outcome {
    let good = *lent.bytes();
    let board = Fields::read(&good).board().expect("calls leave it");
    for _ in 0..DAMAGES {
        let kind = random.below(Damage::ALL.len());
        let Some(bytes) = Damage::ALL[kind].done_to(random, &good) else {
            continue;
        };
        *lent.bytes() = bytes;
        let call = any_call(random, board.puzzle().size);
        let said = check_damaged(random, checker, lent, call).map_err(|what| {
            let facts = leaf_facts(board.leaf(), board.standing());
            format!("{facts}, {:?}\n{what}", Damage::ALL[kind])
        })?;
        let left = said != Said::Refused(Refusal::Board);
        counts.damages[kind][usize::from(left)] += 1;
        counts.calls += 1;
    }
    *lent.bytes() = good;
    Ok(())
}

/// The library and, now and then, the package on memory that may hold anything.
fn check_damaged(
    random: &mut Random,
    checker: &mut Checker,
    lent: &mut Lent,
    call: LentCall,
) -> Result<Said, String> {
    let mut package = random.percent(10).then(|| {
        let package = PACKAGE_BOARD.expect("the calls are linked");
        (package.of_bytes)(lent.bytes())
    });
    let said = checker.check_any(random, lent, call)?;
    if let Some(package) = &mut package {
        let same = package.call(call, &said);
        same.map_err(|what| format!("{call:?}: {what}"))?;
        if Fields::read(&package.bytes()) != Fields::read(lent.bytes()) {
            return Err(format!("{call:?}: the package leaves another board"));
        }
    }
    Ok(said)
}

/// Each byte of a small board changed, and a call on each.
fn each_byte_of(
    random: &mut Random,
    checker: &mut Checker,
    leaves: &[Decided],
    counts: &mut Counts,
) -> Outcome {
    let mut goal = match random.percent(50) {
        true => leaves[random.below(leaves.len())].clone(),
        false => any_board(random),
    };
    let kept = random.below(goal.decisions.len() + 1);
    goal.decisions.truncate(kept);
    let leaf = any_leaf(random, &goal, false);
    let mut good = [0; SIZE];
    Fields::of(&Board::of_leaf(&leaf, &goal.decisions)).write(&mut good);
    let guarded = random.percent(50);
    let mut lent = Lent::new(guarded, &good);
    let size = leaf.puzzle.size;
    let changed: Vec<[u8; SIZE]> = each_byte(random, &good).collect();
    for (place, bytes) in changed.iter().enumerate() {
        *lent.bytes() = *bytes;
        let call = any_call(random, size);
        let said = check_damaged(random, checker, &mut lent, call).map_err(|what| {
            let facts = leaf_facts(&leaf, &goal.decisions);
            format!("{facts}, byte {place} is {}\n{what}", bytes[place])
        })?;
        let left = said != Said::Refused(Refusal::Board);
        let between = field_of(place).is_none();
        counts.bytes[usize::from(between)][usize::from(left)] += 1;
        counts.calls += 1;
    }
    Ok(())
}
