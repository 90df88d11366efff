//! `compare clauses`: the linked call that writes a clause sheet, and the package's clauses, beside the
//! reading and, where it is at hand, the original's `solve_evolmino`; outputs of every length near the
//! sheet's, with guard bytes about them; and document 02's theorem on every full board of small leaves.

use crate::generate::puzzles::{any_puzzle, rows_to_and_fro, square};
use crate::generate::records::damaged;
use crate::generate::small::{decisions, small_puzzle};
use crate::host::{ClausesCall, CLAUSES_CALL, MISSING, PACKAGE_CLAUSES};
use crate::original::{Original, AT_HAND};
use crate::progress::{facts, hexadecimal, repeatedly, Outcome};
use crate::random::Random;
use crate::reading::board::Board;
use crate::reading::clauses::{clauses, opened_sheet, satisfied, sheet, write_sheet, Clause};
use crate::reading::finished::finished;
use crate::reading::groups::block_rules_hold;
use crate::reading::record::{encode, Code, Puzzle};
use crate::reading::{Edition, Refusal};

/// Sheets up to this length are asked for with outputs of every length.
const SMALL: usize = 60;

/// So many bytes before and behind the output.
const GUARD: usize = 64;

#[derive(Default)]
struct Counts {
    puzzles: usize,
    clauses: usize,
    calls: Answers,
    longest: usize,
    boards: usize,
    finished: usize,
}

/// What the calls returned.
#[derive(Default)]
struct Answers {
    written: usize,
    /// By refusal number.
    refused: [usize; 14],
}

impl Answers {
    fn add(&mut self, returned: i32) {
        match returned {
            0.. => self.written += 1,
            _ => self.refused[-returned as usize] += 1,
        }
    }

    fn line(&self) -> String {
        let [.., short] = self.refused;
        format!(
            "{} sheets written, refused 1 to 5: {:?}, 13: {short}",
            self.written,
            &self.refused[1..6]
        )
    }
}

pub fn run(seed: u64, count: usize) -> Outcome {
    let call = CLAUSES_CALL.ok_or(MISSING)?;
    let mut counts = Counts::default();
    compare(&mut Random::new(seed), call, &longest(), &mut counts)?;
    repeatedly("clauses", seed, count, |random| {
        let puzzle = any_puzzle(random);
        compare(random, call, &puzzle, &mut counts)?;
        compare_damaged(random, call, &puzzle, &mut counts)
    })?;
    let small = count.div_ceil(10);
    repeatedly("clauses", seed, small, |random| {
        let puzzle = small_puzzle(random);
        compare(random, call, &puzzle, &mut counts)?;
        every_full_board(&puzzle, &mut counts)
    })?;
    if counts.finished == 0 {
        return Err("no leaf with an arrow is finished: more puzzles are needed".to_string());
    }
    println!(
        "clauses: {} puzzles with {} clauses, {}; the longest sheet has {} bytes",
        counts.puzzles,
        counts.clauses,
        match AT_HAND {
            true => "each as the original adds it",
            false => "with no original to compare them with",
        },
        counts.longest
    );
    println!("clauses: {}", counts.calls.line());
    println!(
        "clauses: {small} of them small, with {} full boards in both editions; with an arrow {} finished",
        counts.boards, counts.finished
    );
    Ok(())
}

/// The puzzle with the longest sheet: an arrow through all cells of the largest grid, each of them black
/// or given.
fn longest() -> Puzzle {
    let size = square(32);
    let code = |cell: usize| [Code::Black, Code::Given][cell % 2];
    Puzzle {
        size,
        codes: (0..size.cells()).map(code).collect(),
        arrows: vec![rows_to_and_fro(size)],
    }
}

/// The reading's clauses are the original's and the package's, and the call writes them.
fn compare(
    random: &mut Random,
    call: ClausesCall,
    puzzle: &Puzzle,
    counts: &mut Counts,
) -> Outcome {
    let record = encode(puzzle);
    let expected = clauses(puzzle);
    if AT_HAND {
        same(
            "the original",
            puzzle,
            &Original::clauses(puzzle),
            &expected,
        )?;
    }
    let packaged = packaged(&record)?.map_err(|number| format!("refused {number}"))?;
    same("the package", puzzle, &packaged, &expected)?;

    let sheet = sheet(&expected);
    counts.puzzles += 1;
    counts.clauses += expected.len();
    counts.longest = counts.longest.max(sheet.len());
    let lengths = lengths(random, sheet.len());
    let opened = Ok(sheet);
    for length in lengths {
        counts
            .calls
            .add(check(random, call, &record, &opened, length, GUARD)?);
    }
    Ok(())
}

/// The package's clauses, or the number of its refusal.
fn packaged(record: &[u8]) -> Result<Result<Vec<Clause>, u32>, String> {
    let package = PACKAGE_CLAUSES.ok_or(MISSING)?;
    Ok(package(record))
}

/// The first clause that differs from the reading's.
fn same(whose: &str, puzzle: &Puzzle, found: &[Clause], expected: &[Clause]) -> Outcome {
    let longer = found.len().max(expected.len());
    match (0..longer).find(|&place| found.get(place) != expected.get(place)) {
        None => Ok(()),
        Some(place) => Err(format!(
            "{}\nclause {place} of {whose} is {:?}, and that of the reading {:?}",
            facts(puzzle, &[]),
            found.get(place),
            expected.get(place)
        )),
    }
}

/// Every length near that of the sheet, and some below; of a short one all below.
fn lengths(random: &mut Random, sheet: usize) -> Vec<usize> {
    let near = sheet.saturating_sub(4)..=sheet + 4;
    match sheet {
        0..=SMALL => (0..=sheet + 4).collect(),
        _ => near.chain([0, 1, 2, random.below(sheet)]).collect(),
    }
}

fn compare_damaged(
    random: &mut Random,
    call: ClausesCall,
    puzzle: &Puzzle,
    counts: &mut Counts,
) -> Outcome {
    let record = damaged(random, puzzle).record;
    let opened = opened_sheet(&record);
    let refused = packaged(&record)?.err();
    if refused != opened.as_ref().err().map(|why| u32::from(why.number())) {
        let record = hexadecimal(&record);
        return Err(format!("record {record}: the package refuses {refused:?}"));
    }
    let whole = opened.as_ref().map_or(100, Vec::len);
    for length in [0, whole] {
        counts
            .calls
            .add(check(random, call, &record, &opened, length, GUARD)?);
    }
    Ok(())
}

/// The number that the call returns for an output of so many bytes with so many guard bytes before and
/// behind it, if it is the reading's and every byte is left as it should be.
fn check(
    random: &mut Random,
    call: ClausesCall,
    record: &[u8],
    opened: &Result<Vec<u8>, Refusal>,
    length: usize,
    guard: usize,
) -> Result<i32, String> {
    let salt = random.below(256);
    let before: Vec<u8> = (0..length + 2 * guard)
        .map(|place| (37 * place + salt) as u8)
        .collect();
    let mut after = before.clone();
    let number = write_sheet(opened, &mut after[guard..guard + length]);

    let lent: Box<[u8]> = record.into();
    let mut output: Box<[u8]> = before.into();
    let returned = call(&lent, &mut output[guard..guard + length]);
    let what = if returned != number {
        format!("returns {returned} and not {number}")
    } else if let Some(place) = (0..output.len()).find(|&place| output[place] != after[place]) {
        format!(
            "leaves {:02X} and not {:02X} at {} of the output",
            output[place],
            after[place],
            place as i64 - guard as i64
        )
    } else if *lent != *record {
        "changes the record".to_string()
    } else {
        return Ok(returned);
    };
    Err(format!(
        "record {}, output of {length} bytes\nthe call for the clause sheet {what}",
        hexadecimal(record)
    ))
}

/// In both editions a full board satisfies every clause and the block rules exactly when it is
/// finished.
fn every_full_board(puzzle: &Puzzle, counts: &mut Counts) -> Outcome {
    for edition in Edition::BOTH {
        every_full_board_in(edition, puzzle, counts)?;
    }
    Ok(())
}

fn every_full_board_in(edition: Edition, puzzle: &Puzzle, counts: &mut Counts) -> Outcome {
    let clauses = clauses(puzzle);
    let size = puzzle.size.cells();
    for number in 0..1 << size {
        let full = decisions(number, size, 2);
        let board = Board::after(puzzle, edition, &full);
        let cells = board.cells();
        let every = clauses.iter().all(|clause| satisfied(clause, &cells));
        let rules = block_rules_hold(board.leaf(), &cells);
        if (every && rules) != finished(&board) {
            return Err(format!(
                "{}, edition {}\nevery clause: {every}, the block rules: {rules}, finished: {}",
                facts(puzzle, &full),
                edition.number(),
                finished(&board)
            ));
        }
        counts.boards += 1;
        counts.finished += usize::from(finished(&board) && !puzzle.arrows.is_empty());
    }
    Ok(())
}

/// The clause sheets of mutated records, for `compare fuzz`.
pub struct FuzzedSheets {
    call: ClausesCall,
    random: Random,
    answers: Answers,
}

impl FuzzedSheets {
    pub fn new(seed: u64) -> Result<FuzzedSheets, String> {
        Ok(FuzzedSheets {
            call: CLAUSES_CALL.ok_or(MISSING)?,
            random: Random::new(seed),
            answers: Answers::default(),
        })
    }

    /// In one of five cases, since sheets can be long, a call with an output of a length about that of
    /// the sheet.
    pub fn check(&mut self, record: &[u8]) -> Outcome {
        let random = &mut self.random;
        if random.percent(80) {
            return Ok(());
        }
        let opened = opened_sheet(record);
        let whole = opened.as_ref().map_or(8, Vec::len);
        let length = match random.below(6) {
            0 => random.below(whole + 1),
            1 | 2 => random.between(whole.saturating_sub(4), whole + 4),
            _ => whole,
        };
        let guard = random.pick(&[0, 0, 1, GUARD]);
        let returned = check(random, self.call, record, &opened, length, guard)?;
        self.answers.add(returned);
        Ok(())
    }

    pub fn line(&self) -> String {
        format!("clauses: {}", self.answers.line())
    }
}
