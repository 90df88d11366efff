//! `compare certain`: the linked call for cells that are certain, and the package's two ways, beside the
//! reading's own search; on small leaves what is told beside every full board. `compare fuzz` makes these
//! calls too.

use crate::generate::boards::{board_of_size, Decided};
use crate::generate::hosts::{host_input, HostInput};
use crate::generate::mutations::mutated;
use crate::generate::puzzles::{any_size, size_up_to};
use crate::generate::small::{decisions, finished_leaves, small_puzzle};
use crate::guarded::{self, Due};
use crate::host::{CertainCall, PackageCertain, CERTAIN_CALL, MISSING, PACKAGE_CERTAIN};
use crate::progress::{facts, hexadecimal, leaf_facts, repeatedly, Outcome};
use crate::random::Random;
use crate::reading::board::Board;
use crate::reading::certain::{certain, opened_and_searched, Answer, Certain, Fact};
use crate::reading::finished::finished;
use crate::reading::host::literal_bytes;
use crate::reading::leaf::Leaf;
use crate::reading::record::{encode, plain, Code, Puzzle};
use crate::reading::{Edition, Literal, Refusal};
use std::thread;

/// So many leaves that have a finished board for certain.
const FINISHED: usize = 50;

/// So many lengths of an output below the shortest that is long enough, and so many from it on.
const LENGTHS: usize = 10;

/// The bytes of a stack in which the deepest search has room where there is no arrow.
const STACK: usize = 256 * 1024;

/// And where an arrow stands behind all other cells: the walk inside find is as deep as the search then.
const STACK_WITH_ARROW: usize = 320 * 1024;

/// What the calls said.
#[derive(Default)]
pub struct Counts {
    /// Cells told, no such board, and spent.
    answered: [usize; 3],
    /// By refusal number.
    refused: [usize; 13],
}

impl Counts {
    fn add(&mut self, answer: &Result<Answer, Refusal>) {
        match answer {
            Ok(answer) => self.answered[answer.number() as usize] += 1,
            Err(refusal) => self.refused[usize::from(refusal.number())] += 1,
        }
    }

    pub fn line(&self) -> String {
        format!(
            "certain: cells told, no such board, spent: {:?}; refused 1 to 12: {:?}",
            self.answered,
            &self.refused[1..]
        )
    }
}

pub fn run(seed: u64, count: usize) -> Outcome {
    let call = CERTAIN_CALL.ok_or(MISSING)?;
    let package = PACKAGE_CERTAIN.ok_or(MISSING)?;
    deepest(call)?;
    let mut counts = Counts::default();
    let mut told = Told::default();
    let leaves = finished_leaves(&mut Random::new(seed), FINISHED);
    repeatedly("certain", seed, count, |random| {
        let leaf = small_leaf(random, &leaves);
        let answer = by_exhaustion(&leaf)?;
        told.add(&answer);
        beside_the_search(random, call, &leaf, &answer, &mut counts)?;
        both_ways(package, &leaf, &answer)?;
        every_length(random, call, &leaf, &mut counts)
    })?;
    repeatedly("certain, damaged", seed, count, |random| {
        let input = any_input(random);
        for input in [mutated(random, &input), input] {
            about_the_limit(random, call, &input, &mut counts)?;
        }
        Ok(())
    })?;
    let refused = [1, 2, 3, 4, 5, 7, 9, 11, 12].map(|number| counts.refused[number]);
    if told.facts.contains(&0) || counts.answered.contains(&0) || refused.contains(&0) {
        return Err("not every case was met: more leaves are needed".to_string());
    }
    println!(
        "certain: {count} small leaves, their full boards all tried, {} steps; \
         cells told empty, square, open: {:?}",
        told.steps, told.facts
    );
    println!("{}", counts.line());
    println!(
        "certain: 32 by 32, 1024 deep, without an arrow in a stack of {STACK} bytes, \
         with an arrow behind all other cells in one of {STACK_WITH_ARROW}"
    );
    Ok(())
}

/// What was told of small leaves.
#[derive(Default)]
struct Told {
    /// Cells that are empty, square and open.
    facts: [usize; 3],
    steps: u64,
}

impl Told {
    fn add(&mut self, answer: &Answer) {
        self.steps += answer.steps;
        if let Certain::Cells(facts) = &answer.certain {
            facts
                .iter()
                .for_each(|&fact| self.facts[fact as usize] += 1);
        }
    }
}

/// A small leaf with some decisions; half of them are those of a finished board, but for one cell in
/// some.
fn small_leaf(random: &mut Random, leaves: &[Decided]) -> Decided {
    let full = match random.percent(50) {
        true => leaves[random.below(leaves.len())].clone(),
        false => {
            let puzzle = small_puzzle(random);
            let cells = puzzle.size.cells();
            let mut decisions = decisions(random.below(1 << cells), cells, 2);
            random.shuffle(&mut decisions);
            Decided { puzzle, decisions }
        }
    };
    let mut decisions = full.decisions;
    let cells = decisions.len();
    let kept = match random.below(4) {
        0 => 0,
        1 => random.below(cells + 1),
        _ => random.below(cells / 3 + 1),
    };
    decisions.truncate(kept);
    if !decisions.is_empty() && random.percent(20) {
        decisions[0].1 = 1 - decisions[0].1;
    }
    Decided {
        puzzle: full.puzzle,
        decisions,
    }
}

/// The reading's answer in edition 1 with no end to the budget. In both editions it tells what every
/// finished board that agrees with the decisions has, of all full boards.
fn by_exhaustion(leaf: &Decided) -> Result<Answer, String> {
    let Decided { puzzle, decisions } = leaf;
    as_in_every_one(&Leaf::unsized_in(Edition::OneOrMore, puzzle), decisions)?;
    as_in_every_one(&Leaf::unsized_in(Edition::ExactlyOne, puzzle), decisions)
}

/// The reading's answer on a leaf with no end to the budget, if it tells what every finished board that
/// agrees with the decisions has.
pub fn as_in_every_one(leaf: &Leaf, decisions: &[Literal]) -> Result<Answer, String> {
    let answer = certain(&Board::of_leaf(leaf, decisions), u64::MAX);
    let expected = in_every_one(leaf, decisions).map_or(Certain::NoBoard, Certain::Cells);
    match answer.certain == expected {
        true => Ok(answer),
        false => Err(format!(
            "{}\nthe reading's search tells {:?}, and the full boards {expected:?}",
            leaf_facts(leaf, decisions),
            answer.certain
        )),
    }
}

/// For each cell what it is in every finished board that agrees with the decisions, by trying every
/// full board; none where there is no such board.
fn in_every_one(leaf: &Leaf, standing: &[Literal]) -> Option<Vec<Fact>> {
    let cells = leaf.puzzle.size.cells();
    let mut boards = 0;
    let mut squares = vec![0; cells];
    for number in 0..1 << cells {
        let full = decisions(number, cells, 2);
        let agrees = standing.iter().all(|decision| full.contains(decision));
        if agrees && finished(&Board::of_leaf(leaf, &full)) {
            boards += 1;
            for (cell, value) in full {
                squares[cell] += usize::from(value);
            }
        }
    }
    let fact = |squares: usize| match squares {
        0 => Fact::Empty,
        all if all == boards => Fact::Square,
        _ => Fact::Open,
    };
    (boards > 0).then(|| squares.into_iter().map(fact).collect())
}

/// The call gives the reading's answer with budgets about its number of steps: spent, with a count equal
/// to the budget, exactly when there are more steps.
fn beside_the_search(
    random: &mut Random,
    call: CertainCall,
    leaf: &Decided,
    answer: &Answer,
    counts: &mut Counts,
) -> Outcome {
    let steps = answer.steps;
    let less = random.below(steps as usize) as u64;
    for budget in [0, 1, less, steps - 1, steps, steps + 1, u64::MAX] {
        let due = match steps > budget {
            false => answer.clone(),
            true => Answer {
                certain: Certain::Spent,
                steps: budget,
            },
        };
        let board = Board::after(&leaf.puzzle, Edition::ExactlyOne, &leaf.decisions);
        if budget == less && certain(&board, budget) != due {
            let leaf = facts(&leaf.puzzle, &leaf.decisions);
            return Err(format!(
                "{leaf}\nthe reading within {budget} is not {due:?}"
            ));
        }
        let input = input(leaf, 8 + leaf.puzzle.size.cells());
        check(random, call, &input, budget, &Ok(due), counts)?;
    }
    Ok(())
}

/// The package's two ways: what they tell of the cells is the same, and each has the steps of its own
/// search.
fn both_ways(package: [PackageCertain; 2], leaf: &Decided, answer: &Answer) -> Outcome {
    let record = encode(&leaf.puzzle);
    let given_first = certain(&given_first(leaf), u64::MAX);
    if given_first.certain != answer.certain {
        let leaf = facts(&leaf.puzzle, &leaf.decisions);
        return Err(format!(
            "{leaf}\n{answer:?}, and with black and given cells first {given_first:?}"
        ));
    }
    for (way, due) in package.iter().zip([answer, &given_first]) {
        let spent = Answer {
            certain: Certain::Spent,
            steps: due.steps - 1,
        };
        for (budget, due) in [(due.steps, due), (u64::MAX, due), (spent.steps, &spent)] {
            let found = way(&record, &leaf.decisions, budget);
            if found.as_ref() != Ok(due) {
                let leaf = facts(&leaf.puzzle, &leaf.decisions);
                return Err(format!(
                    "{leaf}\nthe package gives {found:?} and not {due:?} within {budget}"
                ));
            }
        }
    }
    Ok(())
}

/// The board behind the decisions with black cells empty and given ones square, where the decisions
/// leave them open.
fn given_first(leaf: &Decided) -> Board {
    let mut board = Board::after(&leaf.puzzle, Edition::ExactlyOne, &leaf.decisions);
    for (cell, value) in leaf.puzzle.black_and_given() {
        if leaf.decisions.iter().all(|&(decided, _)| decided != cell) {
            board.decide(cell, value).expect("it is undecided");
        }
    }
    board
}

/// Outputs of every length about the shortest that is long enough.
fn every_length(
    random: &mut Random,
    call: CertainCall,
    leaf: &Decided,
    counts: &mut Counts,
) -> Outcome {
    let shortest = 8 + leaf.puzzle.size.cells();
    let budget = random.below(20) as u64;
    for output in shortest.saturating_sub(LENGTHS)..shortest + LENGTHS {
        let input = input(leaf, output);
        let answer = searched(&input, budget);
        if (answer == Err(Refusal::OutputShort)) != (output < shortest) {
            let leaf = facts(&leaf.puzzle, &leaf.decisions);
            return Err(format!(
                "{leaf}\nthe reading with {output} bytes: {answer:?}"
            ));
        }
        check(random, call, &input, budget, &answer, counts)?;
    }
    Ok(())
}

fn input(leaf: &Decided, output: usize) -> HostInput {
    HostInput {
        record: encode(&leaf.puzzle),
        decisions: literal_bytes(&leaf.decisions),
        output,
    }
}

/// Good or damaged, mostly small: the reading takes long for a step on a large grid.
fn any_input(random: &mut Random) -> HostInput {
    let size = match random.percent(5) {
        true => any_size(random),
        false => size_up_to(random, 6),
    };
    let board = board_of_size(random, size);
    host_input(random, &board)
}

/// The same input with an output that is about as long for this call as it is for find, and a small
/// budget.
fn about_the_limit(
    random: &mut Random,
    call: CertainCall,
    input: &HostInput,
    counts: &mut Counts,
) -> Outcome {
    let as_long = input.output / 6 + 8;
    let output = match random.below(16) {
        0 => random.below(9),
        1 => as_long - 1,
        2 => as_long + 1,
        3 => as_long + random.below(100),
        _ => as_long,
    };
    let input = HostInput {
        output,
        ..input.clone()
    };
    let budget = random.pick(&[0, 1, 2, 3, 5, 8, 13, 21]);
    let answer = searched(&input, budget);
    check(random, call, &input, budget, &answer, counts)
}

fn searched(input: &HostInput, budget: u64) -> Result<Answer, Refusal> {
    opened_and_searched(&input.record, &input.decisions, budget, input.output)
}

/// The call says this and leaves every byte as it should.
fn check(
    random: &mut Random,
    call: CertainCall,
    input: &HostInput,
    budget: u64,
    answer: &Result<Answer, Refusal>,
    counts: &mut Counts,
) -> Outcome {
    let bytes = answer.as_ref().map_or(Vec::new(), Answer::bytes);
    let due = match answer {
        Err(refusal) => Due::refused(*refusal),
        Ok(answer) => Due {
            number: answer.number(),
            front: &bytes,
        },
    };
    let name = format!("the call for what is certain, budget {budget},");
    guarded::check(random, &name, input, due, |record, decisions, output| {
        call(record, decisions, budget, output)
    })?;
    counts.add(answer);
    Ok(())
}

/// Searches that are 1,024 decisions deep, in small stacks. Without an arrow each square has a reason
/// against it: 2,049 steps, and all cells are empty, unless a square is given. With an arrow behind all
/// other cells no reason is met before it is reached, and all these cells are one floating group, so that
/// the walk inside find is as deep as the search.
pub fn deepest(call: CertainCall) -> Outcome {
    let empty = plain(32, 32, vec![]);
    let mut given = empty.clone();
    given.codes[1_023] = Code::Given;
    let behind = plain(32, 32, vec![vec![1_022, 1_023]]);
    let answer = |certain, steps| Answer { certain, steps };
    let told = answer(Certain::Cells(vec![Fact::Empty; 1_024]), 2_049);
    let none = answer(Certain::NoBoard, 2_049);
    in_stack(STACK, call, &empty, u64::MAX, &told)?;
    in_stack(STACK, call, &empty, 2_048, &answer(Certain::Spent, 2_048))?;
    in_stack(STACK, call, &given, u64::MAX, &none)?;
    let spent = answer(Certain::Spent, 3_000);
    in_stack(STACK_WITH_ARROW, call, &behind, 3_000, &spent)
}

fn in_stack(
    bytes: usize,
    call: CertainCall,
    puzzle: &Puzzle,
    budget: u64,
    due: &Answer,
) -> Outcome {
    let record = encode(puzzle);
    let search = move || {
        let mut output = vec![0xAA; 8 + 1_024];
        let number = call(&record, &[], budget, &mut output);
        (number, output)
    };
    let thread = thread::Builder::new().stack_size(bytes).spawn(search);
    let thread = thread.map_err(|error| format!("no thread: {error}"))?;
    let found = thread.join().map_err(|_| "the thread ended by a panic")?;
    let mut output = due.bytes();
    output.resize(8 + 1_024, 0xAA);
    if found == (due.number(), output) {
        return Ok(());
    }
    let (number, output) = found;
    Err(format!(
        "{}\nbudget {budget}, in a small stack: it returns {number}, and the output begins {}",
        facts(puzzle, &[]),
        hexadecimal(&output[..16])
    ))
}

/// The calls for what is certain among those of `compare fuzz`, with random numbers of their own.
pub struct FuzzedCertain {
    call: CertainCall,
    random: Random,
    counts: Counts,
}

impl FuzzedCertain {
    pub fn new(seed: u64) -> Result<FuzzedCertain, String> {
        Ok(FuzzedCertain {
            call: CERTAIN_CALL.ok_or(MISSING)?,
            random: Random::new(seed),
            counts: Counts::default(),
        })
    }

    /// In one of twenty cases, since a search takes many steps.
    pub fn check(&mut self, input: &HostInput) -> Outcome {
        let random = &mut self.random;
        if random.percent(95) {
            return Ok(());
        }
        about_the_limit(random, self.call, input, &mut self.counts)
    }

    pub fn line(&self) -> String {
        self.counts.line()
    }
}
