//! `compare steps`: what the search for certain cells costs. Steps a second, beside the original's
//! `find_inconsistency` driven by the same search; and how many steps the whole tree has, by size, with
//! black and given cells decided first and without.

use crate::generate::puzzles::square;
use crate::generate::solved::{solved, CODED};
use crate::host::{CertainCall, CERTAIN_CALL, MISSING};
use crate::original::{problem, Access, Problem, AT_HAND};
use crate::processor::{processor_time, Whose};
use crate::progress::{facts, Outcome};
use crate::random::Random;
use crate::reading::board::Cell;
use crate::reading::certain::{Answer, Certain, Fact};
use crate::reading::host::literal_bytes;
use crate::reading::record::{encode, Code, Puzzle};
use crate::reading::Literal;
use std::time::Duration;

/// Grids on which steps are timed, so many leaves of each, each with so many steps at most.
const TIMED_SIDES: [usize; 3] = [6, 8, 10];
const TIMED: usize = 20;
const TIMED_STEPS: u64 = 2_000;

/// Grids whose trees are walked, so many leaves of each, each with so many steps at most. Where no search
/// ends, larger ones are not tried.
const WALKED_SIDES: [usize; 6] = [3, 4, 5, 6, 7, 8];
const WALKED: usize = 11;
const WALKED_STEPS: u64 = 1_000_000;

pub fn run(seed: u64, rounds: usize) -> Outcome {
    let call = CERTAIN_CALL.ok_or(MISSING)?;
    println!(
        "{TIMED} leaves of each size, with a finished board, {CODED} percent of the cells black or given and decided first, \
         {TIMED_STEPS} steps at most"
    );
    println!("thousands of steps in a second of processor time, the best of {rounds} rounds");
    println!(
        "original: the same search on a kept constraint, by notify, undo and find_inconsistency"
    );
    println!("    size     steps  original   certain     ratio of the times");
    for side in TIMED_SIDES {
        println!("{}", timed(call, seed, side, rounds)?);
    }
    if !AT_HAND {
        println!("{}", crate::NOT_AT_HAND);
    }
    println!();
    println!(
        "steps of the whole tree: the least, the median and the most of {WALKED} such leaves, and how many of them have at most {WALKED_STEPS};"
    );
    println!("without black and given cells decided first, and with");
    let heads = format!(
        "{:>11}{:>11}{:>11}{:>8}",
        "least", "median", "most", "ended"
    );
    println!("    size{heads}{heads}");
    let mut ended = [true; 2];
    for side in WALKED_SIDES {
        let answers = walked(call, &leaves(seed, side, WALKED), ended)?;
        ended = answers
            .each_ref()
            .map(|answers| answers.iter().any(has_ended));
        let [without, with] = answers.map(columns);
        println!("{:>8}{without}{with}", format!("{side} x {side}"));
    }
    Ok(())
}

fn leaves(seed: u64, side: usize, count: usize) -> Vec<Puzzle> {
    let mut random = Random::new(seed);
    let leaf = |_| solved(&mut random, square(side));
    (0..count).map(leaf).collect()
}

/// A line of the first table. The two searches take turns, and must give the same answer.
fn timed(call: CertainCall, seed: u64, side: usize, rounds: usize) -> Result<String, String> {
    let leaf = |puzzle: Puzzle| Prepared {
        problem: problem(&puzzle),
        record: encode(&puzzle),
        decisions: puzzle.black_and_given(),
        puzzle,
    };
    let leaves: Vec<Prepared> = leaves(seed, side, TIMED).into_iter().map(leaf).collect();
    let mut steps = 0;
    for leaf in &leaves {
        let answer = leaf.called(call, TIMED_STEPS);
        steps += answer.steps;
        if AT_HAND && leaf.driven(TIMED_STEPS) != answer {
            let leaf = facts(&leaf.puzzle, &leaf.decisions);
            return Err(format!(
                "{leaf}\nthe search by the original is not {answer:?}"
            ));
        }
    }
    let mut best = [Duration::MAX; 2];
    for _ in 0..rounds {
        let original = AT_HAND.then(|| time(&leaves, |leaf| leaf.driven(TIMED_STEPS)));
        let times = [
            original.unwrap_or(Duration::MAX),
            time(&leaves, |leaf| leaf.called(call, TIMED_STEPS)),
        ];
        for (best, time) in best.iter_mut().zip(times) {
            *best = (*best).min(time);
        }
    }
    let thousands = |time: Duration| steps as f64 / time.as_secs_f64() / 1e3;
    let size = format!("{side} x {side}");
    let [original, certain] = best.map(thousands);
    Ok(match AT_HAND {
        true => format!(
            "{size:>8}{steps:>10}{original:>10.0}{certain:>10.0}{:>10.2}",
            original / certain
        ),
        false => format!("{size:>8}{steps:>10}{:>10}{certain:>10.0}{:>10}", "-", "-"),
    })
}

fn time(leaves: &[Prepared], search: impl Fn(&Prepared) -> Answer) -> Duration {
    let start = processor_time(Whose::Own);
    for leaf in leaves {
        std::hint::black_box(search(leaf));
    }
    processor_time(Whose::Own) - start
}

/// A leaf in the forms that the two searches take.
struct Prepared {
    puzzle: Puzzle,
    problem: Problem,
    record: Vec<u8>,
    decisions: Vec<Literal>,
}

impl Prepared {
    fn called(&self, call: CertainCall, budget: u64) -> Answer {
        called(call, &self.record, &self.decisions, budget)
    }

    /// The search by the original's constraint.
    fn driven(&self, budget: u64) -> Answer {
        let cells = self.puzzle.size.cells();
        let mut search = Driven {
            access: Access::new(&self.problem).expect("no arrow cell is used twice"),
            puzzle: &self.puzzle,
            cells: vec![Cell::Undecided; cells],
            facts: vec![None; cells],
            left: budget,
        };
        for &(cell, value) in &self.decisions {
            search.decide(cell, value == 1);
        }
        let whole = search.reach();
        let steps = budget - search.left;
        let told: Option<Vec<Fact>> = search.facts.into_iter().collect();
        let certain = match (whole, told) {
            (false, _) => Certain::Spent,
            (true, None) => Certain::NoBoard,
            (true, Some(facts)) => Certain::Cells(facts),
        };
        Answer { certain, steps }
    }
}

/// The answer of the call.
fn called(call: CertainCall, record: &[u8], decisions: &[Literal], budget: u64) -> Answer {
    let mut output = [u8::MAX; 8 + 1_024];
    let number = call(record, &literal_bytes(decisions), budget, &mut output);
    let (steps, cells) = output.split_at(8);
    let fact = |&byte: &u8| match byte {
        0 => Some(Fact::Empty),
        1 => Some(Fact::Square),
        2 => Some(Fact::Open),
        _ => None,
    };
    Answer {
        certain: match number {
            0 => Certain::Cells(cells.iter().map_while(fact).collect()),
            1 => Certain::NoBoard,
            2 => Certain::Spent,
            _ => panic!("refused: {number}"),
        },
        steps: u64::from_be_bytes(steps.try_into().expect("eight bytes")),
    }
}

/// The search on a constraint of the original that is kept, with the cells beside it.
struct Driven<'a> {
    access: Access,
    puzzle: &'a Puzzle,
    cells: Vec<Cell>,
    /// What the finished boards so far say.
    facts: Vec<Option<Fact>>,
    left: u64,
}

impl Driven<'_> {
    fn decide(&mut self, cell: usize, is_square: bool) {
        self.access.notify(cell, is_square);
        self.cells[cell] = match is_square {
            true => Cell::Square,
            false => Cell::Empty,
        };
    }

    /// Whether the budget is enough.
    fn reach(&mut self) -> bool {
        if self.left == 0 {
            return false;
        }
        self.left -= 1;
        if self.access.find_inconsistency().is_some() {
            return true;
        }
        let lowest = self.cells.iter().position(|&cell| cell == Cell::Undecided);
        let Some(lowest) = lowest else {
            if self.is_finished() {
                self.note();
            }
            return true;
        };
        let whole = [true, false].into_iter().all(|is_square| {
            self.decide(lowest, is_square);
            let whole = self.reach();
            self.access.undo();
            whole
        });
        self.cells[lowest] = Cell::Undecided;
        whole
    }

    /// A full board without a reason keeps the block rules.
    fn is_finished(&self) -> bool {
        let kept = |(&code, &cell): (&Code, &Cell)| match code {
            Code::Plain => true,
            Code::Black => cell == Cell::Empty,
            Code::Given => cell == Cell::Square,
        };
        let is_square = |&&cell: &&usize| self.cells[cell] == Cell::Square;
        let two_squares = |arrow: &Vec<usize>| arrow.iter().filter(is_square).count() >= 2;
        self.puzzle.codes.iter().zip(&self.cells).all(kept)
            && self.puzzle.arrows.iter().all(two_squares)
    }

    fn note(&mut self) {
        for (fact, &cell) in self.facts.iter_mut().zip(&self.cells) {
            let here = match cell {
                Cell::Square => Fact::Square,
                _ => Fact::Empty,
            };
            *fact = Some(match *fact {
                Some(before) if before != here => Fact::Open,
                _ => here,
            });
        }
    }
}

fn has_ended(answer: &Answer) -> bool {
    answer.certain != Certain::Spent
}

/// The answers without and with black and given cells decided first, as far as they are wanted. They tell
/// the same of the cells where both end.
fn walked(
    call: CertainCall,
    leaves: &[Puzzle],
    wanted: [bool; 2],
) -> Result<[Vec<Answer>; 2], String> {
    let way = |wanted, first: fn(&Puzzle) -> Vec<Literal>| -> Vec<Answer> {
        let search = |puzzle| called(call, &encode(puzzle), &first(puzzle), WALKED_STEPS);
        match wanted {
            true => leaves.iter().map(search).collect(),
            false => Vec::new(),
        }
    };
    let [without, with] = [
        way(wanted[0], |_| Vec::new()),
        way(wanted[1], Puzzle::black_and_given),
    ];
    for (puzzle, (one, other)) in leaves.iter().zip(without.iter().zip(&with)) {
        if has_ended(one) && has_ended(other) && one.certain != other.certain {
            let leaf = facts(puzzle, &[]);
            return Err(format!("{leaf}\nnot the same cells: {one:?}, {other:?}"));
        }
    }
    Ok([without, with])
}

/// The least, the median and the most steps, and how many of the searches ended.
fn columns(mut answers: Vec<Answer>) -> String {
    let ended = answers.iter().filter(|&answer| has_ended(answer)).count();
    answers.sort_by_key(|answer| (!has_ended(answer), answer.steps));
    let steps = |place: usize| match answers.get(place) {
        None => "-".to_string(),
        Some(answer) if has_ended(answer) => format!("{}", answer.steps),
        Some(answer) => format!("> {}", answer.steps),
    };
    let last = answers.len().saturating_sub(1);
    let [least, median, most] = [0, last / 2, last].map(steps);
    format!("{least:>11}{median:>11}{most:>11}{ended:>8}")
}
