//! `compare sizes`: the linked calls in an edition and with sizes, beside the reading. Random leaves with
//! lists that are good and lists that are damaged in every known way, and with other editions; lists of
//! a million numbers; small leaves, with every full board tried, in both editions; the calls without an
//! edition beside these in edition 1 and without sizes; the package's leaf; and searches in edition 2
//! that are as deep as can be. `compare fuzz` makes these calls too.

use super::certain::deepest;
use super::sized_beside::{package_leaf, Older};
use super::sized_calls::{good_input, Checker, Input};
use super::sized_small::Small;
use crate::generate::boards::{any_board, board_of_size, Decided};
use crate::generate::hosts::{host_input, HostInput};
use crate::generate::mutations::{change, mutated};
use crate::generate::puzzles::{any_size, each_cell, size_up_to, square};
use crate::generate::sizes::{any_sizes, long_lists, size_bytes, small_sizes, Damage, Ranges};
use crate::generate::small::{finished_leaves, freely_grown_leaves, small_puzzle};
use crate::host::{MISSING, PACKAGE_LEAF, WITH_CALLS};
use crate::progress::{repeatedly, Outcome};
use crate::random::Random;
use crate::reading::host::judged_with;
use crate::reading::leaf::Opening;
use crate::reading::reasons::most_literals;
use crate::reading::record::Puzzle;
use crate::reading::{Edition, Refusal};

/// Editions that there are not; some would be 1 or 2 in fewer bits.
const NO_EDITIONS: [u32; 8] = [0, 3, 255, 257, 258, 65_537, (1 << 31) + 2, u32::MAX];

/// So many leaves that are finished in edition 1, and so many in edition 2 alone.
const FINISHED: usize = 25;

/// So many random leaves for a small one whose full boards are all tried.
const FOR_A_SMALL_ONE: usize = 10;

pub fn run(seed: u64, count: usize) -> Outcome {
    let mut checker = Checker::new()?;
    let older = Older::new()?;
    let package = PACKAGE_LEAF.ok_or(MISSING)?;
    let mut orders = Orders::default();
    let mut random = Random::new(seed);
    let leaves = finished_in_each(&mut random);
    deepest(certain_in_2)?;
    long(&mut random, &mut checker)?;
    repeatedly("sizes", seed, count, |random| {
        let board = any_leaf(random, &leaves);
        let budget = random.below(20) as u64;
        let input = any_input(random, &board);
        orders.add(&input);
        checker.all_three(random, &input, budget)?;
        every_damage(random, &mut checker, &board, &mut orders)?;
        older.beside(random, &checker.calls, &input.host, budget)?;
        let mutation = mutated(random, &input.host);
        older.beside(random, &checker.calls, &mutation, budget)?;
        package_leaf(random, package, &board, budget)
    })?;
    let mut small = Small::default();
    for (edition, leaf) in &leaves {
        small.kept_and_missed(&mut random, &mut checker, *edition, leaf)?;
    }
    repeatedly(
        "sizes, full boards",
        seed,
        count.div_ceil(FOR_A_SMALL_ONE),
        |random| {
            let puzzle = small_puzzle(random);
            let sizes = small_sizes(random, &puzzle);
            for edition in Edition::BOTH {
                small.every_board(random, &mut checker, edition, &puzzle, &sizes)?;
            }
            Ok(())
        },
    )?;
    println!("{}", checker.counts.lines());
    println!("sizes: {count} leaves; {}", orders.line());
    println!("{}", small.line());
    if !checker.counts.met_all() || !orders.met_all() || !small.met_all() {
        return Err("not every case was met: more leaves are needed".to_string());
    }
    Ok(())
}

/// The call for what is certain in edition 2, for searches that are as deep as can be.
fn certain_in_2(record: &[u8], decisions: &[u8], budget: u64, output: &mut [u8]) -> i32 {
    let calls = WITH_CALLS.expect("the calls are linked");
    let leaf = Opening {
        edition: 2,
        ..Opening::of(record)
    };
    (calls.certain)(leaf, decisions, budget, output)
}

/// Leaves that are finished in edition 1, and leaves that are so in edition 2 alone.
fn finished_in_each(random: &mut Random) -> Vec<(Edition, Decided)> {
    let exactly_one = finished_leaves(random, FINISHED).into_iter();
    let one_or_more = freely_grown_leaves(random, FINISHED).into_iter();
    exactly_one
        .map(|leaf| (Edition::ExactlyOne, leaf))
        .chain(one_or_more.map(|leaf| (Edition::OneOrMore, leaf)))
        .collect()
}

/// Mostly small ones: the reading takes long for a step of a search on a large grid.
fn any_leaf(random: &mut Random, leaves: &[(Edition, Decided)]) -> Decided {
    match random.below(10) {
        0 => leaves[random.below(leaves.len())].1.clone(),
        1 => any_board(random),
        2 => {
            let size = any_size(random);
            board_of_size(random, size)
        }
        _ => {
            let size = size_up_to(random, 6);
            board_of_size(random, size)
        }
    }
}

pub fn any_edition(random: &mut Random) -> u32 {
    match random.percent(8) {
        true => random.pick(&NO_EDITIONS),
        false => random.pick(&[1, 2]),
    }
}

/// Good and damaged records, editions, sizes, decisions and outputs.
fn any_input(random: &mut Random, board: &Decided) -> Input {
    let good = any_sizes(random, board);
    let mut sizes = size_bytes(&good);
    match random.below(20) {
        0 => sizes.clear(),
        1..=3 => sizes = any_damage(random, &board.puzzle, &good),
        4 => change(random, &mut sizes),
        _ => {}
    }
    Input {
        host: host_input(random, board),
        edition: any_edition(random),
        sizes,
    }
}

pub fn any_damage(random: &mut Random, puzzle: &Puzzle, good: &[[u16; 3]]) -> Vec<u8> {
    loop {
        let damage = random.pick(&Damage::ALL);
        if let Some(bytes) = damage.done_to(random, puzzle, good) {
            return bytes;
        }
    }
}

/// Which damages were met, and which orders of refusals could be told.
#[derive(Default)]
struct Orders {
    damages: [usize; Damage::ALL.len()],
    /// A record that is refused before an edition or sizes that would be.
    record: [usize; 2],
    /// An edition that is refused before sizes that would be.
    edition: usize,
    /// Sizes that are refused before an output or decisions that would be.
    sizes: [usize; 2],
}

impl Orders {
    /// Counts the orders that an input can tell.
    fn add(&mut self, input: &Input) {
        let opening = input.opening();
        let refused = opening.leaf().err();
        let edition = Edition::numbered(input.edition).is_err();
        let without = Opening {
            sizes: &[],
            edition: 1,
            ..opening
        };
        match (refused, without.leaf()) {
            (Some(_), Err(_)) => {
                self.record[0] += usize::from(edition);
                // where a record is refused, only a list that ends inside a range is known to be bad
                self.record[1] += usize::from(!input.sizes.len().is_multiple_of(6));
            }
            (Some(Refusal::Edition), Ok(_)) => {
                let in_1 = Opening {
                    edition: 1,
                    ..opening
                };
                self.edition += usize::from(in_1.leaf().is_err());
            }
            (Some(_), Ok(leaf)) => {
                let short = 2 * most_literals(leaf.puzzle.size);
                let decided = judged_with(without, &input.host.decisions);
                self.sizes[0] += usize::from(input.host.output < short);
                self.sizes[1] += usize::from(decided.is_err());
            }
            (None, _) => {}
        }
    }

    fn met_all(&self) -> bool {
        let orders = [self.edition]
            .into_iter()
            .chain(self.record)
            .chain(self.sizes);
        orders.chain(self.damages).all(|count| count > 0)
    }

    fn line(&self) -> String {
        format!(
            "lists cut by 1 to 5 bytes, from 0, upside down, off an arrow, off the grid, falling, \
             with the same cell: {:?}; a record refused before an edition, before sizes: {:?}, \
             an edition before sizes: {}, sizes before an output, before decisions: {:?}",
            self.damages, self.record, self.edition, self.sizes
        )
    }
}

/// Each damage that can be done to a good list of a leaf, with everything else good: 22. With an edition
/// that there is not: 16.
fn every_damage(
    random: &mut Random,
    checker: &mut Checker,
    board: &Decided,
    orders: &mut Orders,
) -> Outcome {
    let good = any_sizes(random, board);
    for (place, damage) in Damage::ALL.into_iter().enumerate() {
        let Some(sizes) = damage.done_to(random, &board.puzzle, &good) else {
            continue;
        };
        for edition in [random.pick(&[1, 2]), random.pick(&NO_EDITIONS)] {
            let mut input = good_input(board, edition, sizes.clone());
            let due = match edition {
                1 | 2 => Refusal::Sizes,
                _ => Refusal::Edition,
            };
            // a short output and a fault in the decisions come behind
            if random.percent(20) {
                input.host.output = random.below(input.host.output);
            }
            if random.percent(20) {
                input.host.decisions.push(0);
            }
            orders.add(&input);
            let found = checker.find(random, &input)?;
            let finished = checker.finished(random, &input)?;
            let certain = checker.certain(random, &input, 1)?;
            if found != Err(due) || finished != Err(due) || certain != Err(due) {
                return Err(format!(
                    "{damage:?} of {good:?}, edition {edition}: the reading says {found:?}, \
                     {finished:?} and {certain:?}"
                ));
            }
        }
        orders.damages[place] += 1;
    }
    Ok(())
}

/// A range beside every cell of the largest grid is taken, also with the largest numbers; lists of a
/// million numbers are refused.
fn long(random: &mut Random, checker: &mut Checker) -> Outcome {
    let puzzle = each_cell(random, square(32));
    let board = Decided {
        puzzle,
        decisions: vec![(1_023, 1)],
    };
    let every = |lowest: u16, highest: u16| -> Ranges {
        (0..1_024).map(|cell| [cell, lowest, highest]).collect()
    };
    for edition in [1, 2] {
        for [lowest, highest] in [[1, 1], [1, 65_535], [1_024; 2], [1_025; 2], [65_535; 2]] {
            let sizes = size_bytes(&every(lowest, highest));
            let input = good_input(&board, edition, sizes);
            let found = checker.find(random, &input)?;
            // the reach is the whole grid
            let due = (lowest > 1_024).then_some(vec![(1_023, 1)]);
            if found
                .as_ref()
                .map(|reason| reason.as_ref().map(|it| it.literals.clone()))
                != Ok(due)
            {
                return Err(format!(
                    "{lowest} to {highest} beside every cell: the reading finds {found:?}"
                ));
            }
            let _ = checker.finished(random, &input)?;
            let _ = checker.certain(random, &input, 1)?;
        }
        for sizes in long_lists(random, &every(1, 1)) {
            let input = good_input(&board, edition, sizes);
            let found = checker.find(random, &input)?;
            let finished = checker.finished(random, &input)?;
            let certain = checker.certain(random, &input, 1)?;
            if found != Err(Refusal::Sizes)
                || finished != Err(Refusal::Sizes)
                || certain != Err(Refusal::Sizes)
            {
                return Err(format!("a list of {} bytes is taken", input.sizes.len()));
            }
        }
    }
    Ok(())
}

/// The calls with sizes among those of `compare fuzz`, with random numbers of their own.
pub struct FuzzedSizes {
    checker: Checker,
    random: Random,
}

impl FuzzedSizes {
    pub fn new(seed: u64) -> Result<FuzzedSizes, String> {
        Ok(FuzzedSizes {
            checker: Checker::new()?,
            random: Random::new(seed),
        })
    }

    /// The same input in some edition, with the sizes of its board before it was mutated, some of them
    /// mutated too. Find always, the others now and then.
    pub fn check(&mut self, board: &Decided, host: &HostInput) -> Outcome {
        let random = &mut self.random;
        let mut sizes = size_bytes(&any_sizes(random, board));
        if random.percent(40) {
            change(random, &mut sizes);
        }
        let input = Input {
            host: host.clone(),
            edition: any_edition(random),
            sizes,
        };
        match random.percent(5) {
            true => {
                let budget = random.below(10) as u64;
                self.checker.all_three(random, &input, budget)
            }
            false => self.checker.find(random, &input).map(|_| ()),
        }
    }

    pub fn line(&self) -> String {
        self.checker.counts.lines()
    }
}
