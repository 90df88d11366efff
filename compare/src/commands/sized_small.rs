//! Small leaves with sizes, in both editions, whose full boards are all tried: by the linked calls and by the
//! reading.

use super::certain::as_in_every_one;
use super::sized_calls::{good_input, Checker, Input};
use super::small::sound;
use crate::generate::boards::{board_of_puzzle, Decided};
use crate::generate::sizes::{as_read, kept_sizes, missed_sizes, size_bytes, Ranges};
use crate::generate::small::decisions;
use crate::progress::{hexadecimal, leaf_facts, Outcome};
use crate::random::Random;
use crate::reading::board::{Board, Cell};
use crate::reading::certain::{Answer, Certain};
use crate::reading::groups::block_rules_hold;
use crate::reading::leaf::Leaf;
use crate::reading::record::Puzzle;
use crate::reading::{Edition, Literal};
use crate::tally::Tally;

/// So many boards of a small leaf whose reasons are held against every full board.
const PARTLY: usize = 40;

/// Small leaves, whose full boards were all tried, by edition.
#[derive(Default)]
pub struct Small {
    leaves: [usize; 2],
    boards: [usize; 2],
    /// Full boards that meet the rules, and those that would without sizes.
    solved: [usize; 2],
    spoilt: [usize; 2],
    /// Reasons of a reach below the lowest and of a block above the highest, held against every full
    /// board.
    low: [usize; 2],
    high: [usize; 2],
    /// Finished boards that keep their sizes, and the same with one range that they miss.
    kept: [usize; 2],
    missed: [usize; 2],
}

impl Small {
    /// Every full board, reasons on partly decided ones, and cells that are certain.
    pub fn every_board(
        &mut self,
        random: &mut Random,
        checker: &mut Checker,
        edition: Edition,
        puzzle: &Puzzle,
        sizes: &Ranges,
    ) -> Outcome {
        let leaf = Leaf {
            puzzle: puzzle.clone(),
            edition,
            sizes: as_read(sizes),
        };
        let place = place(edition);
        let rules = self.every_full_board(random, checker, &leaf, sizes)?;
        for _ in 0..PARTLY {
            let board = board_of_puzzle(random, puzzle.clone());
            let input = leaf_input(&leaf, sizes, &board.decisions);
            let found = checker.find(random, &input)?;
            if let Ok(Some(reason)) = found {
                sound(&leaf, &board.decisions, &reason.literals, &rules)?;
                match Tally::column(Some(&reason)) {
                    6 => self.low[place] += 1,
                    7 => self.high[place] += 1,
                    _ => {}
                }
            }
        }
        let board = board_of_puzzle(random, puzzle.clone());
        let kept = random.below(board.decisions.len() / 2 + 1);
        told(random, checker, &leaf, sizes, &board.decisions[..kept])?;
        self.leaves[place] += 1;
        Ok(())
    }

    /// For each full board, by its number, whether the block rules hold. The call finds nothing exactly
    /// then, and says finished as the reading.
    fn every_full_board(
        &mut self,
        random: &mut Random,
        checker: &mut Checker,
        leaf: &Leaf,
        sizes: &Ranges,
    ) -> Result<Vec<bool>, String> {
        let place = place(leaf.edition);
        let cells = leaf.puzzle.size.cells();
        let without = Leaf::unsized_in(leaf.edition, &leaf.puzzle);
        let mut rules = Vec::new();
        for number in 0..1 << cells {
            let full = decisions(number, cells, 2);
            let input = leaf_input(leaf, sizes, &full);
            let board = Board::of_leaf(leaf, &full).cells();
            let hold = block_rules_hold(leaf, &board);
            let found = checker.find(random, &input)?;
            let finished = checker.finished(random, &input)?;
            if found != Ok(None) && hold || found == Ok(None) && !hold {
                return Err(format!(
                    "{}\nthe block rules: {hold}, find: {found:?}",
                    leaf_facts(leaf, &full)
                ));
            }
            if finished == Ok(true) && !hold {
                return Err(format!("{}\nit is finished", leaf_facts(leaf, &full)));
            }
            self.boards[place] += 1;
            self.solved[place] += usize::from(hold && board.contains(&Cell::Square));
            self.spoilt[place] += usize::from(!hold && block_rules_hold(&without, &board));
            rules.push(hold);
        }
        Ok(rules)
    }

    /// A leaf that is finished with sizes that it keeps, and is not where it misses one.
    pub fn kept_and_missed(
        &mut self,
        random: &mut Random,
        checker: &mut Checker,
        edition: Edition,
        leaf: &Decided,
    ) -> Outcome {
        let sizes = kept_sizes(random, leaf);
        let missed = missed_sizes(random, leaf, &sizes);
        let number = u32::from(edition.number());
        let kept = good_input(leaf, number, size_bytes(&sizes));
        let mut verdicts = vec![(kept, true)];
        self.kept[place(edition)] += 1;
        if let Some(missed) = missed {
            verdicts.push((good_input(leaf, number, size_bytes(&missed)), false));
            self.missed[place(edition)] += 1;
        }
        for (input, due) in verdicts {
            let finished = checker.finished(random, &input)?;
            let found = checker.find(random, &input)?.map(|reason| reason.is_none());
            let told = checker.certain(random, &input, 1)?;
            let cells = matches!(
                &told,
                Ok(Answer {
                    certain: Certain::Cells(_),
                    ..
                })
            );
            if finished != Ok(due) || found != Ok(due) || cells != due {
                return Err(format!(
                    "{}, edition {number}, sizes {}: finished is not {due}",
                    hexadecimal(&input.host.record),
                    hexadecimal(&input.sizes)
                ));
            }
        }
        Ok(())
    }

    pub fn met_all(&self) -> bool {
        let met = [
            self.solved,
            self.spoilt,
            self.low,
            self.high,
            self.kept,
            self.missed,
        ];
        met.into_iter().flatten().all(|count| count > 0)
    }

    pub fn line(&self) -> String {
        format!(
            "sizes: {:?} small leaves in editions 1 and 2 with {:?} full boards, {:?} with a square meet the rules, \
             {:?} would without sizes; reasons low {:?} and high {:?} held against them; finished boards that \
             keep their sizes {:?}, and miss one {:?}",
            self.leaves,
            self.boards,
            self.solved,
            self.spoilt,
            self.low,
            self.high,
            self.kept,
            self.missed
        )
    }
}

/// Edition 1 or 2 as a place.
fn place(edition: Edition) -> usize {
    usize::from(edition.number()) - 1
}

fn leaf_input(leaf: &Leaf, sizes: &Ranges, decisions: &[Literal]) -> Input {
    let board = Decided {
        puzzle: leaf.puzzle.clone(),
        decisions: decisions.to_vec(),
    };
    good_input(&board, leaf.edition.number().into(), size_bytes(sizes))
}

/// The call tells of each cell what every finished board has, of all full boards, with budgets about
/// the number of its steps.
fn told(
    random: &mut Random,
    checker: &mut Checker,
    leaf: &Leaf,
    sizes: &Ranges,
    decisions: &[Literal],
) -> Outcome {
    let answer = as_in_every_one(leaf, decisions)?;
    let input = leaf_input(leaf, sizes, decisions);
    for budget in [0, answer.steps - 1, answer.steps, u64::MAX] {
        let due = match answer.steps > budget {
            false => answer.clone(),
            true => Answer {
                certain: Certain::Spent,
                steps: budget,
            },
        };
        let told = checker.certain(random, &input, budget)?;
        if told.as_ref() != Ok(&due) {
            return Err(format!(
                "{}\nwithin {budget} the reading says {told:?} and not {due:?}",
                leaf_facts(leaf, decisions)
            ));
        }
    }
    Ok(())
}
