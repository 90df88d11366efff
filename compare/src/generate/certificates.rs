//! Certificates that no SAT solver made: a search tree over the reading's find, and its branches as
//! steps. And damages of certificates.

use super::mutations::change;
use crate::random::Random;
use crate::reading::board::Cell;
use crate::reading::certificate::{base, closed, state, word_bytes, TAG};
use crate::reading::leaf::Leaf;
use crate::reading::Literal;

/// A search for finished boards: the lowest undecided cell, square and then empty, until a board is
/// closed or full.
pub enum Tree {
    Closed,
    /// A finished board.
    Finished(Vec<u8>),
    Split {
        cell: usize,
        square: Box<Tree>,
        empty: Box<Tree>,
    },
}

impl Tree {
    pub fn of(leaf: &Leaf) -> Tree {
        Tree::from(leaf, &mut base(&leaf.puzzle))
    }

    fn from(leaf: &Leaf, cells: &mut [Cell]) -> Tree {
        if closed(leaf, cells) {
            return Tree::Closed;
        }
        let undecided = |&cell: &Cell| cell == Cell::Undecided;
        let Some(cell) = cells.iter().position(undecided) else {
            let value = |&cell: &Cell| u8::from(cell == Cell::Square);
            return Tree::Finished(cells.iter().map(value).collect());
        };
        let [square, empty] = [1, 0].map(|value| {
            cells[cell] = state(value);
            let branch = Tree::from(leaf, cells);
            cells[cell] = Cell::Undecided;
            Box::new(branch)
        });
        Tree::Split {
            cell,
            square,
            empty,
        }
    }

    /// The finished boards, in the order of the search.
    pub fn boards(&self) -> Vec<Vec<u8>> {
        match self {
            Tree::Closed => Vec::new(),
            Tree::Finished(board) => vec![board.clone()],
            Tree::Split { square, empty, .. } => [square.boards(), empty.boards()].concat(),
        }
    }

    /// The certificate for a finished board. Where there is another one, the steps are written all the
    /// same, and are not to be accepted.
    pub fn draft(&self, leaf: &Leaf, solution: &[u8], shortened: bool) -> Draft {
        let mut drafting = Drafting {
            leaf,
            shortened,
            draft: Draft::claiming(solution),
        };
        let end = drafting.step(self, &mut Vec::new());
        let mut draft = drafting.draft;
        // the search's first board may be the only one already
        if end == 0 || !draft.steps[end].clause.is_empty() {
            draft.steps.push(Step {
                clause: Vec::new(),
                hints: vec![end],
            });
        }
        draft
    }
}

/// A clause, and as hints the numbers of steps.
#[derive(Clone, Debug)]
pub struct Step {
    pub clause: Vec<Literal>,
    pub hints: Vec<usize>,
}

/// A certificate by its steps, the claimed solution's first. Hints may be numbers of steps that there
/// are not.
#[derive(Clone, Debug)]
pub struct Draft {
    pub steps: Vec<Step>,
}

struct Drafting<'a> {
    leaf: &'a Leaf,
    /// Literals that a closed branch doesn't need are left out.
    shortened: bool,
    draft: Draft,
}

impl Drafting<'_> {
    /// The number of a step whose literals are all false behind the decisions.
    fn step(&mut self, tree: &Tree, decisions: &mut Vec<Literal>) -> usize {
        match tree {
            Tree::Finished(board) if self.draft.solution() == *board => 0,
            Tree::Closed | Tree::Finished(_) => {
                let clause = self.against(decisions);
                self.draft.push(clause, vec![])
            }
            Tree::Split {
                cell,
                square,
                empty,
            } => {
                let hints = [(square, 1), (empty, 0)].map(|(branch, value)| {
                    decisions.push((*cell, value));
                    let step = self.step(branch, decisions);
                    decisions.pop();
                    step
                });
                self.resolved(*cell, hints)
            }
        }
    }

    /// All decisions turned round, or those that are needed for the branch to be closed.
    fn against(&self, decisions: &[Literal]) -> Vec<Literal> {
        let mut kept = decisions.to_vec();
        let mut place = 0;
        while self.shortened && place < kept.len() {
            let spared = kept.remove(place);
            if !self.closes(&kept) {
                kept.insert(place, spared);
                place += 1;
            }
        }
        kept.iter()
            .map(|&(cell, value)| (cell, 1 - value))
            .collect()
    }

    fn closes(&self, decisions: &[Literal]) -> bool {
        let mut cells = base(&self.leaf.puzzle);
        for &(cell, value) in decisions {
            cells[cell] = state(value);
        }
        closed(self.leaf, &cells)
    }

    /// What follows of the cell from both of its values. A step that doesn't name the cell is enough by
    /// itself.
    fn resolved(&mut self, cell: usize, hints: [usize; 2]) -> usize {
        let clause_of = |hint: usize| &self.draft.steps[hint].clause;
        let names = |hint: usize| clause_of(hint).iter().any(|literal| literal.0 == cell);
        if let Some(&enough) = hints.iter().find(|&&hint| !names(hint)) {
            return enough;
        }
        let mut clause: Vec<Literal> = Vec::new();
        for literal in hints.iter().flat_map(|&hint| clause_of(hint)) {
            if literal.0 != cell && !clause.contains(literal) {
                clause.push(*literal);
            }
        }
        self.draft.push(clause, hints.to_vec())
    }
}

impl Draft {
    pub fn claiming(solution: &[u8]) -> Draft {
        let claim = solution.iter().map(|&value| 1 - value).enumerate();
        Draft {
            steps: vec![Step {
                clause: claim.collect(),
                hints: Vec::new(),
            }],
        }
    }

    pub fn solution(&self) -> Vec<u8> {
        let claim = self.steps[0].clause.iter();
        claim.map(|&(_, value)| 1 - value).collect()
    }

    fn push(&mut self, clause: Vec<Literal>, hints: Vec<usize>) -> usize {
        self.steps.push(Step { clause, hints });
        self.steps.len() - 1
    }

    /// The steps of words that are accepted.
    pub fn read(words: &[usize]) -> Draft {
        let mut steps = Vec::new();
        let mut places = Vec::new();
        let mut place = 0;
        while place < words.len() {
            let middle = place + 1 + (words[place] - TAG);
            let end = middle + 1 + words[middle];
            let literal = |&word: &usize| (word % 32_768, (word / 32_768) as u8);
            let number = |&hint: &usize| {
                let earlier = places.iter().position(|&place| place == hint);
                earlier.expect("a hint is the place of an earlier step")
            };
            steps.push(Step {
                clause: words[place + 1..middle].iter().map(literal).collect(),
                hints: words[middle + 1..end].iter().map(number).collect(),
            });
            places.push(place);
            place = end;
        }
        Draft { steps }
    }

    pub fn words(&self) -> Vec<usize> {
        let mut places = Vec::new();
        let mut place = 0;
        for step in &self.steps {
            places.push(place);
            place += 2 + step.clause.len() + step.hints.len();
        }
        let mut words = Vec::new();
        for step in &self.steps {
            words.push(TAG + step.clause.len());
            let word = |&(index, value): &Literal| 32_768 * usize::from(value) + index;
            words.extend(step.clause.iter().map(word));
            words.push(step.hints.len());
            // one that there is not is the place behind all
            let hint = |&hint: &usize| places.get(hint).copied().unwrap_or(place);
            words.extend(step.hints.iter().map(hint));
        }
        words
    }

    pub fn bytes(&self) -> Vec<u8> {
        word_bytes(&self.words())
    }
}

/// What is done to a certificate.
#[derive(Clone, Copy, Debug, PartialEq, Eq)]
pub enum Damage {
    Nothing,
    Bits,
    Bytes,
    Word,
    Solution,
    StepOut,
    StepsSwapped,
    StepAgain,
    StepsCut,
    HintOut,
    HintIn,
    HintOther,
    HintsSwapped,
    LiteralOut,
    LiteralIn,
    LiteralTurned,
    StepAbove,
}

impl Damage {
    pub const ALL: [Damage; 17] = [
        Damage::Nothing,
        Damage::Bits,
        Damage::Bytes,
        Damage::Word,
        Damage::Solution,
        Damage::StepOut,
        Damage::StepsSwapped,
        Damage::StepAgain,
        Damage::StepsCut,
        Damage::HintOut,
        Damage::HintIn,
        Damage::HintOther,
        Damage::HintsSwapped,
        Damage::LiteralOut,
        Damage::LiteralIn,
        Damage::LiteralTurned,
        Damage::StepAbove,
    ];

    /// The bytes of a certificate with this damage at some place; without it where it has no such place.
    pub fn done_to(self, random: &mut Random, draft: &Draft) -> Vec<u8> {
        let mut draft = draft.clone();
        match self {
            Damage::Bits => {
                let mut bytes = draft.bytes();
                for _ in 0..random.between(1, 3) {
                    let place = random.below(bytes.len());
                    bytes[place] ^= 1 << random.below(8);
                }
                return bytes;
            }
            Damage::Bytes => {
                let mut bytes = draft.bytes();
                change(random, &mut bytes);
                return bytes;
            }
            Damage::Word => {
                let mut words = draft.words();
                let place = random.below(words.len());
                words[place] = any_word(random, &words);
                return word_bytes(&words);
            }
            Damage::Nothing => {}
            Damage::Solution => {
                let cell = random.below(draft.steps[0].clause.len());
                let literal = &mut draft.steps[0].clause[cell];
                literal.1 = 1 - literal.1;
            }
            _ => self.done_to_steps(random, &mut draft.steps),
        }
        draft.bytes()
    }

    /// Damages of whole steps, of a step's hints and of its literals. The hints of the other steps stay
    /// the same steps.
    fn done_to_steps(self, random: &mut Random, steps: &mut Vec<Step>) {
        let number = random.between(1, steps.len() - 1);
        let some_hint = random.below(steps[number].hints.len().max(1));
        let some_literal = random.below(steps[number].clause.len().max(1));
        let cells = steps[0].clause.len();
        let step = &mut steps[number];
        match self {
            Damage::StepOut => {
                steps.remove(number);
                renumber(steps, |hint| hint - usize::from(hint > number));
            }
            Damage::StepsSwapped => {
                let other = random.between(1, steps.len() - 1);
                steps.swap(number, other);
                renumber(steps, |hint| match hint {
                    _ if hint == number => other,
                    _ if hint == other => number,
                    _ => hint,
                });
            }
            Damage::StepAgain => {
                let again = step.clone();
                steps.insert(number + 1, again);
                renumber(steps, |hint| hint + usize::from(hint > number));
            }
            Damage::StepsCut => steps.truncate(number),
            Damage::HintOut if !step.hints.is_empty() => drop(step.hints.remove(some_hint)),
            Damage::HintIn => step.hints.insert(some_hint, random.below(number + 3)),
            Damage::HintOther if !step.hints.is_empty() => {
                step.hints[some_hint] = random.below(number + 3);
            }
            Damage::HintsSwapped if !step.hints.is_empty() => {
                let other = random.below(step.hints.len());
                step.hints.swap(some_hint, other);
            }
            Damage::LiteralOut if !step.clause.is_empty() => {
                step.clause.remove(some_literal);
            }
            Damage::LiteralIn => {
                let literal = (random.below(cells + 1), random.below(2) as u8);
                step.clause.insert(some_literal, literal);
            }
            Damage::LiteralTurned if !step.clause.is_empty() => {
                let literal = &mut step.clause[some_literal];
                literal.1 = 1 - literal.1;
            }
            Damage::StepAbove => {
                // one step more, of any literals, behind which the others come
                let literals = random.below(3);
                let literal = |_| (random.below(cells), random.below(2) as u8);
                let clause = (0..literals).map(literal).collect();
                let hints = Vec::new();
                steps.insert(number, Step { clause, hints });
                renumber(steps, |hint| hint + usize::from(hint >= number));
            }
            _ => {}
        }
    }
}

fn renumber(steps: &mut [Step], new: impl Fn(usize) -> usize) {
    for hint in steps.iter_mut().flat_map(|step| &mut step.hints) {
        *hint = new(*hint);
    }
}

/// A word that may mean something.
fn any_word(random: &mut Random, words: &[usize]) -> usize {
    let other = words[random.below(words.len())];
    let small = random.below(words.len() + 2);
    let any = random.below(1 << 24);
    let tag = TAG + random.below(20);
    random.pick(&[
        other,
        other,
        small,
        small,
        tag,
        32_768 + small,
        65_535,
        65_536,
        TAG - 1,
        (1 << 24) - 1,
        any,
    ])
}
