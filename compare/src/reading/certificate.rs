//! The certificate that a leaf has one solution only: its steps, and when they are accepted.
//!
//! A certificate is words of three bytes, most significant first. A step is `TAG` + n, n literals, m, and
//! m hints, which are places of earlier steps. The first step says that the board differs from the claimed
//! solution, and the last one has no literal.

use super::board::{Board, Cell};
use super::finished::finished;
use super::leaf::{Leaf, Opening};
use super::reasons::find_reason;
use super::record::{Code, Puzzle};
use super::{Literal, Refusal};

/// What the first word of a step has beyond the number of its literals.
pub const TAG: usize = 8_388_608;

/// A literal is value × 32,768 + index.
const VALUE: usize = 32_768;

/// 1 for a certificate that is accepted, or the negated refusal number.
pub fn unique_call(opening: Opening, certificate: &[u8]) -> i32 {
    match certified(opening, certificate) {
        Err(refusal) => -i32::from(refusal.number()),
        Ok(_) => 1,
    }
}

/// The solution that the certificate shows to be the only one.
/// Refusals: 1 to 5, 16, 22, then 23 to 25, then per step 26 to 29, and 30.
pub fn certified(opening: Opening, certificate: &[u8]) -> Result<Vec<Literal>, Refusal> {
    let leaf = opening.leaf()?;
    let words = words(certificate)?;
    let solution = claimed(&leaf.puzzle, &words)?;
    if !finished(&Board::of_leaf(&leaf, &solution)) {
        return Err(Refusal::SolutionUnfinished);
    }
    let mut place = solution.len() + 2;
    loop {
        if place == words.len() {
            return Err(Refusal::CertificateEnd);
        }
        let step = Step::at(&words, place)?;
        step.check(&leaf, &words)?;
        place += 1 + step.clause.len() + 1 + step.hints.len();
        if step.clause.is_empty() {
            break;
        }
    }
    if place < words.len() {
        return Err(Refusal::CertificateEnd);
    }
    Ok(solution)
}

/// Whole words, and no more of them than 2^23.
pub fn words(certificate: &[u8]) -> Result<Vec<usize>, Refusal> {
    let whole = certificate.len().is_multiple_of(3);
    if !whole || certificate.len() / 3 > TAG {
        return Err(Refusal::CertificateLength);
    }
    let word = |bytes: &[u8]| {
        let [high, middle, low] = [bytes[0], bytes[1], bytes[2]].map(usize::from);
        65_536 * high + 256 * middle + low
    };
    Ok(certificate.chunks(3).map(word).collect())
}

/// The bytes of words.
pub fn word_bytes(words: &[usize]) -> Vec<u8> {
    let bytes = |&word: &usize| [word / 65_536, word / 256 % 256, word % 256];
    let numbers = words.iter().flat_map(bytes);
    numbers.map(|number| number as u8).collect()
}

/// The claimed solution: the first step has `TAG` and the number of cells, for each cell in order the
/// literal that the solution does not have, and 0.
fn claimed(puzzle: &Puzzle, words: &[usize]) -> Result<Vec<Literal>, Refusal> {
    let cells = puzzle.size.cells();
    if words.len() < cells + 2 || words[0] != TAG + cells || words[cells + 1] != 0 {
        return Err(Refusal::NoSolutionStep);
    }
    let mut solution = Vec::new();
    for cell in 0..cells {
        match literal(puzzle, words[1 + cell]) {
            Some((index, value)) if index == cell => solution.push((cell, 1 - value)),
            _ => return Err(Refusal::NoSolutionStep),
        }
    }
    Ok(solution)
}

/// The literal of a word, if it is one of the leaf.
fn literal(puzzle: &Puzzle, word: usize) -> Option<Literal> {
    let (index, value) = (word % VALUE, word / VALUE);
    (index < puzzle.size.cells() && value < 2).then_some((index, value as u8))
}

struct Step<'a> {
    place: usize,
    clause: &'a [usize],
    hints: &'a [usize],
}

impl Step<'_> {
    /// The whole step at a place.
    fn at(words: &[usize], place: usize) -> Result<Step<'_>, Refusal> {
        if words[place] < TAG {
            return Err(Refusal::StepCut);
        }
        let behind = &words[place + 1..];
        let literals = words[place] - TAG;
        if behind.len() < literals + 1 {
            return Err(Refusal::StepCut);
        }
        let (clause, behind) = behind.split_at(literals);
        let (hints, behind) = (behind[0], &behind[1..]);
        if behind.len() < hints {
            return Err(Refusal::StepCut);
        }
        Ok(Step {
            place,
            clause,
            hints: &behind[..hints],
        })
    }

    /// No finished board but the claimed solution has all literals of the clause false.
    fn check(&self, leaf: &Leaf, words: &[usize]) -> Result<(), Refusal> {
        let mut cells = base(&leaf.puzzle);
        self.assume(&leaf.puzzle, &mut cells)?;
        let clash = self.follow(&leaf.puzzle, words, &mut cells)?;
        match clash || closed(leaf, &cells) {
            true => Ok(()),
            false => Err(Refusal::NotClosed),
        }
    }

    /// Each literal of the clause is false; later ones overwrite.
    fn assume(&self, puzzle: &Puzzle, cells: &mut [Cell]) -> Result<(), Refusal> {
        if self.clause.len() > puzzle.size.cells() {
            return Err(Refusal::NotALiteral);
        }
        for &word in self.clause {
            let (index, value) = literal(puzzle, word).ok_or(Refusal::NotALiteral)?;
            cells[index] = state(1 - value);
        }
        Ok(())
    }

    /// Decides a cell by each hint in turn. Whether the last one clashes.
    fn follow(
        &self,
        puzzle: &Puzzle,
        words: &[usize],
        cells: &mut [Cell],
    ) -> Result<bool, Refusal> {
        for (number, &hint) in self.hints.iter().enumerate() {
            let clause = self.earlier(words, hint).ok_or(Refusal::Hint)?;
            let is_last = number + 1 == self.hints.len();
            match look(puzzle, clause, cells) {
                Look::Clash if is_last => return Ok(true),
                Look::Unit((index, value)) => cells[index] = state(value),
                _ => return Err(Refusal::Hint),
            }
        }
        Ok(false)
    }

    /// The clause of the earlier step at a place, if there is one.
    fn earlier<'a>(&self, words: &'a [usize], hint: usize) -> Option<&'a [usize]> {
        if hint >= self.place || words[hint] < TAG {
            return None;
        }
        let end = hint + 1 + (words[hint] - TAG);
        (end <= self.place).then(|| &words[hint + 1..end])
    }
}

/// A clause under the cells.
enum Look {
    /// All its literals are false.
    Clash,
    /// One is undecided, perhaps repeated, and all others are false.
    Unit(Literal),
    /// Some literal is true, or two different ones are undecided.
    Other,
}

fn look(puzzle: &Puzzle, clause: &[usize], cells: &[Cell]) -> Look {
    let mut undecided: Vec<Literal> = Vec::new();
    for &word in clause {
        let (index, value) = literal(puzzle, word).expect("its step was accepted");
        if cells[index] == state(value) {
            return Look::Other;
        }
        if cells[index] == Cell::Undecided && !undecided.contains(&(index, value)) {
            undecided.push((index, value));
        }
    }
    match undecided[..] {
        [] => Look::Clash,
        [literal] => Look::Unit(literal),
        _ => Look::Other,
    }
}

/// Whether find gives a reason, or some arrow is lonely.
pub fn closed(leaf: &Leaf, cells: &[Cell]) -> bool {
    find_reason(leaf, cells).is_some() || has_lonely_arrow(&leaf.puzzle, cells)
}

/// What the leaf decides: black cells are empty and given ones square.
pub fn base(puzzle: &Puzzle) -> Vec<Cell> {
    let cell = |code: &Code| match code {
        Code::Plain => Cell::Undecided,
        Code::Black => Cell::Empty,
        Code::Given => Cell::Square,
    };
    puzzle.codes.iter().map(cell).collect()
}

pub fn state(value: u8) -> Cell {
    match value {
        0 => Cell::Empty,
        _ => Cell::Square,
    }
}

/// Whether some arrow has fewer than two cells that are not empty (document 02 §1).
fn has_lonely_arrow(puzzle: &Puzzle, cells: &[Cell]) -> bool {
    let room = |arrow: &Vec<usize>| {
        let not_empty = arrow.iter().filter(|&&cell| cells[cell] != Cell::Empty);
        not_empty.count()
    };
    puzzle.arrows.iter().any(|arrow| room(arrow) < 2)
}

#[cfg(test)]
mod tests {
    use super::*;
    use crate::reading::record::{encode, plain};

    const SQUARE: usize = VALUE;

    /// The only finished board of a row of five cells with an arrow along its first four, the first of
    /// them given.
    const SOLUTION: [usize; 5] = [1, 0, 0, 1, 1];

    type Steps<'a> = Vec<(&'a [usize], &'a [usize])>;

    /// Behind the claimed solution, clauses and hints. They stand at 7, 10, 14, 18 and 23.
    fn steps() -> Steps<'static> {
        vec![
            // cell 1 is no square: beside cell 0 it would be one block with two arrow cells
            (&[1], &[]),
            // cells 2 and 3 are not both square
            (&[2, 3], &[]),
            // cell 2 is no square: its block couldn't grow to two
            (&[2], &[10]),
            // cell 3 is one: no other is left for the arrow
            (&[SQUARE + 3], &[7, 14]),
            // then cell 4 would be empty, and the block of cell 3 could not be larger than that of cell 0
            (&[], &[7, 14, 18, 0]),
        ]
    }

    fn written(solution: [usize; 5], steps: &Steps) -> Vec<usize> {
        let mut words = vec![TAG + 5];
        words.extend((0..5).map(|cell| cell + SQUARE * (1 - solution[cell])));
        words.push(0);
        for (clause, hints) in steps {
            words.push(TAG + clause.len());
            words.extend(*clause);
            words.push(hints.len());
            words.extend(*hints);
        }
        words
    }

    fn answer(words: &[usize]) -> i32 {
        let mut puzzle = plain(1, 5, vec![vec![0, 1, 2, 3]]);
        puzzle.codes[0] = Code::Given;
        unique_call(Opening::of(&encode(&puzzle)), &word_bytes(words))
    }

    /// The answer where one step is another.
    fn with(place: usize, clause: &[usize], hints: &[usize]) -> i32 {
        let mut steps = steps();
        steps[place] = (clause, hints);
        answer(&written(SOLUTION, &steps))
    }

    #[test]
    fn the_claimed_solution() {
        let words = written(SOLUTION, &steps());
        assert_eq!(answer(&words), 1);
        let bytes = word_bytes(&words);
        assert_eq!(super::words(&bytes), Ok(words.clone()));
        let cut = super::words(&bytes[..bytes.len() - 1]);
        assert_eq!(cut, Err(Refusal::CertificateLength));
        for place in 0..7 {
            let mut words = words.clone();
            words[place] += 1;
            assert_eq!(answer(&words), -24);
        }
        assert_eq!(answer(&words[..6]), -24);
        for cell in 0..5 {
            let mut other = SOLUTION;
            other[cell] = 1 - other[cell];
            assert_eq!(answer(&written(other, &steps())), -25);
        }
    }

    #[test]
    fn whole_steps_of_literals() {
        let words = written(SOLUTION, &steps());
        assert_eq!(answer(&words[..words.len() - 1]), -26);
        let mut none = words.clone();
        none[7] = 1;
        assert_eq!(answer(&none), -26);
        assert_eq!(with(0, &[5], &[]), -27);
        assert_eq!(with(0, &[2 * SQUARE + 1], &[]), -27);
        assert_eq!(with(0, &[1, 1, 1, 1, 1], &[]), -28);
        assert_eq!(with(0, &[1, 1, 1, 1, 1, 1], &[]), -27);
        // the later one counts, and with an empty cell 1 nothing is closed
        assert_eq!(with(0, &[1, SQUARE + 1], &[]), -29);
    }

    #[test]
    fn hints() {
        // no step, a later one, itself
        assert_eq!(with(2, &[2], &[8]), -28);
        assert_eq!(with(2, &[2], &[18]), -28);
        assert_eq!(with(2, &[2], &[14]), -28);
        // two cells that are undecided; a literal that is true
        assert_eq!(with(2, &[SQUARE + 1], &[10]), -28);
        assert_eq!(with(2, &[2], &[10, 10]), -28);
        // false, as the last one and before another
        let ending = |hints: &[usize]| {
            let mut steps = steps();
            steps[4] = (&[SQUARE + 4], &[7, 14, 18]);
            steps.push((&[], hints));
            answer(&written(SOLUTION, &steps))
        };
        assert_eq!(ending(&[7, 14, 18, 23, 0]), 1);
        assert_eq!(ending(&[7, 14, 18, 23, 0, 0]), -28);
        assert_eq!(ending(&[7, 14, 18, 23]), -29);
    }

    #[test]
    fn closed_and_ended() {
        assert_eq!(with(3, &[SQUARE + 3], &[7]), -29);
        assert_eq!(with(4, &[], &[7, 14, 18]), -29);
        let whole = written(SOLUTION, &steps());
        assert_eq!(answer(&whole[..23]), -30);
        assert_eq!(answer(&[&whole[..], &[0]].concat()), -30);
        assert_eq!(answer(&whole[..7]), -30);
    }
}
