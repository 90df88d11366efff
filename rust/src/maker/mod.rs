//! Makes certificates with a stock SAT solver. Nothing of it is proved, and nothing needs to be: what it makes goes to the library's check.

mod grounds;
mod proof;
mod solver;
mod steps;
mod walk;

use crate::clauses::clauses;
use crate::host::{Literal, Refusal};
use crate::leaf::Leaf;
use crate::unique::Certificate;
use grounds::Grounds;
use solver::Solved;
pub use solver::Solver;
use std::fmt;
use steps::{tidied, Draft};
use walk::{walk, Clauses, Random};

/// Why there is no certificate.
///
/// It may gain cases, so a `match` needs an arm for those that it doesn't name.
#[derive(Clone, Debug, PartialEq, Eq)]
#[non_exhaustive]
pub enum MakerError {
    /// The leaf can't be opened.
    Leaf(Refusal),
    /// The leaf has no finished board. That is the solver's word: its proof of it isn't looked at.
    NoSolution,
    /// It has more than one: two finished boards, a cell each in row order.
    NotUnique([Vec<bool>; 2]),
    /// There is no such program.
    NoSolver(String),
    /// The solver can't be run, or gives no answer: its name, its status and what it said.
    Solver(String),
    /// A clause of the solver's proof does not follow from those before it by unit propagation: its number.
    Proof(usize),
    /// The certificate would have more than 2^23 words.
    TooLong,
    /// The library refuses what was made. Then the maker is at fault, or the library.
    Refused(Refusal),
}

impl fmt::Display for MakerError {
    fn fmt(&self, f: &mut fmt::Formatter<'_>) -> fmt::Result {
        match self {
            MakerError::Leaf(refusal) => write!(f, "the leaf is {refusal}"),
            MakerError::NoSolution => write!(f, "the leaf has no solution"),
            MakerError::NotUnique(boards) => {
                let [one, another] = boards.each_ref().map(|board| line(board));
                write!(
                    f,
                    "the leaf has more than one solution: {one} and {another}"
                )
            }
            MakerError::NoSolver(name) => write!(
                f,
                "the SAT solver {name} is not at hand: `apt-get install cadical` installs one"
            ),
            MakerError::Solver(what) => write!(f, "the SAT solver gave no answer: {what}"),
            MakerError::Proof(number) => write!(
                f,
                "clause {number} of the SAT solver's proof does not follow by unit propagation"
            ),
            MakerError::TooLong => write!(f, "the certificate would have more than 2^23 words"),
            MakerError::Refused(refusal) => write!(f, "the certificate is {refusal}"),
        }
    }
}

impl std::error::Error for MakerError {}

/// A board in one line, `O` for a square.
fn line(board: &[bool]) -> String {
    board
        .iter()
        .map(|&cell| if cell { 'O' } else { '.' })
        .collect()
}

impl Leaf<'_> {
    /// A certificate that this leaf has one solution only, which [`Leaf::unique`] has accepted; or why there is none.
    ///
    /// The solver gets the clauses of [`clauses`](crate::clauses()), and for each full board that it proposes clauses of [`Leaf::find`]'s
    /// reasons more. The board that has no reason is the solution; with a clause against it the solver goes on until there is no board
    /// left. What its proof needs of these clauses becomes the certificate's steps. It ends on every leaf, but has no limit of time: most
    /// leaves of the size of a calendar's take less than a second, and one with few given cells and a second solution may take minutes.
    ///
    /// ```no_run
    /// use evolmino::{Leaf, Solver};
    ///
    /// # fn certificate(record: &[u8]) -> Result<(), evolmino::MakerError> {
    /// let leaf = Leaf::new(record).edition(2);
    /// let certificate = leaf.certify(&Solver::cadical())?;
    /// assert_eq!(leaf.unique(certificate.bytes()), Ok(()));
    /// # Ok(())
    /// # }
    /// ```
    pub fn certify(&self, solver: &Solver) -> Result<Certificate, MakerError> {
        self.accepted().map_err(MakerError::Leaf)?;
        let mut grounds = Grounds::new(self);
        let found = Found::by(self, &mut grounds, solver)?;
        let steps = found.steps(grounds.base().len())?;
        let steps = tidied(&mut grounds, steps).map_err(MakerError::Leaf)?;
        let written = steps[1..].iter().map(|step| (&step.clause, &step.hints));
        let certificate = Certificate::new(&found.solution, written).ok_or(MakerError::TooLong)?;
        self.unique(certificate.bytes())
            .map_err(MakerError::Refused)?;
        Ok(certificate)
    }
}

/// What a solver found: the only solution, clauses of which the one at `against` says that the board is another, and its proof that no
/// board satisfies them.
struct Found {
    solution: Vec<bool>,
    against: usize,
    clauses: Vec<Vec<Literal>>,
    proof: Vec<Vec<Literal>>,
}

impl Found {
    fn by(leaf: &Leaf, grounds: &mut Grounds, solver: &Solver) -> Result<Found, MakerError> {
        let cells = grounds.base().len();
        let mut clauses = sheet(leaf, grounds).map_err(MakerError::Leaf)?;
        let mut random = Random::new();
        let mut solution: Option<(Vec<bool>, usize)> = None;
        loop {
            let mut board = match solver.solve(cells, &clauses.all)? {
                Solved::Board(board) => board,
                Solved::Proof(proof) => {
                    let (solution, against) = solution.ok_or(MakerError::NoSolution)?;
                    return Ok(Found {
                        solution,
                        against,
                        clauses: clauses.all,
                        proof,
                    });
                }
            };
            keep(grounds, &mut board);
            let has_none = walk(grounds, &mut clauses, &mut board, &mut random);
            if !has_none.map_err(MakerError::Leaf)? {
                continue;
            }
            if let Some((first, _)) = solution {
                return Err(MakerError::NotUnique([first, board]));
            }
            let literals: Vec<Literal> = board.iter().map(|&cell| !cell).enumerate().collect();
            // A board keeps what the leaf decides.
            let clause = grounds.left_of(&literals).unwrap_or_default();
            solution = Some((board, clauses.all.len()));
            clauses.push(clause);
        }
    }

    /// The steps that the proof needs, the solution's first.
    fn steps(&self, cells: usize) -> Result<Vec<Draft>, MakerError> {
        let front = self.clauses.len();
        let mut all = self.clauses.clone();
        all.extend(self.proof.iter().cloned());
        let needed = proof::needed(cells, front, &all)
            .map_err(|number| MakerError::Proof(number - front.min(number)))?;
        let mut number_of = vec![0; all.len() + 1];
        let mut steps = vec![Draft {
            clause: self.clauses[self.against].clone(),
            hints: Vec::new(),
        }];
        for step in needed {
            if step.number == self.against {
                continue;
            }
            number_of[step.number] = steps.len();
            steps.push(Draft {
                clause: all.get(step.number).cloned().unwrap_or_default(),
                hints: step.hints.iter().map(|&hint| number_of[hint]).collect(),
            });
        }
        Ok(steps)
    }
}

/// The clauses of the leaf's sheet, but for what its black and given cells decide.
fn sheet(leaf: &Leaf, grounds: &Grounds) -> Result<Clauses, Refusal> {
    let (record, _, _) = leaf.parts();
    let mut left = Clauses::new(grounds.base().len());
    for clause in clauses(record)? {
        if let Some(clause) = grounds.left_of(&clause) {
            left.push(clause);
        }
    }
    Ok(left)
}

/// The board with what the leaf decides, of which the solver doesn't know.
fn keep(grounds: &Grounds, board: &mut [bool]) {
    for (cell, decided) in board.iter_mut().zip(grounds.base()) {
        *cell = decided.unwrap_or(*cell);
    }
}
