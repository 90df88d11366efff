//! A SAT solver, run as a process.

use crate::clauses::dimacs;
use crate::host::Literal;
use std::ffi::{OsStr, OsString};
use std::io::{ErrorKind, Write};
use std::process::{Command, Output, Stdio};
use std::thread;

use super::MakerError;

/// CaDiCaL, whatever it is called here. It is run without its preprocessing, so that each clause of its proof follows from those before
/// by unit propagation.
#[derive(Clone, Debug, PartialEq, Eq, Hash)]
pub struct Solver {
    program: OsString,
}

/// Clauses from standard input, proof and answer to standard output.
const WORDS: [&str; 5] = ["--plain", "--no-binary", "-q", "-", "-"];

/// So much of a solver's output stands in an error.
const SHOWN: usize = 400;

impl Solver {
    /// The program `cadical`, as Debian's package `cadical` installs it.
    pub fn cadical() -> Solver {
        Solver::at("cadical")
    }

    /// CaDiCaL under another name or path.
    pub fn at(program: impl AsRef<OsStr>) -> Solver {
        Solver {
            program: program.as_ref().into(),
        }
    }

    /// Whether there is such a program that can be run.
    pub fn at_hand(&self) -> bool {
        let mut command = Command::new(&self.program);
        let quiet = command.arg("--version").stdin(Stdio::null());
        let quiet = quiet.stdout(Stdio::null()).stderr(Stdio::null());
        quiet.status().is_ok()
    }

    /// A full board that satisfies the clauses, or the clauses of a proof that there is none.
    pub(super) fn solve(
        &self,
        cells: usize,
        clauses: &[Vec<Literal>],
    ) -> Result<Solved, MakerError> {
        let output = self.run(&dimacs(cells, clauses))?;
        let text = String::from_utf8_lossy(&output.stdout);
        // As all SAT solvers do: 10 for a solution, 20 for none.
        let read = match output.status.code() {
            Some(10) => board(cells, &text).map(Solved::Board),
            Some(20) => proof(cells, &text).map(Solved::Proof),
            _ => None,
        };
        read.ok_or_else(|| self.trouble(&output))
    }

    fn run(&self, text: &str) -> Result<Output, MakerError> {
        let mut command = Command::new(&self.program);
        let piped = command.args(WORDS).stdin(Stdio::piped());
        let piped = piped.stdout(Stdio::piped()).stderr(Stdio::piped());
        let started = piped.spawn();
        let mut child = started.map_err(|error| match error.kind() {
            ErrorKind::NotFound => MakerError::NoSolver(self.name()),
            _ => self.failed(&error.to_string()),
        })?;
        let input = child.stdin.take();
        // It may write before it has read everything. Where it stops reading, its status tells.
        let output = thread::scope(|scope| {
            scope.spawn(move || input.map(|mut input| input.write_all(text.as_bytes())));
            child.wait_with_output()
        });
        output.map_err(|error| self.failed(&error.to_string()))
    }

    fn name(&self) -> String {
        self.program.to_string_lossy().into_owned()
    }

    fn failed(&self, why: &str) -> MakerError {
        MakerError::Solver(format!("{}: {why}", self.name()))
    }

    /// What it wrote, where it is no answer.
    fn trouble(&self, output: &Output) -> MakerError {
        let shown = |bytes: &[u8]| -> String {
            let text = String::from_utf8_lossy(bytes);
            text.chars().take(SHOWN).collect()
        };
        let (said, warned) = (shown(&output.stdout), shown(&output.stderr));
        self.failed(&format!("{}\n{warned}{said}", output.status))
    }
}

pub(super) enum Solved {
    Board(Vec<bool>),
    Proof(Vec<Vec<Literal>>),
}

/// The cells by the lines of values: numbers from 1 on, negated for empty. None where one of them isn't told.
fn board(cells: usize, text: &str) -> Option<Vec<bool>> {
    let mut board = vec![None; cells];
    for line in text.lines().filter_map(|line| line.strip_prefix('v')) {
        for (cell, value) in literals(cells, line)? {
            board[cell] = Some(value);
        }
    }
    board.into_iter().collect()
}

/// The clauses that a proof adds, one a line. Those that it deletes may stay.
fn proof(cells: usize, text: &str) -> Option<Vec<Vec<Literal>>> {
    let added =
        |line: &&str| line.starts_with(|first: char| first == '-' || first.is_ascii_digit());
    let clause = |line: &str| literals(cells, line);
    text.lines().filter(added).map(clause).collect()
}

/// The literals of a line, whose last number may be 0.
fn literals(cells: usize, line: &str) -> Option<Vec<Literal>> {
    let mut literals = Vec::new();
    for word in line.split_whitespace() {
        let number: i64 = word.parse().ok()?;
        let variable = usize::try_from(number.unsigned_abs()).ok()?;
        match variable {
            0 => break,
            _ if variable > cells => return None,
            _ => literals.push((variable - 1, number > 0)),
        }
    }
    Some(literals)
}

#[cfg(test)]
mod tests {
    use super::*;

    #[test]
    fn lines() {
        let text = "-2 0\nd 1 -2 0\nc said\n1 3 0\n0\ns UNSATISFIABLE\n";
        let clauses = vec![vec![(1, false)], vec![(0, true), (2, true)], vec![]];
        assert_eq!(proof(3, text), Some(clauses));
        assert_eq!(proof(2, text), None);
        let text = "s SATISFIABLE\nv 1 -2\nv 3 0\n";
        assert_eq!(board(3, text), Some(vec![true, false, true]));
        assert_eq!(board(2, text), None);
        assert_eq!(board(4, text), None);
        assert_eq!(board(3, "v 1 x 2 0"), None);
    }

    #[test]
    fn no_such_program() {
        let none = Solver::at("/no/such/solver");
        assert!(!none.at_hand());
        let answer = none.solve(1, &[]).err();
        assert_eq!(answer, Some(MakerError::NoSolver("/no/such/solver".into())));
    }
}
