//! Solves a leaf with a stock SAT solver, which is run as a process. It gets the clauses of the leaf's sheet, and for each full board that it
//! proposes find's reason as one clause more, until there is none. `finished` then checks the board; and with a clause against it the search
//! goes on, to tell whether it is the only one.
//!
//!     cargo run --example solve [SOLVER]
//!
//! SOLVER is cadical or minisat, as Debian has them; without it the first that is found is taken.

mod leaf;

use evolmino::{clauses, dimacs, find, finished, Literal, Record};
use std::error::Error;
use std::io::{self, Write};
use std::process::{Command, Stdio};

/// Solvers, with the words behind which they read standard input and write to standard output.
const SOLVERS: [(&str, &[&str]); 2] = [
    ("cadical", &["-q"]),
    ("minisat", &["-verb=0", "/dev/stdin", "/dev/stdout"]),
];

fn main() -> Result<(), Box<dyn Error>> {
    let wanted = std::env::args().nth(1);
    let wanted = |name: &str| wanted.as_deref().is_none_or(|wanted| wanted == name);
    let mut solvers = SOLVERS.into_iter().filter(|(name, _)| wanted(name));
    let Some(solver) = solvers.find(|(name, _)| at_hand(name)) else {
        println!("no SAT solver is at hand: cadical or minisat, as Debian has them, would do");
        return Ok(());
    };

    let record = Record::new(&leaf::sample())?;
    let mut known = clauses(record.bytes())?;
    println!("{} clauses, for {}", known.len(), solver.0);
    let Some(solution) = next_solution(solver, &record, &mut known)? else {
        println!("{} clauses with the reasons: no solution", known.len());
        return Ok(());
    };
    println!("{} clauses with the reasons:", known.len());
    print_board(&record, &solution);
    // Some cell is otherwise.
    known.push(turned_round(&solution));
    let another = next_solution(solver, &record, &mut known)?;
    println!(
        "{} clauses with the reasons: it is {}",
        known.len(),
        match another {
            None => "the only solution",
            Some(_) => "not the only solution",
        }
    );
    Ok(())
}

/// Whether the program can be run.
fn at_hand(name: &str) -> bool {
    let mut command = Command::new(name);
    let quiet = command
        .arg("--help")
        .stdout(Stdio::null())
        .stderr(Stdio::null());
    quiet.status().is_ok()
}

/// A finished board that satisfies the clauses, if there is one. The reasons that are met on the way become clauses.
fn next_solution(
    solver: (&str, &[&str]),
    record: &Record,
    known: &mut Vec<Vec<Literal>>,
) -> Result<Option<Vec<Literal>>, Box<dyn Error>> {
    let cells = record.height() * record.width();
    while let Some(board) = proposed(solver, cells, known)? {
        let Some(reason) = find(record.bytes(), &board)? else {
            assert_eq!(finished(record.bytes(), &board), Ok(true));
            return Ok(Some(board));
        };
        known.push(turned_round(&reason));
    }
    Ok(None)
}

/// The clause that not all of these literals agree.
fn turned_round(literals: &[Literal]) -> Vec<Literal> {
    literals
        .iter()
        .map(|&(index, value)| (index, !value))
        .collect()
}

/// A full board that satisfies the clauses, by the solver, if there is one.
fn proposed(
    (name, words): (&str, &[&str]),
    cells: usize,
    clauses: &[Vec<Literal>],
) -> io::Result<Option<Vec<Literal>>> {
    let mut command = Command::new(name);
    let piped = command
        .args(words)
        .stdin(Stdio::piped())
        .stdout(Stdio::piped());
    let mut child = piped.stderr(Stdio::null()).spawn()?;
    let mut input = child.stdin.take().expect("it is piped");
    input.write_all(dimacs(cells, clauses).as_bytes())?;
    drop(input);
    let output = child.wait_with_output()?;
    // As all SAT solvers do: 10 for a solution, 20 for none.
    match output.status.code() {
        Some(10) => {}
        Some(20) => return Ok(None),
        _ => return Err(io::Error::other(format!("{name}: {}", output.status))),
    }
    // Variables by their number, negated for false; minisat says nothing of one that stands in no clause.
    let text = String::from_utf8_lossy(&output.stdout);
    let mut board: Vec<Literal> = (0..cells).map(|cell| (cell, false)).collect();
    for number in text
        .split_whitespace()
        .filter_map(|word| word.parse::<usize>().ok())
    {
        if number > 0 {
            board[number - 1].1 = true;
        }
    }
    Ok(Some(board))
}

fn print_board(record: &Record, board: &[Literal]) {
    let cells: Vec<bool> = board.iter().map(|&(_, square)| square).collect();
    print!("{}", leaf::board(&cells, record.width()));
}
