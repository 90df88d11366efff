//! The sample leaf, leaves that the command line names, boards as text, and how an example ends.

// Each example takes what it needs of it.
#![allow(dead_code)]

use evolmino::{Leaf, Problem, ProblemCell, Record, Size};
use std::error::Error;
use std::path::PathBuf;
use std::process::ExitCode;
use std::{env, fs};

/// A plain cell is `.`, a black one `#`, a given square `O`.
const CELLS: [&str; 6] = ["..O...", "......", "....#.", "..O...", "......", ".....O"];

/// Each arrow from its tail on, as row and column of its first cell and its steps.
const ARROWS: [((usize, usize), &str); 3] =
    [((0, 5), "LDDDD"), ((3, 5), "DDLLU"), ((2, 0), "RRDD")];

/// The sample leaf.
pub fn sample() -> Problem {
    let cell = |cell: char| match cell {
        '#' => ProblemCell::Black,
        'O' => ProblemCell::Square,
        _ => ProblemCell::Empty,
    };
    let arrow = |&((y, x), steps): &((usize, usize), &str)| {
        let mut cells = vec![(y, x)];
        for step in steps.chars() {
            let (y, x) = cells[cells.len() - 1];
            cells.push(match step {
                'U' => (y - 1, x),
                'D' => (y + 1, x),
                'L' => (y, x - 1),
                _ => (y, x + 1),
            });
        }
        cells
    };
    Problem {
        cells: CELLS
            .iter()
            .map(|row| row.chars().map(cell).collect())
            .collect(),
        arrows: ARROWS.iter().map(arrow).collect(),
    }
}

/// What the command line names: the path of a certificate, and a leaf.
pub struct Named {
    pub certificate: PathBuf,
    record: Vec<u8>,
    edition: u32,
    sizes: Vec<Size>,
}

impl Named {
    /// `CERTIFICATE [RECORD [EDITION [CELL:LOWEST:HIGHEST ..]]]`, where `RECORD` is a file. Without it the leaf is the sample, and without
    /// `CERTIFICATE` that is a file in the folder for temporary ones.
    pub fn from_command_line() -> Result<Named, Box<dyn Error>> {
        let mut words = env::args().skip(1);
        let certificate = match words.next() {
            Some(path) => path.into(),
            None => env::temp_dir().join("sample.certificate"),
        };
        let record = match words.next() {
            Some(path) => fs::read(&path).map_err(|error| format!("{path}: {error}"))?,
            None => Record::new(&sample())?.bytes().to_vec(),
        };
        let edition = words.next().map_or(Ok(1), |word| word.parse())?;
        let sizes = words.map(|word| size(&word)).collect::<Result<_, _>>()?;
        Ok(Named {
            certificate,
            record,
            edition,
            sizes,
        })
    }

    pub fn leaf(&self) -> Leaf<'_> {
        Leaf::new(&self.record)
            .edition(self.edition)
            .sizes(&self.sizes)
    }

    /// The number of columns, by the record's second field of five bits.
    pub fn width(&self) -> usize {
        let byte = |place: usize| usize::from(self.record.get(place).copied().unwrap_or(0));
        (256 * byte(0) + byte(1)) / 64 % 32 + 1
    }
}

/// `CELL:LOWEST:HIGHEST`.
fn size(word: &str) -> Result<Size, Box<dyn Error>> {
    let numbers: Vec<&str> = word.split(':').collect();
    match numbers[..] {
        [cell, lowest, highest] => Ok((cell.parse()?, lowest.parse()?, highest.parse()?)),
        _ => Err(format!("{word} is not CELL:LOWEST:HIGHEST").into()),
    }
}

/// A row a line, `O` for a square.
pub fn board(cells: &[bool], width: usize) -> String {
    let row = |row: &[bool]| -> String {
        let cell = |&square: &bool| if square { 'O' } else { '.' };
        row.iter().map(cell).chain(['\n']).collect()
    };
    cells.chunks(width).map(row).collect()
}

/// What went wrong is said as it would be read: boards have their rows, which `main` would show in one line.
pub fn ended(outcome: Result<(), Box<dyn Error>>) -> ExitCode {
    match outcome {
        Ok(()) => ExitCode::SUCCESS,
        Err(error) => {
            eprintln!("{error}");
            ExitCode::FAILURE
        }
    }
}
