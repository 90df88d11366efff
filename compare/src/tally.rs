//! How many boards of which reason and size were met.

use crate::reading::grid::Size;
use crate::reading::reasons::{Reason, Which};

/// Grids by their number of cells: up to each of these.
const CELLS: [usize; 5] = [4, 16, 64, 256, 1_024];

#[derive(Default)]
pub struct Tally {
    counts: [[usize; Tally::WITH_SIZES]; CELLS.len()],
}

impl Tally {
    /// None, and reasons 1, 2, 3, 4 (a) and 4 (b): all that a leaf without sizes can have.
    pub const COLUMNS: usize = 6;

    /// Behind them 5 for a reach below the lowest size, and 5 for a block above the highest.
    pub const WITH_SIZES: usize = Tally::COLUMNS + 2;

    pub const NAMES: [&'static str; Tally::WITH_SIZES] =
        ["none", "1", "2", "3", "4(a)", "4(b)", "5 low", "5 high"];

    pub fn add(&mut self, size: Size, reason: Option<&Reason>) {
        let row = CELLS.iter().position(|&most| size.cells() <= most);
        let row = row.expect("a grid has at most 1,024 cells");
        self.counts[row][Tally::column(reason)] += 1;
    }

    /// The column of a reason, 0 for none.
    pub fn column(reason: Option<&Reason>) -> usize {
        match reason.map(|reason| reason.which) {
            None => 0,
            Some(Which::One) => 1,
            Some(Which::Two) => 2,
            Some(Which::Three) => 3,
            Some(Which::FourA) => 4,
            Some(Which::FourB) => 5,
            Some(Which::FiveLow) => 6,
            Some(Which::FiveHigh) => 7,
        }
    }

    /// How many of none and of each reason there are in all.
    pub fn sums(&self) -> [usize; Tally::WITH_SIZES] {
        std::array::from_fn(|column| self.counts.iter().map(|row| row[column]).sum())
    }

    /// Reason 5 is left out where it was not met.
    fn columns(&self) -> usize {
        match self.sums()[Tally::COLUMNS..] {
            [0, 0] => Tally::COLUMNS,
            _ => Tally::WITH_SIZES,
        }
    }

    /// "1200 none, 300 of reason 1, ..."
    pub fn line(&self) -> String {
        let sums = self.sums();
        let reasons =
            (1..self.columns()).map(|c| format!(", {} of reason {}", sums[c], Tally::NAMES[c]));
        format!("{} none{}", sums[0], reasons.collect::<String>())
    }

    pub fn print(&self) {
        print!("{:>14}", "cells up to");
        for name in &Tally::NAMES[..self.columns()] {
            print!("{name:>9}");
        }
        println!();
        for (most, row) in CELLS.iter().zip(&self.counts) {
            if row.iter().all(|&count| count == 0) {
                continue;
            }
            print!("{most:>14}");
            for count in &row[..self.columns()] {
                print!("{count:>9}");
            }
            println!();
        }
    }
}
