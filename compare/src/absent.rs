//! Stands where the original would, when its files are not at hand: the same names as in
//! `access.rs`. `Access::new` gives none, so nothing else is ever called.

use crate::reading::board::Cell;
use crate::reading::kinds::Kind;
use crate::reading::record::Puzzle;
use crate::reading::Literal;

pub struct Problem;

pub fn problem(_puzzle: &Puzzle) -> Problem {
    Problem
}

pub fn clauses(_problem: &Problem) -> Vec<Vec<(usize, bool)>> {
    unimplemented!()
}

#[derive(Clone)]
pub struct Access;

pub struct Simple;

pub struct Detailed;

impl Access {
    pub fn new(_problem: &Problem) -> Option<Access> {
        None
    }

    pub fn lazy_propagation(&self) -> bool {
        unimplemented!()
    }

    pub fn initialize_sat(&mut self, _num_inputs: usize) {
        unimplemented!()
    }

    pub fn notify(&mut self, _index: usize, _value: bool) {
        unimplemented!()
    }

    pub fn undo(&mut self) {
        unimplemented!()
    }

    pub fn find_inconsistency(&mut self) -> Option<Vec<(usize, bool)>> {
        unimplemented!()
    }

    pub fn cells(&self) -> Vec<Cell> {
        unimplemented!()
    }

    pub fn simple(&self) -> Simple {
        unimplemented!()
    }

    pub fn detailed(&self, _simple: &Simple) -> Detailed {
        unimplemented!()
    }

    pub fn kinds(&self, _detailed: &Detailed) -> Vec<Kind> {
        unimplemented!()
    }

    pub fn arrow_blocks(&self, _detailed: &Detailed) -> Vec<Vec<usize>> {
        unimplemented!()
    }

    pub fn reach(&self, _detailed: &Detailed, _block_id: usize) -> Vec<bool> {
        unimplemented!()
    }

    pub fn fence(&self, _detailed: &Detailed, _block_id: usize) -> Vec<Literal> {
        unimplemented!()
    }

    pub fn blocks(&self, _simple: &Simple) -> Vec<Vec<usize>> {
        unimplemented!()
    }

    pub fn potential_blocks(&self, _simple: &Simple) -> Vec<Vec<usize>> {
        unimplemented!()
    }
}
