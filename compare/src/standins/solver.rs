//! Stands in for `cspuz_rs::solver`: it solves nothing, and keeps the clauses that it is given.

use super::custom_constraints::PropagatorGenerator;
use std::cell::RefCell;
use std::ops::{BitAnd, Not};

/// An index with a value.
type Literal = (usize, bool);

#[derive(Clone)]
pub enum BoolExpr {
    /// A variable, by its place among those of the grid.
    Variable(usize),
    Not(Box<BoolExpr>),
    And(Box<BoolExpr>, Box<BoolExpr>),
    Any(Vec<BoolExpr>),
}

impl BoolExpr {
    /// The expression has this value exactly where one of these literals holds. They stand in the order
    /// in which the expression names them.
    fn literals(&self, value: bool) -> Vec<Literal> {
        match (self, value) {
            (BoolExpr::Variable(index), _) => vec![(*index, value)],
            (BoolExpr::Not(inner), _) => inner.literals(!value),
            (BoolExpr::And(left, right), false) => {
                [left.literals(false), right.literals(false)].concat()
            }
            (BoolExpr::Any(terms), true) => {
                terms.iter().flat_map(|term| term.literals(true)).collect()
            }
            (BoolExpr::And(..), true) | (BoolExpr::Any(_), false) => {
                panic!("the original adds an expression that is not a clause")
            }
        }
    }
}

impl Not for BoolExpr {
    type Output = BoolExpr;

    fn not(self) -> BoolExpr {
        BoolExpr::Not(Box::new(self))
    }
}

impl BitAnd for BoolExpr {
    type Output = BoolExpr;

    fn bitand(self, other: BoolExpr) -> BoolExpr {
        BoolExpr::And(Box::new(self), Box::new(other))
    }
}

/// One of the expressions holds; of none, none does.
pub fn any(expressions: Vec<BoolExpr>) -> BoolExpr {
    BoolExpr::Any(expressions)
}

pub struct BoolVarArray2D {
    width: usize,
}

impl BoolVarArray2D {
    pub fn at(&self, (y, x): (usize, usize)) -> BoolExpr {
        BoolExpr::Variable(y * self.width + x)
    }
}

pub struct Model;

impl Model {
    pub fn get(&self, _variables: &BoolVarArray2D) -> Vec<Vec<Option<bool>>> {
        unimplemented!()
    }
}

thread_local! {
    /// The clauses of the solver that was asked last.
    static ADDED: RefCell<Vec<Vec<Literal>>> = const { RefCell::new(Vec::new()) };
}

/// The clauses that were added, in order, to the solver that was asked last.
pub fn added() -> Vec<Vec<Literal>> {
    ADDED.take()
}

pub struct Solver {
    clauses: Vec<Vec<Literal>>,
}

impl Solver {
    pub fn new() -> Solver {
        Solver {
            clauses: Vec::new(),
        }
    }

    pub fn bool_var_2d(&mut self, (_, width): (usize, usize)) -> BoolVarArray2D {
        BoolVarArray2D { width }
    }

    pub fn add_answer_key_bool(&mut self, _variables: &BoolVarArray2D) {}

    pub fn add_expr(&mut self, expression: BoolExpr) {
        self.clauses.push(expression.literals(true));
    }

    /// The constraint is no clause: it is run by itself.
    pub fn add_custom_constraint(
        &mut self,
        _constraint: Box<dyn PropagatorGenerator>,
        _variables: &BoolVarArray2D,
    ) {
    }

    /// None, as if there were no solution.
    pub fn irrefutable_facts(self) -> Option<Model> {
        ADDED.set(self.clauses);
        None
    }
}
