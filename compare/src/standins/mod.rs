//! What the original's text names from `cspuz_rs` and `cspuz_core`, just enough for it to compile.
//!
//! `EvolminoConstraint` is run, and `solve_evolmino` for the clauses that it adds: the solver keeps
//! them and solves nothing. The serializer is never called, so its bodies are left out.

pub mod custom_constraints;
pub mod graph;
pub mod serializer;
pub mod solver;
