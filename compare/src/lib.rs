//! Reduction steps on Petri nets: a checker for them, and a seeded generator of its inputs.

pub mod generator;
pub mod nets;
pub mod plain;
