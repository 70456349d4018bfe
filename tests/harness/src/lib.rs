//! Holds a library that plans, runs and converts, and gives its rounds, against the oracle, byte by
//! byte.

pub mod check;
mod drawn;
pub mod drive;
pub mod library;
pub mod raw;
pub mod render;
pub mod shrink;
pub mod tally;

#[cfg(test)]
mod self_test;
