//! The proved calls of the bench tool, linked as a C library, and plain Rust models of the same calls.
//!
//! `tests/compare` holds the two against each other on random inputs; `src/bin/compare_speed.rs` times them.

pub mod answers;
pub mod lent;
pub mod linked;
pub mod models;
pub mod random;
pub mod states;
pub mod traces;
