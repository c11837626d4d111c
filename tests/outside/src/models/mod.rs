//! Plain Rust models of every call, written from document 01 with its requests and from nothing else.

pub mod address_at;
pub mod addressgen;
pub mod bench_text;
pub mod chain;
pub mod fifo;
pub mod lanes;
pub mod memory;
pub mod monitor;
pub mod mux;
pub mod realign;
pub mod stream;
pub mod strobes;

/// How many cycles a trace may hold.
pub const MAX_CYCLES: usize = 65_536;

/// The refusals whose ground applies, in the given order.
fn applying<T: Copy>(table: &[(T, bool)]) -> Vec<T> {
    table.iter().filter(|row| row.1).map(|row| row.0).collect()
}

/// The earliest breach of a trace, and in its cycle the first rule in the given order.
fn earliest(breaches: &[(u8, Option<usize>)]) -> Option<(u8, usize)> {
    breaches
        .iter()
        .filter_map(|&(rule, cycle)| Some((rule, cycle?)))
        .min_by_key(|&(_, cycle)| cycle)
}
