//! Each proved call against its model on many random inputs, valid and damaged, and a check that a wrong call is told apart.

mod address_at;
mod addressgen;
mod bench_text;
mod chain;
mod delay;
mod delivery_time;
mod fields;
mod fifo;
mod lanes;
mod memory;
mod monitor;
mod monitor_records;
mod mux;
mod realign;
mod stream;
mod strobes;
mod wrong;
