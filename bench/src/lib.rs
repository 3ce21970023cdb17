//! The proved code beside the same algorithms in plain Rust, timed in one run. docs/BENCH.md says how to read the table.

#![forbid(unsafe_code)]

pub mod measure;
pub mod operations;
pub mod plain;
pub mod proved;
pub mod registers;
pub mod sides;
pub mod table;
