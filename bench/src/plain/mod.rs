//! The Rattle code once more in plain Rust: the same functions, loops and copies, without contracts. Each file is one crate of
//! `crates/`; `tests/same_code.rs` holds it to that crate, and `tests/beside_second.rs` holds what it answers to `second`.

// Written from the Rattle code by `tools/plain`, word by word, with parameters that only a contract reads.
#![allow(clippy::all, unused_variables)]

pub mod answers;
pub mod buffers;
pub mod carrying;
pub mod cells;
pub mod columns;
pub mod command_reader;
pub mod commands;
pub mod cuts;
pub mod frames;
pub mod holdings;
pub mod levels;
pub mod lines;
pub mod local;
pub mod numbers;
pub mod printing;
pub mod questions;
pub mod records;
pub mod refusals;
pub mod register_reader;
pub mod registers;
pub mod rests;
pub mod rights;
pub mod row_writer;
pub mod rows;
pub mod runs;
pub mod sound;
pub mod strong;
pub mod sweeping;
pub mod tally;

/// What says of a type what it stands for in proofs; there is nothing of it to run.
pub trait Model {}
