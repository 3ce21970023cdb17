//! The rights register of 01, written a second time from its words.
//!
//! It is there to be compared with the proved code, so it takes the slow and
//! plain way throughout: cells are sets, chains are searched for state by
//! state, and tallies are differences of sets of records.

#![forbid(unsafe_code)]

pub mod chains;
pub mod chains_by_length;
pub mod commands;
pub mod deletions;
pub mod lines;
pub mod permission;
pub mod question;
pub mod refusal;
pub mod register;
pub mod regrun;
pub mod sound;
pub mod text;

pub use commands::{command, run, Entry, Outcome};
pub use question::holding;
pub use regrun::regrun;
pub use text::{read_command, read_register, write_end, write_header, write_row};
pub use text::{ReadCommand, ReadRegister};
