//! The rights register of document 01, for planners in Rust: one command, a run of commands, the
//! holding question, and the readers and writers of register text and command text.
//!
//! The work is done by the proved library. Offices and layers are types of their own, and a refusal
//! is an error with 01's number and words. Whatever is out of range may be handed over: refusing it
//! is the library's task, so headers and commands are plain data.

#![deny(unsafe_code)]
#![warn(missing_docs)]

mod calls;
mod command;
mod names;
#[allow(unsafe_code)]
pub mod raw;
mod refusal;

pub use calls::{command, holding, run};
pub use calls::{read_command, read_register, register_text, write_end, write_header, write_row};
pub use calls::{Chain, ReadCommand, ReadRegister};
pub use command::{Answer, Command, Entry};
pub use names::{Act, Header, Layer, Office, Perm, Permission, Tally};
pub use refusal::{Refusal, RefusedText};

/// Most offices of a register.
pub const MOST_OFFICES: usize = 128;

/// Most commands of a run.
pub const LONGEST_RUN: usize = 256;

/// Room that is enough for the text of any header, as the theorem `header_short` says.
pub const HEADER_TEXT: usize = 26;

/// Room that is enough for the text of any row, as the theorem `row_short` says.
pub const ROW_TEXT: usize = 11_264;

/// The length of the end line.
pub const END_TEXT: usize = 13;
