//! The two sides of the comparison, as tables of the same functions: both are called through a pointer, so that neither is
//! merged into the loop that times it.

use crate::plain::commands::Outcome;
use crate::plain::printing::Written;
use crate::plain::questions::Held;
use crate::plain::register_reader::RegisterRead;
use crate::plain::rights::{Command, Entry, Header, Office, Ran};
use crate::plain::{commands, frames, questions, register_reader, row_writer, runs};
use crate::proved;

pub struct Side {
    pub command: fn(&mut [u8], Header, Command) -> Outcome,
    pub run: fn(&mut [u8], Header, &mut [Entry]) -> Ran,
    pub holding: fn(&[u8], Header, Office, u8, &mut [u8]) -> Held,
    pub read_register: fn(&[u8], &mut [u8]) -> RegisterRead,
    pub write_header: fn(Header, &mut [u8]) -> Written,
    pub write_row: fn(&[u8], Header, Office, &mut [u8]) -> Written,
    pub write_end: fn(&mut [u8]) -> Written,
}

pub const RATTLE: Side = Side {
    command: proved::command,
    run: proved::run,
    holding: proved::holding,
    read_register: proved::read_register,
    write_header: proved::write_header,
    write_row: proved::write_row,
    write_end: proved::write_end,
};

pub const RUST: Side = Side {
    command: commands::command,
    run: runs::run,
    holding: questions::holding,
    read_register: register_reader::read_register,
    write_header: frames::write_header,
    write_row: row_writer::write_row,
    write_end: frames::write_end,
};
