//! The entries of the archive as they are: numbers in, numbers out, a refusal as its number. All
//! that is unsafe stands here.
//!
//! Each function is safe, because a slice of Rust keeps what `rights.h` asks of a caller: its
//! pointer is valid for its length and never null, and what is lent to be written overlaps nothing
//! else.

use crate::command::{Command, Entry};
use crate::names::{Header, Office, Tally};

/// What a command answers: 0 or its refusal, and the records that it removed and added.
#[repr(C)]
#[derive(Clone, Copy, Debug, PartialEq, Eq)]
#[allow(missing_docs)]
pub struct Outcome {
    pub answer: u8,
    pub removed: u32,
    pub added: u32,
}

/// What a run answers: 0 or 16, and the tally of all its commands.
#[repr(C)]
#[derive(Clone, Copy, Debug, PartialEq, Eq)]
#[allow(missing_docs)]
pub struct Ran {
    pub answer: u8,
    pub tally: Tally,
}

/// What a holding question answers: 0 or the refusal, and of how many offices the chain is.
#[repr(C)]
#[derive(Clone, Copy, Debug, PartialEq, Eq)]
#[allow(missing_docs)]
pub struct Held {
    pub answer: u8,
    pub offices: u8,
}

/// What the register reader gives: 0 or the refusal, where the bad line starts, the header, and
/// where the rest starts.
#[repr(C)]
#[derive(Clone, Copy, Debug, PartialEq, Eq)]
#[allow(missing_docs)]
pub struct RegisterRead {
    pub answer: u8,
    pub at: usize,
    pub header: Header,
    pub next: usize,
}

/// What the command reader gives: 0 or 13, where the bad line starts, the command, and where the
/// rest starts.
#[repr(C)]
#[derive(Clone, Copy, Debug, PartialEq, Eq)]
#[allow(missing_docs)]
pub struct CommandRead {
    pub answer: u8,
    pub at: usize,
    pub command: Command,
    pub next: usize,
}

/// What a writer answers: 0 or the refusal, and the length of what it wrote.
#[repr(C)]
#[derive(Clone, Copy, Debug, PartialEq, Eq)]
#[allow(missing_docs)]
pub struct Written {
    pub answer: u8,
    pub size: usize,
}

extern "C" {
    fn rights_command(
        cells: *mut u8,
        cells_length: usize,
        header: Header,
        command: Command,
    ) -> Outcome;
    fn rights_run(
        cells: *mut u8,
        cells_length: usize,
        header: Header,
        entries: *mut Entry,
        entries_length: usize,
    ) -> Ran;
    fn rights_holding(
        cells: *const u8,
        cells_length: usize,
        header: Header,
        office: Office,
        perm: u8,
        chain: *mut u8,
        chain_length: usize,
    ) -> Held;
    fn rights_read_register(
        text: *const u8,
        text_length: usize,
        cells: *mut u8,
        cells_length: usize,
    ) -> RegisterRead;
    fn rights_read_command(text: *const u8, text_length: usize) -> CommandRead;
    fn rights_write_header(header: Header, room: *mut u8, room_length: usize) -> Written;
    fn rights_write_row(
        cells: *const u8,
        cells_length: usize,
        header: Header,
        row: Office,
        room: *mut u8,
        room_length: usize,
    ) -> Written;
    fn rights_write_end(room: *mut u8, room_length: usize) -> Written;
}

/// Entry `rights_command`.
pub fn command(cells: &mut [u8], header: Header, command: Command) -> Outcome {
    unsafe { rights_command(cells.as_mut_ptr(), cells.len(), header, command) }
}

/// Entry `rights_run`.
pub fn run(cells: &mut [u8], header: Header, entries: &mut [Entry]) -> Ran {
    let (room, many) = (entries.as_mut_ptr(), entries.len());
    unsafe { rights_run(cells.as_mut_ptr(), cells.len(), header, room, many) }
}

/// Entry `rights_holding`.
pub fn holding(cells: &[u8], header: Header, office: Office, perm: u8, chain: &mut [u8]) -> Held {
    let (room, many) = (chain.as_mut_ptr(), chain.len());
    unsafe {
        rights_holding(
            cells.as_ptr(),
            cells.len(),
            header,
            office,
            perm,
            room,
            many,
        )
    }
}

/// Entry `rights_read_register`.
pub fn read_register(text: &[u8], cells: &mut [u8]) -> RegisterRead {
    unsafe { rights_read_register(text.as_ptr(), text.len(), cells.as_mut_ptr(), cells.len()) }
}

/// Entry `rights_read_command`.
pub fn read_command(text: &[u8]) -> CommandRead {
    unsafe { rights_read_command(text.as_ptr(), text.len()) }
}

/// Entry `rights_write_header`.
pub fn write_header(header: Header, room: &mut [u8]) -> Written {
    unsafe { rights_write_header(header, room.as_mut_ptr(), room.len()) }
}

/// Entry `rights_write_row`.
pub fn write_row(cells: &[u8], header: Header, row: Office, room: &mut [u8]) -> Written {
    let (start, long) = (room.as_mut_ptr(), room.len());
    unsafe { rights_write_row(cells.as_ptr(), cells.len(), header, row, start, long) }
}

/// Entry `rights_write_end`.
pub fn write_end(room: &mut [u8]) -> Written {
    unsafe { rights_write_end(room.as_mut_ptr(), room.len()) }
}
