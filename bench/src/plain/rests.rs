//! The functions of `crates/rests/src/lib.rt`.

use super::command_reader::CommandRead;
use super::register_reader::RegisterRead;
use super::{command_reader, register_reader};

pub fn rest_from(text: &[u8], next: usize) -> &[u8] {
    &text[next.min(text.len())..]
}

pub fn register_rest<'a>(text: &'a [u8], read: RegisterRead) -> &'a [u8] {
    rest_from(text, read.next)
}

pub fn command_rest<'a>(text: &'a [u8], read: CommandRead) -> &'a [u8] {
    rest_from(text, read.next)
}

pub fn after_register<'a>(text: &'a [u8], cells: &mut [u8]) -> &'a [u8] {
    register_rest(text, register_reader::read_register(text, cells))
}

pub fn after_command(text: &[u8]) -> &[u8] {
    command_rest(text, command_reader::read_command(text))
}
