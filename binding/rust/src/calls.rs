//! The calls with their answers as results.

use crate::command::{Command, Entry};
use crate::names::{Header, Office, Perm, Tally};
use crate::refusal::{Refusal, RefusedText};
use crate::{raw, END_TEXT, HEADER_TEXT, ROW_TEXT};

/// Carries out one command on the lent register and gives its tally. Refused, the register stays as
/// it is.
pub fn command(cells: &mut [u8], header: Header, command: Command) -> Result<Tally, Refusal> {
    let done = raw::command(cells, header, command);
    Refusal::unless_done(done.answer)?;
    Ok(Tally {
        removed: done.removed.into(),
        added: done.added.into(),
    })
}

/// Does what the commands one by one would do, sets each entry's answer, and gives the tally of
/// all. A run of more than 256 is refused and changes nothing.
pub fn run(cells: &mut [u8], header: Header, entries: &mut [Entry]) -> Result<Tally, Refusal> {
    let ran = raw::run(cells, header, entries);
    Refusal::unless_done(ran.answer)?;
    Ok(ran.tally)
}

/// A rooted chain that a holding question gave: the list of offices from SOA to the one asked for.
#[derive(Clone, Copy, Debug, PartialEq, Eq)]
pub struct Chain<'a>(&'a [u8]);

impl<'a> Chain<'a> {
    /// The offices of the chain, SOA first.
    pub fn offices(self) -> impl Iterator<Item = Office> + 'a {
        self.0.iter().map(|number| Office(u16::from(*number)))
    }

    /// The chain as it stands in the lent buffer, one byte an office.
    pub fn bytes(self) -> &'a [u8] {
        self.0
    }
}

/// Whether the office holds the permission, and by which chain: that of fewest links, and of those
/// the smallest list. The buffer must have room for n offices.
pub fn holding<'a>(
    cells: &[u8],
    header: Header,
    office: Office,
    perm: impl Into<Perm>,
    chain: &'a mut [u8],
) -> Result<Chain<'a>, Refusal> {
    let held = raw::holding(cells, header, office, perm.into().0, chain);
    Refusal::unless_done(held.answer)?;
    Ok(Chain(&chain[..usize::from(held.offices)]))
}

/// A register's header, and the unread part of the caller's text behind it.
#[derive(Clone, Copy, Debug, PartialEq, Eq)]
pub struct ReadRegister<'a> {
    /// The header; the first n·n bytes of the lent buffer are the cells.
    pub header: Header,
    /// The unread part of the text, where commands may follow.
    pub rest: &'a [u8],
}

/// Reads a register text into the lent buffer, and sets the rest of the buffer, or all of it where
/// the text is refused, to zero.
pub fn read_register<'a>(
    text: &'a [u8],
    cells: &mut [u8],
) -> Result<ReadRegister<'a>, RefusedText> {
    let read = raw::read_register(text, cells);
    let at = read.at;
    Refusal::unless_done(read.answer).map_err(|refusal| RefusedText { refusal, at })?;
    Ok(ReadRegister {
        header: read.header,
        rest: &text[read.next..],
    })
}

/// A command, and the unread part of the caller's text behind it.
#[derive(Clone, Copy, Debug, PartialEq, Eq)]
pub struct ReadCommand<'a> {
    /// The command.
    pub command: Command,
    /// The unread part of the text, where the next command may follow.
    pub rest: &'a [u8],
}

/// Reads the five lines of a command.
pub fn read_command(text: &[u8]) -> Result<ReadCommand<'_>, RefusedText> {
    let read = raw::read_command(text);
    let at = read.at;
    Refusal::unless_done(read.answer).map_err(|refusal| RefusedText { refusal, at })?;
    Ok(ReadCommand {
        command: read.command,
        rest: &text[read.next..],
    })
}

fn length_of(written: raw::Written) -> Result<usize, Refusal> {
    Refusal::unless_done(written.answer)?;
    Ok(written.size)
}

/// Writes the header at the start of the room and gives its length. [`HEADER_TEXT`] bytes are
/// enough.
pub fn write_header(header: Header, room: &mut [u8]) -> Result<usize, Refusal> {
    length_of(raw::write_header(header, room))
}

/// Writes the records that the office `row` granted and gives their length. [`ROW_TEXT`] bytes are
/// enough.
pub fn write_row(
    cells: &[u8],
    header: Header,
    row: Office,
    room: &mut [u8],
) -> Result<usize, Refusal> {
    length_of(raw::write_row(cells, header, row, room))
}

/// Writes the line behind the last row and gives its length, [`END_TEXT`].
pub fn write_end(room: &mut [u8]) -> Result<usize, Refusal> {
    length_of(raw::write_end(room))
}

/// The whole text of a register: header, rows 0 to n − 1, end.
pub fn register_text(cells: &[u8], header: Header) -> Result<Vec<u8>, Refusal> {
    let mut room = [0; ROW_TEXT];
    let mut text = Vec::with_capacity(HEADER_TEXT + END_TEXT);
    let length = write_header(header, &mut room)?;
    text.extend_from_slice(&room[..length]);
    for row in 0..header.n {
        let length = write_row(cells, header, Office(row), &mut room)?;
        text.extend_from_slice(&room[..length]);
    }
    let length = write_end(&mut room)?;
    text.extend_from_slice(&room[..length]);
    Ok(text)
}
