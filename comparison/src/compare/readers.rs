//! The readers of register text and command text.

use super::lent::{kept, Lent};
use crate::calls::Call;
use crate::told::{Seen, Told};
use rights_register::raw;

/// Reads the text into the buffer as it is given, on both sides.
pub fn register(told: &mut Told, text: &[u8], buffer: &[u8]) -> Seen {
    let mut cells = buffer.to_vec();
    let read = second::read_register(text, &mut cells);
    let header = [read.n, read.soa, read.layer].map(u64::from);
    let places = [read.at as u64, read.rest_offset as u64];
    let theirs = Seen {
        answer: read.answer,
        numbers: [&places[..], &header].concat(),
        buffers: vec![kept(&cells), kept(text)],
    };
    let (mut cells, mut lent) = (Lent::of(buffer), Lent::of(text));
    let read = raw::read_register(lent.part(), cells.part());
    let header = [read.header.n, read.header.soa.0, read.header.layer.0].map(u64::from);
    let places = [read.at as u64, read.next as u64];
    let ours = Seen {
        answer: read.answer,
        numbers: [&places[..], &header].concat(),
        buffers: vec![cells.whole(), lent.whole()],
    };
    told.judge(Call::RegisterReader, &ours, &theirs, || {
        let room = buffer.len();
        format!("into {room} bytes \"{}\"", text.escape_ascii())
    });
    ours
}

/// Reads the command text on both sides, and gives where the rest starts.
pub fn command(told: &mut Told, text: &[u8]) -> usize {
    let read = second::read_command(text);
    let places = [read.at as u64, read.rest_offset as u64];
    let numbers = [read.layer, read.by, read.to].map(u64::from);
    let codes = [read.act, read.perm].map(u64::from);
    let theirs = Seen {
        answer: read.answer,
        numbers: [&places[..], &numbers, &codes].concat(),
        buffers: vec![kept(text)],
    };
    let mut lent = Lent::of(text);
    let read = raw::read_command(lent.part());
    let command = read.command;
    let places = [read.at as u64, read.next as u64];
    let numbers = [command.layer.0, command.by.0, command.to.0].map(u64::from);
    let codes = [command.act, command.perm].map(u64::from);
    let ours = Seen {
        answer: read.answer,
        numbers: [&places[..], &numbers, &codes].concat(),
        buffers: vec![lent.whole()],
    };
    told.judge(Call::CommandReader, &ours, &theirs, || {
        format!("\"{}\"", text.escape_ascii())
    });
    read.next
}
