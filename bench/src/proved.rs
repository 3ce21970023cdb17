//! The proved functions, by the binding, with the types of the port. A value is handed over field by field; only a run has a list of
//! them, whose 256 entries cost nothing that shows beside the run.

use crate::plain::commands::Outcome;
use crate::plain::printing::Written;
use crate::plain::questions::Held;
use crate::plain::register_reader::RegisterRead;
use crate::plain::rights::{Command, Entry, Header, Layer, Office, Ran, Tally};
use rights_register as binding;
use rights_register::raw;

fn header_lent(header: Header) -> binding::Header {
    binding::Header {
        n: header.n,
        soa: office_lent(header.soa),
        layer: binding::Layer(header.layer.0),
    }
}

fn office_lent(office: Office) -> binding::Office {
    binding::Office(office.0)
}

fn command_lent(command: Command) -> binding::Command {
    binding::Command {
        act: command.act,
        layer: binding::Layer(command.layer.0),
        by: office_lent(command.by),
        to: office_lent(command.to),
        perm: command.perm,
    }
}

fn entry_lent(entry: &Entry) -> binding::Entry {
    binding::Entry {
        command: command_lent(entry.command),
        answer: binding::Answer::from_byte(entry.answer),
    }
}

fn header_given(header: binding::Header) -> Header {
    Header {
        n: header.n,
        soa: Office(header.soa.0),
        layer: Layer(header.layer.0),
    }
}

fn written(given: raw::Written) -> Written {
    Written {
        answer: given.answer,
        size: given.size,
    }
}

pub fn command(cells: &mut [u8], header: Header, command: Command) -> Outcome {
    let done = raw::command(cells, header_lent(header), command_lent(command));
    Outcome {
        answer: done.answer,
        removed: done.removed,
        added: done.added,
    }
}

pub fn run(cells: &mut [u8], header: Header, entries: &mut [Entry]) -> Ran {
    let mut lent: Vec<binding::Entry> = entries.iter().map(entry_lent).collect();
    let ran = raw::run(cells, header_lent(header), &mut lent);
    for (entry, lent) in entries.iter_mut().zip(&lent) {
        entry.answer = lent.answer.byte();
    }
    Ran {
        answer: ran.answer,
        tally: Tally {
            removed: ran.tally.removed,
            added: ran.tally.added,
        },
    }
}

pub fn holding(cells: &[u8], header: Header, office: Office, perm: u8, chain: &mut [u8]) -> Held {
    let held = raw::holding(cells, header_lent(header), office_lent(office), perm, chain);
    Held {
        answer: held.answer,
        offices: held.offices,
    }
}

pub fn read_register(text: &[u8], cells: &mut [u8]) -> RegisterRead {
    let read = raw::read_register(text, cells);
    RegisterRead {
        answer: read.answer,
        at: read.at,
        header: header_given(read.header),
        next: read.next,
    }
}

pub fn write_header(header: Header, room: &mut [u8]) -> Written {
    written(raw::write_header(header_lent(header), room))
}

pub fn write_row(cells: &[u8], header: Header, row: Office, room: &mut [u8]) -> Written {
    written(raw::write_row(
        cells,
        header_lent(header),
        office_lent(row),
        room,
    ))
}

pub fn write_end(room: &mut [u8]) -> Written {
    written(raw::write_end(room))
}
