//! The functions of `crates/runs/src/lib.rt`.

use super::commands;
use super::rights::{Command, Entry, Header, Ran, Refusal, Tally};

fn take_in(cells: &mut [u8], header: Header, command: Command, tally: Tally) -> Ran {
    let done = commands::command(cells, header, command);
    Ran {
        answer: done.answer,
        tally: tally.taking_in(done.removed, done.added),
    }
}

pub fn run(cells: &mut [u8], header: Header, entries: &mut [Entry]) -> Ran {
    let mut tally = Tally::default();
    if 256 < entries.len() {
        return Ran {
            answer: Refusal::LongRun.number(),
            tally,
        };
    }
    for e in entries.iter_mut() {
        let taken = take_in(cells, header, e.command, tally);
        e.answer = taken.answer;
        tally = taken.tally;
    }
    Ran { answer: 0, tally }
}
