//! What is timed, one call at a time, by either side, over buffers that are made once.

use crate::plain::rights::{Command, Entry, Office};
use crate::registers::{Pair, Register, LAYER};
use crate::sides::{Side, RUST};

const TF: u8 = 4;
const PERMS: [u8; 4] = [8, 4, 2, 1];
const DELETIONS: [u8; 4] = [1, 2, 3, 4];
const NO_ACT: u8 = 5;
const RUN_LENGTH: usize = 256;
/// The lines of a record are 24 bytes at most, the header and the end line 40 together.
const RECORD_ROOM: usize = 24;
const OTHER_LINES_ROOM: usize = 40;

#[derive(Clone, Copy, Debug, PartialEq, Eq)]
pub enum Operation {
    Soundness,
    Grant,
    Wld,
    Wgd,
    Sld,
    Sgd,
    Question,
    Run,
    Read,
    Write,
}

pub const OPERATIONS: [Operation; 10] = [
    Operation::Soundness,
    Operation::Grant,
    Operation::Wld,
    Operation::Wgd,
    Operation::Sld,
    Operation::Sgd,
    Operation::Question,
    Operation::Run,
    Operation::Read,
    Operation::Write,
];

impl Operation {
    pub fn name(self) -> &'static str {
        match self {
            Operation::Soundness => "soundness",
            Operation::Grant => "grant",
            Operation::Wld => "WLD",
            Operation::Wgd => "WGD",
            Operation::Sld => "SLD",
            Operation::Sgd => "SGD",
            Operation::Question => "question",
            Operation::Run => "run of 256",
            Operation::Read => "read",
            Operation::Write => "write",
        }
    }
}

/// What a call answers: the number, and one or two counts, as records removed and added, offices of a chain, bytes of a text.
#[derive(Clone, Copy, Debug, PartialEq, Eq)]
pub struct Answer {
    pub number: u8,
    pub counts: [u64; 2],
}

/// The buffers that are lent to a side, and the register to start from.
#[derive(Clone, Debug, PartialEq, Eq)]
pub struct Desk {
    start: Register,
    pub cells: Vec<u8>,
    pub entries: Vec<Entry>,
    pub chain: Vec<u8>,
    pub text: Vec<u8>,
    pub room: Vec<u8>,
}

fn command(act: u8, at: Pair, perm: u8) -> Command {
    Command {
        act,
        layer: LAYER,
        by: at.by,
        to: at.to,
        perm,
    }
}

/// Grants and deletions of the spare cell by turns, every permission with every deletion: each is done, and the last one leaves
/// the register as it was.
fn run_of_256(at: Pair) -> Vec<Entry> {
    (0..RUN_LENGTH)
        .map(|k| {
            let (act, perm) = match k % 2 {
                0 => (0, PERMS[k / 8 % 4]),
                _ => (DELETIONS[k / 2 % 4], 0),
            };
            Entry {
                command: command(act, at, perm),
                answer: 0,
            }
        })
        .collect()
}

impl Desk {
    pub fn new(start: &Register) -> Desk {
        let records: u32 = start.cells.iter().map(|cell| cell.count_ones()).sum();
        let room = records as usize * RECORD_ROOM + OTHER_LINES_ROOM;
        let mut desk = Desk {
            start: start.clone(),
            cells: start.cells.clone(),
            entries: run_of_256(start.spare),
            chain: vec![0; usize::from(start.header.n)],
            text: Vec::new(),
            room: vec![0; room],
        };
        let written = desk.write(&RUST);
        desk.text = desk.room[..written.counts[0] as usize].to_vec();
        desk.room.fill(0);
        desk
    }

    /// One call, or for a whole text the calls that write it. What a call before it changed is put back first where this one
    /// would meet it.
    pub fn perform(&mut self, operation: Operation, side: &Side) -> Answer {
        let (cut, spare) = (self.start.cut, self.start.spare);
        match operation {
            Operation::Soundness => self.command(side, command(NO_ACT, cut, 0)),
            Operation::Grant => self.command(side, command(0, spare, TF)),
            Operation::Wld => self.command(side, command(1, cut, 0)),
            Operation::Wgd => self.command(side, command(2, cut, 0)),
            Operation::Sld => self.command(side, command(3, cut, 0)),
            Operation::Sgd => self.command(side, command(4, cut, 0)),
            Operation::Question => self.question(side),
            Operation::Run => self.run(side),
            Operation::Read => self.read(side),
            Operation::Write => self.write(side),
        }
    }

    fn put_back(&mut self) {
        self.cells.copy_from_slice(&self.start.cells);
    }

    fn command(&mut self, side: &Side, command: Command) -> Answer {
        self.put_back();
        let done = (side.command)(&mut self.cells, self.start.header, command);
        Answer {
            number: done.answer,
            counts: [u64::from(done.removed), u64::from(done.added)],
        }
    }

    fn question(&mut self, side: &Side) -> Answer {
        let start = &self.start;
        let held = (side.holding)(&start.cells, start.header, start.asked, TF, &mut self.chain);
        Answer {
            number: held.answer,
            counts: [u64::from(held.offices), 0],
        }
    }

    fn run(&mut self, side: &Side) -> Answer {
        self.put_back();
        let ran = (side.run)(&mut self.cells, self.start.header, &mut self.entries);
        Answer {
            number: ran.answer,
            counts: [ran.tally.removed, ran.tally.added],
        }
    }

    fn read(&mut self, side: &Side) -> Answer {
        let read = (side.read_register)(&self.text, &mut self.cells);
        Answer {
            number: read.answer,
            counts: [read.next as u64, u64::from(read.header.n)],
        }
    }

    fn write(&mut self, side: &Side) -> Answer {
        let (header, cells) = (self.start.header, &self.start.cells);
        let first = (side.write_header)(header, &mut self.room);
        let mut number = first.answer;
        let mut at = first.size;
        for row in 0..header.n {
            let written = (side.write_row)(cells, header, Office(row), &mut self.room[at..]);
            number = number.max(written.answer);
            at += written.size;
        }
        let last = (side.write_end)(&mut self.room[at..]);
        Answer {
            number: number.max(last.answer),
            counts: [(at + last.size) as u64, 0],
        }
    }
}
