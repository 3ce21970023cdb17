//! The calls that are compared, and the answers that 01 lets each of them give.

#[derive(Clone, Copy, Debug, PartialEq, Eq)]
pub enum Call {
    Command,
    Run,
    Question,
    RegisterReader,
    CommandReader,
    HeaderWriter,
    RowWriter,
    EndWriter,
    Program,
}

use Call::*;

pub const CALLS: [Call; 9] = [
    Command,
    Run,
    Question,
    RegisterReader,
    CommandReader,
    HeaderWriter,
    RowWriter,
    EndWriter,
    Program,
];

impl Call {
    pub fn name(self) -> &'static str {
        match self {
            Command => "command",
            Run => "run",
            Question => "holding",
            RegisterReader => "register",
            CommandReader => "command text",
            HeaderWriter => "header",
            RowWriter => "row",
            EndWriter => "end",
            Program => "regrun",
        }
    }

    /// The program's buffer has room for every register, so it never answers 2.
    pub fn answers(self) -> &'static [u8] {
        match self {
            Command => &[0, 1, 2, 3, 4, 5, 6, 7, 8, 9, 10],
            Run => &[0, 16],
            Question => &[0, 1, 2, 3, 4, 6, 11, 12],
            RegisterReader => &[0, 1, 2, 3, 6, 7, 13],
            CommandReader => &[0, 13],
            HeaderWriter => &[0, 1, 14],
            RowWriter => &[0, 1, 2, 3, 6, 14],
            EndWriter => &[0, 14],
            Program => &[0, 1, 3, 6, 7, 13, 15],
        }
    }
}
