//! A command to a register, and the entry of a run that it stands in.

use crate::names::{Act, Layer, Office, Permission};
use crate::refusal::Refusal;

/// One command, as it is handed over: nothing of it is known to be in range, so any field may be
/// set to any number.
#[repr(C)]
#[derive(Clone, Copy, Debug, Default, PartialEq, Eq, Hash)]
pub struct Command {
    /// The code of the act.
    pub act: u8,
    /// The layer that the command is for.
    pub layer: Layer,
    /// The office that grants or deletes.
    pub by: Office,
    /// The office that it grants to, or whose grant it deletes.
    pub to: Office,
    /// The code of the permission for a grant, 0 for a deletion.
    pub perm: u8,
}

impl Command {
    /// A grant of a permission.
    pub fn grant(layer: Layer, by: Office, to: Office, permission: Permission) -> Command {
        Command {
            perm: permission.code(),
            ..Command::of(Act::Grant, layer, by, to)
        }
    }

    /// Weak local deletion of what `by` granted to `to`.
    pub fn wld(layer: Layer, by: Office, to: Office) -> Command {
        Command::of(Act::Wld, layer, by, to)
    }

    /// Weak global deletion of what `by` granted to `to`.
    pub fn wgd(layer: Layer, by: Office, to: Office) -> Command {
        Command::of(Act::Wgd, layer, by, to)
    }

    /// Strong local deletion of what `by` granted to `to`.
    pub fn sld(layer: Layer, by: Office, to: Office) -> Command {
        Command::of(Act::Sld, layer, by, to)
    }

    /// Strong global deletion of what `by` granted to `to`.
    pub fn sgd(layer: Layer, by: Office, to: Office) -> Command {
        Command::of(Act::Sgd, layer, by, to)
    }

    fn of(act: Act, layer: Layer, by: Office, to: Office) -> Command {
        Command {
            act: act.code(),
            layer,
            by,
            to,
            perm: 0,
        }
    }
}

/// The place for the answer to a command of a run: one byte, which says nothing until a run sets it.
#[repr(transparent)]
#[derive(Clone, Copy, Debug, PartialEq, Eq, Hash)]
pub struct Answer(u8);

impl Answer {
    /// What stands in the place before a run. No command answers with it.
    pub const UNANSWERED: Answer = Answer(255);

    /// The place with any byte in it, as memory that comes from C may have.
    pub fn from_byte(byte: u8) -> Answer {
        Answer(byte)
    }

    /// The byte as it stands.
    pub fn byte(self) -> u8 {
        self.0
    }

    /// Done or the refusal; none for a byte that no command answers with, as commands check 1 to
    /// 10 alone.
    pub fn outcome(self) -> Option<Result<(), Refusal>> {
        match self.0 {
            0 => Some(Ok(())),
            number @ 1..=10 => Refusal::from_number(number).map(Err),
            _ => None,
        }
    }
}

impl Default for Answer {
    fn default() -> Answer {
        Answer::UNANSWERED
    }
}

/// A command of a run, with the place for its answer. Whatever stands there before the run is
/// overwritten, unless the run is refused.
#[repr(C)]
#[derive(Clone, Copy, Debug, Default, PartialEq, Eq, Hash)]
pub struct Entry {
    /// The command.
    pub command: Command,
    /// The place for the answer.
    pub answer: Answer,
}

impl Entry {
    /// An entry of a run that is still to be done.
    pub fn new(command: Command) -> Entry {
        let answer = Answer::UNANSWERED;
        Entry { command, answer }
    }

    /// What the last run that was not refused answered to this command; none before there is one.
    pub fn outcome(self) -> Option<Result<(), Refusal>> {
        self.answer.outcome()
    }
}
