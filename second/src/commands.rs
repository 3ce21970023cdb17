//! Commands with their refusals and tallies, and runs of commands.

use crate::chains::Holdings;
use crate::deletions::{sgd, sld, wgd, wld};
use crate::permission::Permission;
use crate::refusal::{refuse_if, Refusal, DONE};
use crate::register::{Record, Register};
use crate::sound::sound_register;

/// A command as it is lent, with the place for its answer.
#[derive(Clone, Copy, Debug, Default, PartialEq, Eq)]
pub struct Entry {
    pub act: u8,
    pub layer: u16,
    pub by: u16,
    pub to: u16,
    pub perm: u8,
    pub answer: u8,
}

/// The answer of a command or a run, and its tally.
#[derive(Clone, Copy, Debug, Default, PartialEq, Eq)]
pub struct Outcome {
    pub answer: u8,
    pub removed: u32,
    pub added: u32,
}

/// An act together with the perm that is allowed for it.
enum Act {
    Grant(Permission),
    Wld,
    Wgd,
    Sld,
    Sgd,
}

const LONGEST_RUN: usize = 256;

/// Carries one command out on the lent register, or refuses it and leaves the
/// register as it is.
#[allow(clippy::too_many_arguments)]
pub fn command(
    cells: &mut [u8],
    n: u16,
    soa: u16,
    layer: u16,
    act: u8,
    command_layer: u16,
    by: u16,
    to: u16,
    perm: u8,
) -> Outcome {
    let entry = Entry {
        act,
        layer: command_layer,
        by,
        to,
        perm,
        answer: DONE,
    };
    match before_and_after(cells, n, soa, layer, &entry) {
        Err(refusal) => Outcome {
            answer: refusal.number(),
            removed: 0,
            added: 0,
        },
        Ok((before, after)) => {
            cells.copy_from_slice(&after.to_bytes());
            tally(&before, &after)
        }
    }
}

/// Counts records that stand on one side only, however they came or went.
fn tally(before: &Register, after: &Register) -> Outcome {
    let (before, after) = (before.records(), after.records());
    Outcome {
        answer: DONE,
        removed: before.difference(&after).count() as u32,
        added: after.difference(&before).count() as u32,
    }
}

/// The checks 1 to 10 in order, and what the command makes of the register.
fn before_and_after(
    cells: &[u8],
    n: u16,
    soa: u16,
    layer: u16,
    entry: &Entry,
) -> Result<(Register, Register), Refusal> {
    let (by, to) = (entry.by, entry.to);
    let before = sound_register(cells, n, soa)?;
    let act = act_of(entry).ok_or(Refusal::ActOrPermission)?;
    refuse_if(entry.layer != layer, Refusal::OtherLayer)?;
    refuse_if(by >= n || to >= n, Refusal::OfficeNumber)?;
    refuse_if(by == to || to == soa, Refusal::SameOfficeOrSource)?;
    let after = match act {
        Act::Grant(permission) => grant(&before, Record { by, to, permission })?,
        Act::Wld => delete(&before, by, to, wld)?,
        Act::Wgd => delete(&before, by, to, wgd)?,
        Act::Sld => delete(&before, by, to, sld)?,
        Act::Sgd => delete(&before, by, to, sgd)?,
    };
    Ok((before, after))
}

fn act_of(entry: &Entry) -> Option<Act> {
    match (entry.act, entry.perm) {
        (0, perm) => Permission::from_code(perm).map(Act::Grant),
        (1, 0) => Some(Act::Wld),
        (2, 0) => Some(Act::Wgd),
        (3, 0) => Some(Act::Sld),
        (4, 0) => Some(Act::Sgd),
        _ => None,
    }
}

fn grant(before: &Register, record: Record) -> Result<Register, Refusal> {
    let entitled = Holdings::of(before).entitled(record.by, record.permission);
    refuse_if(!entitled, Refusal::NotEntitled)?;
    refuse_if(before.has(record), Refusal::RecordStands)?;
    let mut after = before.clone();
    after.add(record);
    Ok(after)
}

type Deletion = fn(&Register, u16, u16) -> Register;

fn delete(before: &Register, by: u16, to: u16, deletion: Deletion) -> Result<Register, Refusal> {
    refuse_if(before.cell(by, to).is_empty(), Refusal::CellEmpty)?;
    Ok(deletion(before, by, to))
}

/// Does what the commands one by one would do and sets each answer; the tally
/// is the sum of theirs.
pub fn run(cells: &mut [u8], n: u16, soa: u16, layer: u16, entries: &mut [Entry]) -> Outcome {
    if entries.len() > LONGEST_RUN {
        let answer = Refusal::RunTooLong.number();
        return Outcome {
            answer,
            removed: 0,
            added: 0,
        };
    }
    let mut whole = Outcome::default();
    for entry in entries {
        let Entry {
            act,
            layer: command_layer,
            by,
            to,
            perm,
            ..
        } = *entry;
        let one = command(cells, n, soa, layer, act, command_layer, by, to, perm);
        entry.answer = one.answer;
        whole.removed += one.removed;
        whole.added += one.added;
    }
    whole
}
