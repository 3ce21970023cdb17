//! The functions of `crates/command_reader/src/lib.rt`.

use super::lines;
use super::lines::LineKind;
use super::rights::{Command, Layer, Office, Refusal};

#[repr(C)]
#[derive(Clone, Copy, Debug, PartialEq, Eq)]
pub struct CommandRead {
    pub answer: u8,
    pub at: usize,
    pub command: Command,
    pub next: usize,
}

fn five_lines(text: &[u8]) -> Result<(Command, usize), usize> {
    let Some((act, layer_at)) = lines::line(text, 0, LineKind::Act) else {
        return Err(0);
    };
    let Some((layer, by_at)) = lines::line(text, layer_at, LineKind::Layer) else {
        return Err(layer_at);
    };
    let Some((by, to_at)) = lines::line(text, by_at, LineKind::By) else {
        return Err(by_at);
    };
    let Some((to, perm_at)) = lines::line(text, to_at, LineKind::To) else {
        return Err(to_at);
    };
    let Some((perm, next)) = lines::line(text, perm_at, LineKind::Perm) else {
        return Err(perm_at);
    };
    let command = Command {
        act: act as u8,
        layer: Layer(layer),
        by: Office(by),
        to: Office(to),
        perm: perm as u8,
    };
    Ok((command, next))
}

pub fn read_command(text: &[u8]) -> CommandRead {
    match five_lines(text) {
        Ok((command, next)) => CommandRead {
            answer: 0,
            at: 0,
            command,
            next,
        },
        Err(at) => CommandRead {
            answer: Refusal::BadText.number(),
            at,
            command: Command::default(),
            next: text.len(),
        },
    }
}
