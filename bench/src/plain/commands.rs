//! The functions of `crates/commands/src/lib.rt`.

use super::buffers::Kept;
use super::rights::{Act, Command, Header};
use super::{cuts, local, refusals, strong, sweeping, tally};

#[repr(C)]
#[derive(Clone, Copy, Default, Debug, PartialEq, Eq)]
pub struct Outcome {
    pub answer: u8,
    pub removed: u32,
    pub added: u32,
}

fn carry_out(cells: &mut [u8], header: Header, act: Act, command: Command) {
    let by = command.by;
    let to = command.to;
    match act {
        Act::Grant => cuts::add_record(cells, header, by, to, command.perm),
        Act::WLD => local::wld(cells, header, by, to),
        Act::WGD => sweeping::wgd(cells, header, by, to),
        Act::SLD => local::sld(cells, header, by, to),
        Act::SGD => strong::sgd(cells, header, by, to),
    }
}

fn tallied(before: &[u8], after: &[u8], header: Header) -> Outcome {
    Outcome {
        answer: 0,
        removed: tally::missing(before, after, header),
        added: tally::missing(after, before, header),
    }
}

fn accepted(cells: &mut [u8], header: Header, act: Act, command: Command) -> Outcome {
    let mut before = Kept::new();
    before.keep(cells);
    carry_out(cells, header, act, command);
    tallied(before.cells(), cells, header)
}

pub fn command(cells: &mut [u8], header: Header, command: Command) -> Outcome {
    match refusals::refusal(cells, header, command) {
        Ok(act) => accepted(cells, header, act, command),
        Err(refusal) => Outcome {
            answer: refusal.number(),
            ..Outcome::default()
        },
    }
}
