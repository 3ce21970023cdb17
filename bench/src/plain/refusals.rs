//! The functions of `crates/refusals/src/lib.rt`.

use super::registers::Register;
use super::rights::{Act, Command, Header, Office, Permission, Refusal};
use super::{carrying, cells, levels, registers, sound};

fn well_formed(command: Command) -> Result<Act, Refusal> {
    let act = Act::try_from(command.act)?;
    let allowed = match act {
        Act::Grant => cells::is_code(command.perm),
        _ => command.perm == 0,
    };
    if allowed {
        Ok(act)
    } else {
        Err(Refusal::NoCommand)
    }
}

fn in_range(header: Header, by: Office, to: Office) -> bool {
    by.0 < header.n && to.0 < header.n
}

fn form_refusal(header: Header, command: Command) -> Result<Act, Refusal> {
    let act = well_formed(command)?;
    if command.layer != header.layer {
        return Err(Refusal::OtherLayer);
    }
    if !in_range(header, command.by, command.to) {
        return Err(Refusal::NoOffice);
    }
    if registers::barred(header, command.by, command.to) {
        return Err(Refusal::Barred);
    }
    Ok(act)
}

fn grant_refusal(register: &Register, command: Command) -> Result<(), Refusal> {
    let perm = Permission::decoded(command.perm);
    let levels = levels::levels(register.cells, register.header);
    if !carrying::suffices(levels[command.by.0 as usize], perm) {
        return Err(Refusal::NotEntitled);
    }
    if cells::stands(register.cell(command.by, command.to), perm) {
        return Err(Refusal::Standing);
    }
    Ok(())
}

fn deletion_refusal(register: &Register, command: Command) -> Result<(), Refusal> {
    if register.cell(command.by, command.to) == 0 {
        return Err(Refusal::EmptyCell);
    }
    Ok(())
}

pub fn refusal(cells: &[u8], header: Header, command: Command) -> Result<Act, Refusal> {
    sound::register_refusal(cells, header)?;
    let act = form_refusal(header, command)?;
    let register = Register { cells, header };
    match act {
        Act::Grant => grant_refusal(&register, command)?,
        _ => deletion_refusal(&register, command)?,
    }
    Ok(act)
}
