//! The functions of `crates/sound/src/lib.rt`.

use super::registers::Register;
use super::rights::{Header, Office, Refusal};
use super::{carrying, levels, registers};

fn sound_cell(register: &Register, levels: &[u8; 128], i: u16, j: u16) -> bool {
    let c = register.cell(Office(i), Office(j));
    if c == 0 {
        return true;
    }
    c <= 15
        && !registers::barred(register.header, Office(i), Office(j))
        && carrying::restrict(c, levels[i as usize]) == c
}

fn sound_row(register: &Register, levels: &[u8; 128], i: u16) -> bool {
    (0..register.header.n).all(|j| sound_cell(register, levels, i, j))
}

fn sound_by(register: &Register, levels: &[u8; 128]) -> bool {
    (0..register.header.n).all(|i| sound_row(register, levels, i))
}

pub fn register_refusal(cells: &[u8], header: Header) -> Result<(), Refusal> {
    if !registers::headed(header) {
        return Err(Refusal::NoHeader);
    }
    let Some(register) = Register::of(cells, header) else {
        return Err(Refusal::WrongLength);
    };
    if sound_by(&register, &levels::levels(cells, header)) {
        Ok(())
    } else {
        Err(Refusal::Unsound)
    }
}
