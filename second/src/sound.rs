//! Sound registers.

use crate::chains::Holdings;
use crate::refusal::{check_size, refuse_if, Refusal};
use crate::register::Register;

/// The register those bytes stand for, after the checks 1, 2 and 3.
pub fn sound_register(cells: &[u8], n: u16, soa: u16) -> Result<Register, Refusal> {
    check_size(n, soa)?;
    let length = usize::from(n) * usize::from(n);
    refuse_if(cells.len() != length, Refusal::BufferLength)?;
    let register = Register::from_bytes(cells, n, soa).ok_or(Refusal::NotSound)?;
    refuse_if(!is_sound(&register), Refusal::NotSound)?;
    Ok(register)
}

/// That each cell is at most 15 is already known: it was read as a set.
pub fn is_sound(register: &Register) -> bool {
    let holdings = Holdings::of(register);
    register.records().iter().all(|record| {
        let diagonal = record.by == record.to;
        let in_soa_column = record.to == register.soa;
        !diagonal && !in_soa_column && holdings.entitled(record.by, record.permission)
    })
}

/// Soundness of a lent buffer, for callers who want no more than that.
pub fn sound(cells: &[u8], n: u16, soa: u16) -> bool {
    sound_register(cells, n, soa).is_ok()
}
