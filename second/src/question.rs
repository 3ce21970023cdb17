//! The question whether an office holds a permission, and by which chain.

use crate::chains::smallest_chain;
use crate::permission::Permission;
use crate::refusal::{refuse_if, Refusal, DONE};
use crate::sound::sound_register;

/// Gives the answer and the number of offices of the chain. The chain is
/// written at the start of the lent buffer; refused, the buffer stays.
pub fn holding(
    cells: &[u8],
    n: u16,
    soa: u16,
    office: u16,
    perm: u8,
    chain: &mut [u8],
) -> (u8, usize) {
    match chain_asked_for(cells, n, soa, office, perm, chain.len()) {
        Err(refusal) => (refusal.number(), 0),
        Ok(offices) => {
            for (place, office) in chain.iter_mut().zip(&offices) {
                *place = *office as u8; // n is at most 128
            }
            (DONE, offices.len())
        }
    }
}

/// The checks 1, 2, 3, 4, 6, 11 and 12 in this order.
fn chain_asked_for(
    cells: &[u8],
    n: u16,
    soa: u16,
    office: u16,
    perm: u8,
    chain_length: usize,
) -> Result<Vec<u16>, Refusal> {
    let register = sound_register(cells, n, soa)?;
    let permission = Permission::from_code(perm).ok_or(Refusal::ActOrPermission)?;
    refuse_if(office >= n, Refusal::OfficeNumber)?;
    refuse_if(chain_length < usize::from(n), Refusal::ChainBufferShort)?;
    smallest_chain(&register, office, permission).ok_or(Refusal::NotHeld)
}
