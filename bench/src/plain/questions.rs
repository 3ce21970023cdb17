//! The functions of `crates/questions/src/lib.rt`.

use super::registers::Register;
use super::rights::{Header, Office, Permission, Refusal};
use super::{carrying, cells, sound};

#[repr(C)]
#[derive(Clone, Copy, Debug, PartialEq, Eq)]
pub struct Held {
    pub answer: u8,
    pub offices: u8,
}

fn passing_on(perm: Permission) -> Permission {
    match perm {
        Permission::TT | Permission::FT => Permission::TT,
        Permission::TF | Permission::FF => Permission::TF,
    }
}

fn link_into(register: &Register, perm: Permission, set: &[bool; 128], x: u16, y: u16) -> bool {
    set[y as usize] && carrying::carries_as(register.cell(Office(x), Office(y)), perm)
}

#[inline(never)]
fn first_into(register: &Register, perm: Permission, set: &[bool; 128], x: u16) -> u16 {
    let n = register.header.n;
    (0..n)
        .find(|&y| link_into(register, perm, set, x, y))
        .unwrap_or(n)
}

#[inline(never)]
fn nearer(register: &Register, perm: Permission, set: &[bool; 128]) -> [bool; 128] {
    let n = register.header.n;
    let mut near = [false; 128];
    for x in 0..n {
        near[x as usize] = first_into(register, perm, set, x) < n;
    }
    near
}

fn single(register: &Register, office: Office) -> [bool; 128] {
    let mut set = [false; 128];
    set[office.0 as usize] = true;
    set
}

fn fewest(register: &Register, perm: Permission, set: &[bool; 128]) -> Option<u16> {
    let mut near = *set;
    let mut reading = perm;
    for links in 0..register.header.n {
        if near[register.header.soa.0 as usize] {
            return Some(links);
        }
        near = nearer(register, reading, &near);
        reading = passing_on(perm);
    }
    None
}

fn put(chain: &mut [u8], at: u16, office: u16) {
    chain[at as usize] = office as u8;
}

fn write(
    register: &Register,
    perm: Permission,
    links: u16,
    set: &[bool; 128],
    chain: &mut [u8],
) -> u16 {
    if links == 0 {
        let soa = register.header.soa.0;
        put(chain, links, soa);
        return soa;
    }
    let near = nearer(register, perm, set);
    let before = write(register, passing_on(perm), links - 1, &near, chain);
    let office = first_into(register, perm, set, before);
    put(chain, links, office);
    office
}

fn search(
    register: &Register,
    office: Office,
    perm: Permission,
    chain: &mut [u8],
) -> Result<u8, Refusal> {
    let set = single(register, office);
    let Some(links) = fewest(register, perm, &set) else {
        return Err(Refusal::NotHeld);
    };
    write(register, perm, links, &set, chain);
    Ok(links as u8 + 1)
}

fn form_refusal(header: Header, office: Office, perm: u8, room: usize) -> Result<(), Refusal> {
    if !cells::is_code(perm) {
        return Err(Refusal::NoCommand);
    }
    if header.n <= office.0 {
        return Err(Refusal::NoOffice);
    }
    if room < header.n as usize {
        return Err(Refusal::ShortChain);
    }
    Ok(())
}

fn asked(
    cells: &[u8],
    header: Header,
    office: Office,
    perm: u8,
    chain: &mut [u8],
) -> Result<u8, Refusal> {
    sound::register_refusal(cells, header)?;
    form_refusal(header, office, perm, chain.len())?;
    let register = Register { cells, header };
    search(&register, office, Permission::decoded(perm), chain)
}

pub fn holding(cells: &[u8], header: Header, office: Office, perm: u8, chain: &mut [u8]) -> Held {
    match asked(cells, header, office, perm, chain) {
        Ok(offices) => Held { answer: 0, offices },
        Err(refusal) => Held {
            answer: refusal.number(),
            offices: 0,
        },
    }
}
