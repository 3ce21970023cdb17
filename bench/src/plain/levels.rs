//! The functions of `crates/levels/src/lib.rt`.

use super::carrying;
use super::registers::Register;
use super::rights::{Header, Office, Permission};

fn links(register: &Register, perm: Permission, marks: &[bool; 128], x: u16, y: u16) -> bool {
    marks[x as usize] && carrying::carries_as(register.cell(Office(x), Office(y)), perm)
}

fn linked(register: &Register, perm: Permission, marks: &[bool; 128], y: u16) -> bool {
    (0..register.header.n).any(|x| links(register, perm, marks, x, y))
}

fn marked_next(
    register: &Register,
    out: u16,
    perm: Permission,
    marks: &[bool; 128],
    y: u16,
) -> bool {
    marks[y as usize] || y != out && linked(register, perm, marks, y)
}

fn round(register: &Register, out: u16, perm: Permission, marks: &[bool; 128]) -> [bool; 128] {
    let mut next = [false; 128];
    for y in 0..register.header.n {
        next[y as usize] = marked_next(register, out, perm, marks, y);
    }
    next
}

fn first(register: &Register, out: u16) -> [bool; 128] {
    let soa = register.header.soa.0;
    let mut marks = [false; 128];
    marks[soa as usize] = soa != out;
    marks
}

fn reached(register: &Register, out: u16, perm: Permission) -> [bool; 128] {
    let mut marks = first(register, out);
    for _round in 0..register.header.n {
        let next = round(register, out, perm, &marks);
        if next == marks {
            return marks;
        }
        marks = next;
    }
    marks
}

fn level_of(whole: bool, part: bool) -> u8 {
    if whole {
        2
    } else if part {
        1
    } else {
        0
    }
}

fn levels_by(n: u16, whole: &[bool; 128], part: &[bool; 128]) -> [u8; 128] {
    let mut levels = [0; 128];
    for k in 0..n as usize {
        levels[k] = level_of(whole[k], part[k]);
    }
    levels
}

fn levels_without(register: &Register, out: u16) -> [u8; 128] {
    let whole = reached(register, out, Permission::TT);
    let part = reached(register, out, Permission::TF);
    levels_by(register.header.n, &whole, &part)
}

pub fn levels(cells: &[u8], header: Header) -> [u8; 128] {
    match Register::of(cells, header) {
        Some(register) => levels_without(&register, header.n),
        None => [0; 128],
    }
}

pub fn independent_levels(cells: &[u8], header: Header, office: Office) -> [u8; 128] {
    match Register::of(cells, header) {
        Some(register) => levels_without(&register, office.0),
        None => [0; 128],
    }
}
