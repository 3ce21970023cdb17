//! The functions of `crates/row_writer/src/lib.rt`.

use super::printing::{Page, Written};
use super::registers::Register;
use super::rights::{Header, Office, Permission, Refusal};
use super::{cells, numbers, printing, sound};

fn perm_line(perm: Permission) -> [u8; 8] {
    match perm {
        Permission::TT => *b"perm=TT\n",
        Permission::TF => *b"perm=TF\n",
        Permission::FT => *b"perm=FT\n",
        Permission::FF => *b"perm=FF\n",
    }
}

fn cell_size(by: Office, to: Office, c: u8) -> usize {
    let record = 16 + numbers::digits(by.0 as u32) + numbers::digits(to.0 as u32);
    cells::size(c) as usize * record
}

fn row_size(register: &Register, row: Office) -> usize {
    let mut size = 0;
    for to in 0..register.header.n {
        let to = Office(to);
        size += cell_size(row, to, register.cell(row, to));
    }
    size
}

fn put_pair(page: &mut Page, by: Office, to: Office) {
    let room = &mut page.room[page.at..];
    page.at += printing::write_two(b"by=", by.0 as u32, b"to=", to.0 as u32, room).size;
}

fn put_perm(page: &mut Page, perm: Permission) {
    let room = &mut page.room[page.at..];
    page.at += printing::write_bytes(&perm_line(perm), room).size;
}

fn put_member(page: &mut Page, by: Office, to: Office, c: u8, perm: Permission) {
    if cells::stands(c, perm) {
        put_pair(page, by, to);
        put_perm(page, perm);
    }
}

fn put_cell(page: &mut Page, by: Office, to: Office, c: u8) {
    for perm in Permission::ALL {
        put_member(page, by, to, c, perm);
    }
}

fn put_row(page: &mut Page, register: &Register, row: Office) {
    for to in 0..register.header.n {
        let to = Office(to);
        put_cell(page, row, to, register.cell(row, to));
    }
}

fn row_refusal(cells: &[u8], header: Header, row: Office) -> Result<(), Refusal> {
    sound::register_refusal(cells, header)?;
    if header.n <= row.0 {
        return Err(Refusal::NoOffice);
    }
    Ok(())
}

fn try_row(cells: &[u8], header: Header, row: Office, room: &mut [u8]) -> Result<usize, Refusal> {
    row_refusal(cells, header, row)?;
    let register = Register { cells, header };
    if room.len() < row_size(&register, row) {
        return Err(Refusal::LittleRoom);
    }
    let mut page = Page { room, at: 0 };
    put_row(&mut page, &register, row);
    Ok(page.at)
}

pub fn write_row(cells: &[u8], header: Header, row: Office, room: &mut [u8]) -> Written {
    Written::from(try_row(cells, header, row, room))
}
