//! The functions of `crates/cuts/src/lib.rt`.

use super::rights::{Header, Office, Permission};
use super::{cells, registers};

fn store(cells: &mut [u8], header: Header, i: Office, j: Office, v: u8) {
    if i.0 < header.n && j.0 < header.n {
        let k = i.0 as usize * header.n as usize + j.0 as usize;
        cells[k] = v;
    }
}

pub fn empty_cell(cells: &mut [u8], header: Header, i: Office, j: Office) {
    if registers::readable(cells, header) {
        store(cells, header, i, j, 0);
    }
}

pub fn add_record(cells: &mut [u8], header: Header, i: Office, j: Office, perm: u8) {
    if registers::readable(cells, header) {
        let c = registers::cell(cells, header, i, j);
        let record = Permission::decoded(perm).code();
        store(cells, header, i, j, cells::union(c, record));
    }
}

fn hand_cell(cells: &mut [u8], header: Header, i: Office, j: Office, k: Office, before: &[u8]) {
    if k != i {
        let gone = cells::without(
            registers::cell(before, header, j, k),
            registers::cell(cells, header, j, k),
        );
        let c = registers::cell(cells, header, i, k);
        store(cells, header, i, k, cells::union(c, gone));
    }
}

fn hand_row(cells: &mut [u8], header: Header, i: Office, j: Office, before: &[u8]) {
    for k in 0..header.n {
        hand_cell(cells, header, i, j, Office(k), before);
    }
}

pub fn hand_over(cells: &mut [u8], header: Header, i: Office, j: Office, before: &[u8]) {
    if registers::readable(before, header) && registers::readable(cells, header) {
        hand_row(cells, header, i, j, before);
    }
}
