//! The functions of `crates/registers/src/lib.rt`.

use super::rights::{Header, Office};

#[derive(Clone, Copy, Debug, PartialEq, Eq)]
pub struct Register<'a> {
    pub cells: &'a [u8],
    pub header: Header,
}

impl<'a> Register<'a> {
    pub fn of(cells: &'a [u8], header: Header) -> Option<Register<'a>> {
        if readable(cells, header) {
            Some(Register { cells, header })
        } else {
            None
        }
    }

    pub fn cell(&self, by: Office, to: Office) -> u8 {
        cell(self.cells, self.header, by, to)
    }
}

pub fn cell(cells: &[u8], header: Header, by: Office, to: Office) -> u8 {
    let at = by.0 as usize * header.n as usize + to.0 as usize;
    cells.get(at).copied().unwrap_or(0)
}

pub fn headed(header: Header) -> bool {
    2 <= header.n && header.n <= 128 && header.soa.0 < header.n
}

pub fn whole(cells: &[u8], header: Header) -> bool {
    let n = header.n as usize;
    cells.len() == n * n
}

pub fn readable(cells: &[u8], header: Header) -> bool {
    headed(header) && whole(cells, header)
}

pub fn barred(header: Header, by: Office, to: Office) -> bool {
    by == to || to == header.soa
}
