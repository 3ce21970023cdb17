//! The functions of `crates/records/src/lib.rt`.

use super::lines::LineKind;
use super::rights::{Header, Office};
use super::{buffers, cells, lines, registers};

#[derive(Clone, Copy, Debug, PartialEq, Eq)]
pub struct Record {
    pub by: Office,
    pub to: Office,
    pub perm: u8,
}

#[derive(Clone, Copy, Debug, PartialEq, Eq)]
pub struct RecordsEnd {
    pub outside: bool,
    pub forbidden: bool,
    pub next: usize,
}

fn by_may(last: Record, by: Office) -> bool {
    last.by <= by
}

fn to_may(last: Record, by: Office, to: Office) -> bool {
    last.by < by || last.to <= to
}

fn perm_may(last: Record, by: Office, to: Office, perm: u16) -> bool {
    1 <= perm && (last.by < by || last.to < to || perm < last.perm as u16)
}

fn read_record(text: &[u8], at: usize, last: Record) -> Result<(Record, usize), usize> {
    let Some((by, to_at)) = lines::line(text, at, LineKind::By) else {
        return Err(at);
    };
    let by = Office(by);
    if !by_may(last, by) {
        return Err(at);
    }
    let Some((to, perm_at)) = lines::line(text, to_at, LineKind::To) else {
        return Err(to_at);
    };
    let to = Office(to);
    if !to_may(last, by, to) {
        return Err(to_at);
    }
    let Some((perm, next)) = lines::line(text, perm_at, LineKind::Perm) else {
        return Err(perm_at);
    };
    if !perm_may(last, by, to, perm) {
        return Err(perm_at);
    }
    let perm = perm as u8;
    Ok((Record { by, to, perm }, next))
}

fn in_range(header: Header, told: Record) -> bool {
    told.by.0 < header.n && told.to.0 < header.n
}

fn place(header: Header, told: Record) -> usize {
    told.by.0 as usize * header.n as usize + told.to.0 as usize
}

fn store(cells: &mut [u8], header: Header, told: Record) {
    let at = place(header, told);
    if in_range(header, told) && at < cells.len() {
        cells[at] = cells::union(cells[at], told.perm);
    }
}

fn before_all() -> Record {
    Record {
        by: Office(0),
        to: Office(0),
        perm: 16,
    }
}

fn scan(text: &[u8], start: usize, header: Header, cells: &mut [u8]) -> Result<RecordsEnd, usize> {
    let mut at = start;
    let mut last = before_all();
    let mut outside = false;
    let mut forbidden = false;
    loop {
        if let Some(next) = lines::end_line(text, at) {
            return Ok(RecordsEnd {
                outside,
                forbidden,
                next,
            });
        }
        let (told, next) = read_record(text, at, last)?;
        store(cells, header, told);
        outside |= !in_range(header, told);
        forbidden |= registers::barred(header, told.by, told.to);
        last = told;
        at = next;
    }
}

pub fn read_records(
    text: &[u8],
    start: usize,
    header: Header,
    cells: &mut [u8],
) -> Result<RecordsEnd, usize> {
    buffers::clear(cells);
    if text.len() < start {
        return Err(text.len());
    }
    let read = scan(text, start, header, cells);
    if read.is_err() {
        buffers::clear(cells);
    }
    read
}
