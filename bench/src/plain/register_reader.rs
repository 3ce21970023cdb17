//! The functions of `crates/register_reader/src/lib.rt`.

use super::lines::LineKind;
use super::records::RecordsEnd;
use super::rights::{Header, Layer, Office, Refusal};
use super::{buffers, lines, records, registers, sound};

#[repr(C)]
#[derive(Clone, Copy, Debug, PartialEq, Eq)]
pub struct RegisterRead {
    pub answer: u8,
    pub at: usize,
    pub header: Header,
    pub next: usize,
}

#[derive(Clone, Copy, Debug, PartialEq, Eq)]
struct Refused {
    refusal: Refusal,
    at: usize,
}

impl From<Refusal> for Refused {
    fn from(refusal: Refusal) -> Refused {
        Refused { refusal, at: 0 }
    }
}

fn bad_line(at: usize) -> Refused {
    Refused {
        refusal: Refusal::BadText,
        at,
    }
}

fn read_header(text: &[u8]) -> Result<(Header, usize), usize> {
    let Some((n, soa_at)) = lines::line(text, 0, LineKind::N) else {
        return Err(0);
    };
    let Some((soa, layer_at)) = lines::line(text, soa_at, LineKind::Soa) else {
        return Err(soa_at);
    };
    let Some((layer, next)) = lines::line(text, layer_at, LineKind::Layer) else {
        return Err(layer_at);
    };
    let header = Header {
        n,
        soa: Office(soa),
        layer: Layer(layer),
    };
    Ok((header, next))
}

fn judge(cells: &[u8], header: Header, found: RecordsEnd) -> Result<(), Refusal> {
    if !registers::headed(header) {
        return Err(Refusal::NoHeader);
    }
    let size = header.n as usize * header.n as usize;
    if cells.len() < size {
        return Err(Refusal::WrongLength);
    }
    if found.outside {
        return Err(Refusal::NoOffice);
    }
    if found.forbidden {
        return Err(Refusal::Barred);
    }
    sound::register_refusal(&cells[..size], header)
}

fn read(text: &[u8], cells: &mut [u8]) -> Result<(Header, usize), Refused> {
    let (header, start) = match read_header(text) {
        Ok(read) => read,
        Err(line) => {
            buffers::clear(cells);
            return Err(bad_line(line));
        }
    };
    let found = records::read_records(text, start, header, cells).map_err(bad_line)?;
    if let Err(refusal) = judge(cells, header, found) {
        buffers::clear(cells);
        return Err(Refused::from(refusal));
    }
    Ok((header, found.next))
}

pub fn read_register(text: &[u8], cells: &mut [u8]) -> RegisterRead {
    match read(text, cells) {
        Ok((header, next)) => RegisterRead {
            answer: 0,
            at: 0,
            header,
            next,
        },
        Err(Refused { refusal, at }) => RegisterRead {
            answer: refusal.number(),
            at,
            header: Header::default(),
            next: text.len(),
        },
    }
}
