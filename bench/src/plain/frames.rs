//! The functions of `crates/frames/src/lib.rt`.

use super::printing::Written;
use super::rights::{Header, Refusal};
use super::{printing, registers};

pub fn write_header(header: Header, room: &mut [u8]) -> Written {
    if !registers::headed(header) {
        return Written::from(Err(Refusal::NoHeader));
    }
    let n = header.n as u32;
    let soa = header.soa.0 as u32;
    let layer = header.layer.0 as u32;
    printing::write_three(b"n=", n, b"soa=", soa, b"layer=", layer, room)
}

pub fn write_end(room: &mut [u8]) -> Written {
    printing::write_bytes(b"end=register\n", room)
}
