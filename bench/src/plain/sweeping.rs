//! The functions of `crates/sweeping/src/lib.rt`.

use super::rights::{Header, Office};
use super::{cuts, levels, rows};

pub fn sweep(cells: &mut [u8], header: Header) {
    let levels = levels::levels(cells, header);
    rows::restrict_rows(cells, header, levels);
}

pub fn wgd(cells: &mut [u8], header: Header, by: Office, to: Office) {
    cuts::empty_cell(cells, header, by, to);
    sweep(cells, header);
}
