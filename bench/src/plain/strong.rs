//! The functions of `crates/strong/src/lib.rt`.

use super::buffers::Kept;
use super::rights::{Header, Office};
use super::{columns, holdings, levels, local, registers, sweeping};

fn strong_round(cells: &mut [u8], header: Header, own: [u8; 128], before: &[u8]) -> bool {
    let mut kept = Kept::new();
    kept.keep(cells);
    let lost = holdings::losers(before, cells, header);
    columns::restrict_columns(cells, header, lost, own);
    sweeping::sweep(cells, header);
    *cells == *kept.cells()
}

fn rounds(cells: &mut [u8], header: Header, own: [u8; 128], before: &[u8]) {
    for _round in 0..header.n {
        if strong_round(cells, header, own, before) {
            return;
        }
    }
}

pub fn sgd(cells: &mut [u8], header: Header, by: Office, to: Office) {
    if registers::readable(cells, header) {
        let mut before = Kept::new();
        before.keep(cells);
        let own = levels::independent_levels(cells, header, by);
        local::column_step(cells, header, by, to);
        sweeping::sweep(cells, header);
        rounds(cells, header, own, before.cells());
    }
}
