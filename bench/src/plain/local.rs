//! The functions of `crates/local/src/lib.rt`.

use super::buffers::Kept;
use super::rights::{Header, Office};
use super::{columns, cuts, levels, registers, rows};

fn single(office: Office) -> [u8; 128] {
    let mut marks = [0u8; 128];
    if office.0 < 128 {
        marks[office.0 as usize] = 1;
    }
    marks
}

fn level_at(levels: [u8; 128], office: Office) -> u8 {
    levels.get(office.0 as usize).copied().unwrap_or(0)
}

pub fn column_step(cells: &mut [u8], header: Header, by: Office, to: Office) {
    let own = levels::independent_levels(cells, header, by);
    columns::restrict_columns(cells, header, single(to), own);
}

fn settle_row(cells: &mut [u8], header: Header, by: Office, to: Office, before: &[u8]) {
    let levels = levels::levels(cells, header);
    rows::restrict_one_row(cells, header, to, level_at(levels, to));
    cuts::hand_over(cells, header, by, to, before);
}

pub fn wld(cells: &mut [u8], header: Header, by: Office, to: Office) {
    if registers::readable(cells, header) {
        let mut before = Kept::new();
        before.keep(cells);
        cuts::empty_cell(cells, header, by, to);
        settle_row(cells, header, by, to, before.cells());
    }
}

pub fn sld(cells: &mut [u8], header: Header, by: Office, to: Office) {
    if registers::readable(cells, header) {
        let mut before = Kept::new();
        before.keep(cells);
        column_step(cells, header, by, to);
        settle_row(cells, header, by, to, before.cells());
    }
}
