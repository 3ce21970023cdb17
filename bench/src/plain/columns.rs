//! The functions of `crates/columns/src/lib.rt`.

use super::rights::Header;
use super::rows::Levels;
use super::{carrying, rows};

#[derive(Clone, Copy, Debug, PartialEq, Eq)]
struct Marked {
    columns: [u8; 128],
    levels: [u8; 128],
}

impl Levels for Marked {
    fn restrict(&self, row: &mut [u8], i: usize) {
        let level = self.levels.get(i).copied().unwrap_or(0);
        for (y, cell) in row.iter_mut().enumerate() {
            if self.columns.get(y).copied().unwrap_or(0) != 0 {
                *cell = carrying::restrict(*cell, level);
            }
        }
    }
}

pub fn restrict_columns(cells: &mut [u8], header: Header, columns: [u8; 128], levels: [u8; 128]) {
    rows::restrict_to(cells, header, &Marked { columns, levels });
}
