//! One call on both sides with the same input, and everything that the caller then sees compared.

pub mod commands;
pub mod lent;
pub mod program;
pub mod questions;
pub mod readers;
pub mod writers;

use crate::maps::Map;
use crate::texts;

/// A register as text that can be read again, or byte by byte where no text says it.
pub fn shown(map: &Map) -> String {
    let n = usize::from(map.header.n);
    if n > 0 && map.cells.len() == n * n && map.cells.iter().all(|cell| *cell < 16) {
        return format!("\"{}\"", texts::register(map).escape_ascii());
    }
    let filled = map.cells.iter().enumerate().filter(|(_, cell)| **cell != 0);
    let cells: Vec<(usize, &u8)> = filled.collect();
    let length = map.cells.len();
    format!("{:?}, {length} bytes, not 0: {cells:?}", map.header)
}
