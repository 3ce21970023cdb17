//! The functions of `crates/tally/src/lib.rt`.

use super::rights::Header;
use super::{cells, registers};

fn count_missing(before: &[u8], after: &[u8]) -> u32 {
    before
        .iter()
        .zip(after)
        .map(|(b, a)| u32::from(cells::size(cells::without(*b, *a))))
        .sum()
}

pub fn missing(before: &[u8], after: &[u8], header: Header) -> u32 {
    if registers::readable(before, header) && registers::readable(after, header) {
        count_missing(before, after)
    } else {
        0
    }
}
