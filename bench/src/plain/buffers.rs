//! The functions of `crates/buffers/src/lib.rt`.

fn copy_start(copy: &mut [u8], cells: &[u8]) -> usize {
    let end = cells.len().min(copy.len());
    copy[..end].copy_from_slice(&cells[..end]);
    end
}

pub fn copied(cells: &[u8]) -> [u8; 16384] {
    let mut copy = [0u8; 16384];
    copy_start(&mut copy, cells);
    copy
}

#[derive(Debug, PartialEq, Eq)]
pub struct Kept {
    bytes: [u8; 16384],
    length: usize,
}

impl Kept {
    pub fn new() -> Kept {
        Kept {
            bytes: [0u8; 16384],
            length: 0,
        }
    }

    pub fn keep(&mut self, cells: &[u8]) {
        self.length = copy_start(&mut self.bytes, cells);
    }

    pub fn cells(&self) -> &[u8] {
        &self.bytes[..self.length]
    }
}

pub fn clear(cells: &mut [u8]) {
    cells.fill(0);
}
