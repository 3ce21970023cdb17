//! The writers of header, row and end line.

use super::lent::{kept, Lent};
use super::shown;
use crate::calls::Call;
use crate::maps::Map;
use crate::told::{Seen, Told};
use rights_register::{raw, Office};

/// What the library's writer answers, gives as length, and leaves of the room.
fn ours(room: &[u8], write: impl FnOnce(&mut [u8]) -> raw::Written) -> Seen {
    let mut room = Lent::of(room);
    let written = write(room.part());
    Seen {
        answer: written.answer,
        numbers: vec![written.size as u64],
        buffers: vec![room.whole()],
    }
}

/// The same of the second program's.
fn theirs(room: &[u8], write: impl FnOnce(&mut [u8]) -> (u8, usize)) -> Seen {
    let mut room = room.to_vec();
    let (answer, size) = write(&mut room);
    Seen {
        answer,
        numbers: vec![size as u64],
        buffers: vec![kept(&room)],
    }
}

pub fn header(told: &mut Told, map: &Map, room: &[u8]) -> Seen {
    let header = map.header;
    let (n, soa, layer) = (header.n, header.soa.0, header.layer.0);
    let theirs = theirs(room, |room| second::write_header(n, soa, layer, room));
    let ours = ours(room, |room| raw::write_header(header, room));
    told.judge(Call::HeaderWriter, &ours, &theirs, || {
        format!("{header:?} into {} bytes", room.len())
    });
    ours
}

pub fn row(told: &mut Told, map: &Map, row: u16, room: &[u8]) -> Seen {
    let header = map.header;
    let (n, soa) = (header.n, header.soa.0);
    let mut theirs = theirs(room, |room| {
        second::write_row(&map.cells, n, soa, row, room)
    });
    theirs.buffers.push(kept(&map.cells));
    let mut cells = Lent::of(&map.cells);
    let mut ours = ours(room, |room| {
        raw::write_row(cells.part(), header, Office(row), room)
    });
    ours.buffers.push(cells.whole());
    told.judge(Call::RowWriter, &ours, &theirs, || {
        format!("row {row} into {} bytes of {}", room.len(), shown(map))
    });
    ours
}

pub fn end(told: &mut Told, room: &[u8]) -> Seen {
    let theirs = theirs(room, second::write_end);
    let ours = ours(room, raw::write_end);
    told.judge(Call::EndWriter, &ours, &theirs, || {
        format!("into {} bytes", room.len())
    });
    ours
}
