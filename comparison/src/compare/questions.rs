//! The holding question.

use super::lent::{kept, Lent};
use super::shown;
use crate::calls::Call;
use crate::maps::Map;
use crate::told::{Seen, Told};
use rights_register::{raw, Office};

/// Asks on both sides, with the chain buffer as it is given, and gives what was seen.
pub fn holding(told: &mut Told, map: &Map, office: u16, perm: u8, chain: &[u8]) -> Seen {
    let header = map.header;
    let mut room = chain.to_vec();
    let (n, soa) = (header.n, header.soa.0);
    let (answer, offices) = second::holding(&map.cells, n, soa, office, perm, &mut room);
    let theirs = Seen {
        answer,
        numbers: vec![offices as u64],
        buffers: vec![kept(&room), kept(&map.cells)],
    };
    let (mut room, mut cells) = (Lent::of(chain), Lent::of(&map.cells));
    let held = raw::holding(cells.part(), header, Office(office), perm, room.part());
    let ours = Seen {
        answer: held.answer,
        numbers: vec![held.offices.into()],
        buffers: vec![room.whole(), cells.whole()],
    };
    told.judge(Call::Question, &ours, &theirs, || {
        let room = chain.len();
        format!("office {office} perm {perm} room {room} in {}", shown(map))
    });
    ours
}
