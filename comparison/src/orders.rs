//! Commands of all kinds, well formed and not.

use crate::maps::{Map, PERMS};
use crate::random::Random;
use rights_register::{Answer, Command, Entry, Layer, Office};

/// A command to the register, most often one that is carried out.
pub fn command(random: &mut Random, map: &Map) -> Command {
    match random.below(10) {
        0..=3 => deletion_of_a_grant(random, map),
        4..=6 => grant_by_a_holder(random, map),
        7..=8 => any_in_range(random, map),
        _ => odd(random, map),
    }
}

pub fn of(act: u8, map: &Map, by: u16, to: u16, perm: u8) -> Command {
    Command {
        act,
        layer: map.header.layer,
        by: Office(by),
        to: Office(to),
        perm,
    }
}

fn deletion_of_a_grant(random: &mut Random, map: &Map) -> Command {
    let pairs = map.pairs();
    if pairs.is_empty() {
        return grant_by_a_holder(random, map);
    }
    let (by, to) = random.one_of(&pairs);
    of(1 + random.below(4) as u8, map, by, to, 0)
}

/// By SOA or by an office that was granted something.
fn grant_by_a_holder(random: &mut Random, map: &Map) -> Command {
    let mut holders: Vec<u16> = map.pairs().into_iter().map(|(_, to)| to).collect();
    holders.push(map.header.soa.0);
    let by = random.one_of(&holders);
    let to = random.office(map.header.n);
    of(0, map, by, to, random.one_of(&PERMS))
}

fn any_in_range(random: &mut Random, map: &Map) -> Command {
    let (by, to) = (random.office(map.header.n), random.office(map.header.n));
    match random.below(5) as u8 {
        0 => of(0, map, by, to, random.one_of(&PERMS)),
        act => of(act, map, by, to, 0),
    }
}

/// A command with any of the faults that are refused by 4, 5, 6 and 7, or with several, since the
/// first refusal counts.
pub fn odd(random: &mut Random, map: &Map) -> Command {
    let header = map.header;
    let mut command = any_in_range(random, map);
    if random.once_in(4) {
        command.act = random.byte();
    }
    if random.once_in(4) {
        command.perm = random.one_of(&[0, 1, 2, 3, 4, 5, 8, 9, 15, 16, 255]);
    }
    if random.once_in(4) {
        command.layer = Layer(random.number());
    }
    let outside = [header.n, header.n.saturating_add(1), 65535];
    if random.once_in(5) {
        command.by = Office(random.one_of(&outside));
    }
    if random.once_in(5) {
        command.to = Office(random.one_of(&outside));
    }
    if random.once_in(5) {
        command.to = command.by;
    }
    if random.once_in(5) {
        command.to = header.soa;
    }
    command
}

/// The entries of a run, with anything in the places for the answers.
pub fn entries(random: &mut Random, map: &Map, many: usize) -> Vec<Entry> {
    (0..many)
        .map(|_| Entry {
            command: command(random, map),
            answer: Answer::from_byte(random.byte()),
        })
        .collect()
}
