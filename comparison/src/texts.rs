//! Register texts and command texts, of the form and damaged.

use crate::maps::{Map, FF, FT, PERMS, TF, TT};
use crate::random::Random;
use rights_register::{Command, Header};

pub type Record = (u16, u16, u8);

fn perm_name(perm: u8) -> &'static str {
    match perm {
        TT => "TT",
        TF => "TF",
        FT => "FT",
        FF => "FF",
        _ => "none",
    }
}

/// The records of a register in the order of its text.
pub fn records(map: &Map) -> Vec<Record> {
    let n = usize::from(map.header.n);
    let mut records = Vec::new();
    for (by, to) in map.pairs() {
        let cell = map.cells[usize::from(by) * n + usize::from(to)];
        let members = PERMS.into_iter().filter(|perm| cell & perm != 0);
        records.extend(members.map(|perm| (by, to, perm)));
    }
    records
}

pub fn header(header: Header) -> String {
    let (n, soa, layer) = (header.n, header.soa.0, header.layer.0);
    format!("n={n}\nsoa={soa}\nlayer={layer}\n")
}

/// A text of the form as long as the records are in order; its numbers may be any.
pub fn told(of: Header, records: &[Record]) -> Vec<u8> {
    let mut text = header(of);
    for (by, to, perm) in records {
        text += &format!("by={by}\nto={to}\nperm={}\n", perm_name(*perm));
    }
    text += "end=register\n";
    text.into_bytes()
}

pub fn register(map: &Map) -> Vec<u8> {
    told(map.header, &records(map))
}

/// A text of the form that the reader may refuse by 1, 6, 7 or 3, or by several of them.
pub fn odd_register(random: &mut Random, map: &Map) -> Vec<u8> {
    let (mut header, mut records) = (map.header, records(map));
    let n = header.n;
    let outside = [n, n.saturating_add(1), 65535];
    for _ in 0..random.below(3) {
        let (mut by, mut to) = (random.office(n), random.office(n));
        match random.below(5) {
            0 => by = random.one_of(&outside),
            1 => to = random.one_of(&outside),
            2 => to = by,
            3 => to = header.soa.0,
            _ => (),
        }
        records.push((by, to, random.one_of(&PERMS)));
    }
    records.sort_by_key(|(by, to, perm)| (*by, *to, 15 - perm));
    records.dedup();
    if random.once_in(6) {
        header.n = random.one_of(&[0, 1, 2, 128, 129, 65535]);
    }
    if random.once_in(6) {
        header.soa.0 = random.one_of(&[0, 1, n, 65535]);
    }
    told(header, &records)
}

/// The text of a command; an act or a perm that has no name is written as one that has.
pub fn command(command: &Command) -> Vec<u8> {
    let act = ["grant", "wld", "wgd", "sld", "sgd"][usize::from(command.act % 5)];
    let (layer, by, to) = (command.layer.0, command.by.0, command.to.0);
    let perm = perm_name(command.perm);
    format!("act={act}\nlayer={layer}\nby={by}\nto={to}\nperm={perm}\n").into_bytes()
}

fn lines(text: &[u8]) -> Vec<Vec<u8>> {
    let lines = text.split_inclusive(|byte| *byte == b'\n');
    lines.map(<[u8]>::to_vec).collect()
}

/// The text with one byte removed, doubled, changed or put in, or cut short there.
fn damaged_byte(random: &mut Random, mut text: Vec<u8>) -> Vec<u8> {
    let at = random.below(text.len());
    match random.below(6) {
        0 => drop(text.remove(at)),
        1 => text.insert(at, text[at]),
        2 => text[at] = random.byte(),
        3 => text[at] = random.one_of(b"0123456789=\n\r TFnbyo"),
        4 => text.insert(at, random.one_of(b"0123456789=\n\r \0")),
        _ => text.truncate(at),
    }
    text
}

/// Values that lines have, may not have, or only look as if they had.
#[rustfmt::skip]
const VALUES: [&str; 24] = [
    "0", "1", "2", "3", "4", "00", "01", "128", "129", "65535", "65536", "99999", "4294967296",
    "-1", "+1", "", "TT", "FF", "none", "tt", "grant", "sgd", "WGD", "register",
];

/// The text with one line removed, doubled, swapped with another, or given another value.
fn damaged_line(random: &mut Random, text: &[u8]) -> Vec<u8> {
    let mut lines = lines(text);
    let (at, other) = (random.below(lines.len()), random.below(lines.len()));
    match random.below(4) {
        0 => drop(lines.remove(at)),
        1 => lines.insert(at, lines[at].clone()),
        2 => lines.swap(at, other),
        _ => {
            let name = lines[at].split(|byte| *byte == b'=').next().unwrap_or(b"n");
            let value = random.one_of(&VALUES).as_bytes();
            lines[at] = [name, b"=", value, b"\n"].concat();
        }
    }
    lines.concat()
}

/// The text with two records, or other groups of three lines, changing places, or one told twice.
fn damaged_record(random: &mut Random, text: &[u8]) -> Vec<u8> {
    let mut groups: Vec<Vec<u8>> = lines(text).chunks(3).map(|group| group.concat()).collect();
    let (at, other) = (random.below(groups.len()), random.below(groups.len()));
    match random.below(2) {
        0 => groups.swap(at, other),
        _ => groups.insert(at, groups[at].clone()),
    }
    groups.concat()
}

/// The text with one to three damages.
pub fn damaged(random: &mut Random, text: &[u8]) -> Vec<u8> {
    let mut text = text.to_vec();
    for _ in 0..1 + random.below(3) {
        if text.is_empty() {
            break;
        }
        text = match random.below(5) {
            0 | 1 => damaged_byte(random, text),
            2 | 3 => damaged_line(random, &text),
            _ => damaged_record(random, &text),
        };
    }
    text
}
