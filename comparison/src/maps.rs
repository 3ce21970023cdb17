//! Registers of many shapes: sound ones, made grant by grant, and ones with a fault.

use crate::random::Random;
use rights_register::{Header, Layer, Office};

pub const TT: u8 = 8;
pub const TF: u8 = 4;
pub const FT: u8 = 2;
pub const FF: u8 = 1;
pub const PERMS: [u8; 4] = [TT, TF, FT, FF];

/// A header and the buffer that is lent as its register, which need not be one.
#[derive(Clone, Debug, PartialEq, Eq)]
pub struct Map {
    pub header: Header,
    pub cells: Vec<u8>,
}

impl Map {
    pub fn empty(n: u16, soa: u16, layer: u16) -> Map {
        let header = Header {
            n,
            soa: Office(soa),
            layer: Layer(layer),
        };
        Map {
            header,
            cells: vec![0; usize::from(n) * usize::from(n)],
        }
    }

    pub fn with(mut self, records: &[(u16, u16, u8)]) -> Map {
        for (by, to, perm) in records {
            *self.cell_mut(*by, *to) |= perm;
        }
        self
    }

    pub fn cell_mut(&mut self, by: u16, to: u16) -> &mut u8 {
        let n = usize::from(self.header.n);
        &mut self.cells[usize::from(by) * n + usize::from(to)]
    }

    /// The pairs whose cell is not empty.
    pub fn pairs(&self) -> Vec<(u16, u16)> {
        let n = usize::from(self.header.n);
        let filled = self.cells.iter().enumerate().filter(|(_, c)| **c != 0);
        filled
            .map(|(k, _)| ((k / n) as u16, (k % n) as u16))
            .collect()
    }
}

/// A sound register of n offices. Each grant is by an office that holds what entitles it when it
/// grants, and later grants take nothing away, so every record is entitled in the end.
pub fn sound(random: &mut Random, n: u16) -> Map {
    let mut order: Vec<u16> = (0..n).collect();
    random.shuffle(&mut order);
    let soa = order[0];
    let mut map = Map::empty(n, soa, random.one_of(&[0, 7, 65535]));
    let mut levels = vec![0; usize::from(n)];
    levels[usize::from(soa)] = 2;
    for (by, to, perm) in grants(random, &order) {
        let needed = if perm == TT || perm == FT { 2 } else { 1 };
        if by == to || to == soa || levels[usize::from(by)] < needed {
            continue;
        }
        *map.cell_mut(by, to) |= perm;
        let given = if perm == TT || perm == TF { needed } else { 0 };
        let level = &mut levels[usize::from(to)];
        *level = given.max(*level);
    }
    map
}

/// The grants to try, in this order. `order` starts with SOA.
fn grants(random: &mut Random, order: &[u16]) -> Vec<(u16, u16, u8)> {
    if order.len() >= 6 && random.once_in(6) {
        return two_rounds(random, order);
    }
    let perms = perms_of_a_temper(random);
    let links = links(random, order).into_iter();
    links
        .map(|(by, to)| (by, to, random.one_of(perms)))
        .collect()
}

/// Strong global deletion of the grant i, j takes two rounds here, unless the strays prevent it: x
/// loses nothing until a does in the first round, and only then what b granted to it goes.
fn two_rounds(random: &mut Random, order: &[u16]) -> Vec<(u16, u16, u8)> {
    let first = random.below(2); // i is SOA or the office that it grants to
    let [i, j, a, b, x] = [0, 1, 2, 3, 4].map(|place| order[first + place]);
    let mut grants = vec![
        (order[0], i, TT),
        (i, j, TT),
        (j, a, TT),
        (i, b, TF),
        (b, a, TF),
        (a, x, TF),
        (b, x, FF),
    ];
    let more = random.below(order.len());
    let strays = strays(random, order, more).into_iter();
    grants.extend(strays.map(|(by, to)| (by, to, random.one_of(&PERMS))));
    grants
}

/// Long chains want many TT; losses by degrees want a mixture.
fn perms_of_a_temper(random: &mut Random) -> &'static [u8] {
    const TEMPERS: [&[u8]; 5] = [
        &[TT],
        &[TT, TT, TT, TT, TF],
        &[TT, TT, TF, TF, FF],
        &[TT, TT, TT, TF, TF, FT, FF],
        &PERMS,
    ];
    random.one_of(&TEMPERS)
}

type Links = Vec<(u16, u16)>;

fn links(random: &mut Random, order: &[u16]) -> Links {
    let many = order.len();
    let mut links = match random.below(6) {
        0 => strays(random, order, many * 2),
        1 => strays(random, order, many * many * 3),
        2 => line(order),
        3 => ring(random, order),
        4 => diamonds(order),
        _ => tree(random, order),
    };
    let more = random.below(many);
    links.extend(strays(random, order, more));
    links
}

fn strays(random: &mut Random, order: &[u16], count: usize) -> Links {
    (0..count)
        .map(|_| (random.one_of(order), random.one_of(order)))
        .collect()
}

fn line(order: &[u16]) -> Links {
    order.windows(2).map(|pair| (pair[0], pair[1])).collect()
}

/// A line whose last office grants back to an earlier one, and sometimes is granted to by SOA too.
fn ring(random: &mut Random, order: &[u16]) -> Links {
    let last = order[order.len() - 1];
    let mut links = line(order);
    links.push((last, random.one_of(order)));
    if random.once_in(2) {
        links.push((order[0], last));
    }
    links
}

/// Groups of three after SOA: one grants to two, both grant to the first of the next group.
fn diamonds(order: &[u16]) -> Links {
    let mut links = Vec::new();
    for start in (0..order.len()).step_by(3) {
        for middle in start + 1..order.len().min(start + 3) {
            links.push((order[start], order[middle]));
            if let Some(next) = order.get(start + 3) {
                links.push((order[middle], *next));
            }
        }
    }
    links
}

/// Each office is granted to by one before it, and some by two.
fn tree(random: &mut Random, order: &[u16]) -> Links {
    let mut links = Vec::new();
    for place in 1..order.len() {
        for _ in 0..1 + random.below(2) {
            links.push((order[random.below(place)], order[place]));
        }
    }
    links
}

/// The register with one more byte that makes it unsound, or may: a byte over 15, on the diagonal,
/// in SOA's column, or a record that its grantor may not be entitled to.
pub fn spoilt(random: &mut Random, map: &Map) -> Map {
    let (n, soa) = (map.header.n, map.header.soa.0);
    let mut map = map.clone();
    let (by, to) = (random.office(n), random.office(n));
    let byte = 1 + random.below(15) as u8;
    match random.below(4) {
        0 => *map.cell_mut(by, to) = 16 + random.below(240) as u8,
        1 => *map.cell_mut(by, by) = byte,
        2 => *map.cell_mut(by, soa) = byte,
        _ => *map.cell_mut(by, to) |= byte,
    }
    map
}

/// The map with one or more of these faults: a header that fits no register, a buffer of another
/// length, an unsound register.
pub fn faulty(random: &mut Random, map: &Map) -> Map {
    let mut map = map.clone();
    if random.once_in(2) {
        map = spoilt(random, &map);
    }
    if random.once_in(3) {
        map.header.n = random.one_of(&[0, 1, 129, 130, 255, 65535]);
        if random.once_in(2) {
            let side = usize::from(map.header.n).min(130);
            map.cells.resize(side * side, 0);
        }
    }
    if random.once_in(3) {
        let n = map.header.n;
        map.header.soa = Office(random.one_of(&[n, n.saturating_add(1), 65535, 0]));
    }
    if random.once_in(3) {
        let length = map.cells.len();
        let other = [0, 1, length.saturating_sub(1), length + 1, 2 * length];
        map.cells.resize(random.one_of(&other), 0);
    }
    map
}
