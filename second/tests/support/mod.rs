//! What the test programs share: maps written as lists of records, a small
//! deterministic generator, and random sound registers of several shapes.

#![allow(dead_code)] // each test program uses a part of it

use second::permission::{Permission, PERMISSIONS};
use second::register::Register;
use second::{command, write_end, write_header, write_row, Outcome};

pub const GRANT: u8 = 0;
pub const WLD: u8 = 1;
pub const WGD: u8 = 2;
pub const SLD: u8 = 3;
pub const SGD: u8 = 4;

pub const TT: u8 = 8;
pub const TF: u8 = 4;
pub const FT: u8 = 2;
pub const FF: u8 = 1;

pub const LAYER: u16 = 7;

/// n·n bytes with the records of the list.
pub fn cells_of(n: u16, records: &[(u16, u16, u8)]) -> Vec<u8> {
    let width = usize::from(n);
    let mut cells = vec![0; width * width];
    for (by, to, perm) in records {
        cells[usize::from(*by) * width + usize::from(*to)] |= perm;
    }
    cells
}

/// A register with its size, its source of authority and its bytes.
#[derive(Clone, Debug, PartialEq, Eq)]
pub struct Map {
    pub n: u16,
    pub soa: u16,
    pub cells: Vec<u8>,
}

impl Map {
    pub fn new(n: u16, soa: u16, records: &[(u16, u16, u8)]) -> Map {
        Map {
            n,
            soa,
            cells: cells_of(n, records),
        }
    }

    pub fn give(&mut self, act: u8, by: u16, to: u16, perm: u8) -> Outcome {
        command(
            &mut self.cells,
            self.n,
            self.soa,
            LAYER,
            act,
            LAYER,
            by,
            to,
            perm,
        )
    }

    pub fn register(&self) -> Register {
        Register::from_bytes(&self.cells, self.n, self.soa).expect("n·n cells of at most 15")
    }

    pub fn cell(&self, by: u16, to: u16) -> u8 {
        self.cells[usize::from(by) * usize::from(self.n) + usize::from(to)]
    }

    /// The register's text by its writers: header, rows, end.
    pub fn text(&self) -> Vec<u8> {
        let mut room = vec![0; 16_384];
        let (answer, length) = write_header(self.n, self.soa, LAYER, &mut room);
        assert_eq!(answer, 0);
        let mut text = room[..length].to_vec();
        for row in 0..self.n {
            let (answer, length) = write_row(&self.cells, self.n, self.soa, row, &mut room);
            assert_eq!(answer, 0);
            text.extend(&room[..length]);
        }
        let (answer, length) = write_end(&mut room);
        assert_eq!(answer, 0);
        text.extend(&room[..length]);
        text
    }
}

/// Splitmix: the same numbers each time for the same seed.
pub struct Random(pub u64);

impl Random {
    pub fn next(&mut self) -> u64 {
        self.0 = self.0.wrapping_add(0x9E37_79B9_7F4A_7C15);
        let mut mixed = self.0;
        mixed = (mixed ^ (mixed >> 30)).wrapping_mul(0xBF58_476D_1CE4_E5B9);
        mixed = (mixed ^ (mixed >> 27)).wrapping_mul(0x94D0_49BB_1331_11EB);
        mixed ^ (mixed >> 31)
    }

    pub fn below(&mut self, bound: usize) -> usize {
        (self.next() % bound as u64) as usize
    }

    pub fn office(&mut self, n: u16) -> u16 {
        self.below(usize::from(n)) as u16
    }

    pub fn perm(&mut self) -> u8 {
        self.one_of(&[TT, TF, FT, FF])
    }

    pub fn one_of<T: Copy>(&mut self, list: &[T]) -> T {
        list[self.below(list.len())]
    }

    pub fn shuffle<T>(&mut self, list: &mut [T]) {
        for place in (1..list.len()).rev() {
            let other = self.below(place + 1);
            list.swap(place, other);
        }
    }
}

/// A sound register made by random accepted grants from an empty one.
pub fn random_map(random: &mut Random, smallest: u16, largest: u16) -> Map {
    let n = smallest + random.office(largest - smallest + 1);
    let mut order: Vec<u16> = (0..n).collect();
    random.shuffle(&mut order);
    let mut map = Map::new(n, order[0], &[]);
    let links = links_of_a_shape(random, &order);
    let perms = perms_of_a_temper(random);
    for (by, to) in links {
        let perm = random.one_of(perms);
        map.give(GRANT, by, to, perm);
    }
    map
}

/// Long chains want many TT; losses by degrees want a mixture.
fn perms_of_a_temper(random: &mut Random) -> &'static [u8] {
    let tempers: [&[u8]; 4] = [
        &[TT],
        &[TT, TT, TT, TT, TT, TF],
        &[TT, TT, TF, TF, FF],
        &[TT, TT, TT, TT, TF, TF, TF, FT, FF, FF],
    ];
    random.one_of(&tempers)
}

/// The links to try, in the order to try them. `order` starts with SOA.
fn links_of_a_shape(random: &mut Random, order: &[u16]) -> Vec<(u16, u16)> {
    let last = order.len() - 1;
    let line: Vec<(u16, u16)> = order.windows(2).map(|pair| (pair[0], pair[1])).collect();
    let mut links = match random.below(5) {
        0 => random_links(random, order, order.len() * 2),
        1 => random_links(random, order, order.len() * order.len() * 6),
        2 => line,
        3 => [line, vec![(order[last], order[1]), (order[0], order[last])]].concat(),
        _ => {
            let skips = order.windows(3).map(|three| (three[0], three[2]));
            let wide = order.windows(4).map(|four| (four[0], four[3]));
            line.into_iter().chain(skips).chain(wide).collect()
        }
    };
    let strays = random.below(4);
    links.extend(random_links(random, order, strays));
    links
}

fn random_links(random: &mut Random, order: &[u16], count: usize) -> Vec<(u16, u16)> {
    (0..count)
        .map(|_| (random.one_of(order), random.one_of(order)))
        .collect()
}

/// Any bytes of cells with nothing on the diagonal or to SOA; mostly unsound.
pub fn random_clean_map(random: &mut Random, smallest: u16, largest: u16) -> Map {
    let n = smallest + random.office(largest - smallest + 1);
    let soa = random.office(n);
    let mut map = Map::new(n, soa, &[]);
    for _ in 0..random.below(usize::from(n) * 3) {
        let (by, to) = (random.office(n), random.office(n));
        if by != to && to != soa {
            let place = usize::from(by) * usize::from(n) + usize::from(to);
            map.cells[place] |= random.perm();
        }
    }
    map
}

/// Every office with every permission.
pub fn questions(n: u16) -> impl Iterator<Item = (u16, Permission)> {
    (0..n).flat_map(|office| PERMISSIONS.into_iter().map(move |p| (office, p)))
}
