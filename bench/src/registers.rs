//! The registers that are timed. All are sound, and every office holds TT.

use crate::plain::rights::{Header, Layer, Office};

const TT: u8 = 8;
const TF: u8 = 4;
const FF: u8 = 1;
pub const LAYER: Layer = Layer(7);

/// A cell, by its grantor and its subject.
#[derive(Clone, Copy, Debug, PartialEq, Eq)]
pub struct Pair {
    pub by: Office,
    pub to: Office,
}

#[derive(Clone, Copy, Debug, PartialEq, Eq)]
pub enum Kind {
    Sparse,
    Dense,
    Ring,
    Line,
}

pub const KINDS: [Kind; 4] = [Kind::Sparse, Kind::Dense, Kind::Ring, Kind::Line];

impl Kind {
    pub fn name(self) -> &'static str {
        match self {
            Kind::Sparse => "sparse",
            Kind::Dense => "dense",
            Kind::Ring => "ring",
            Kind::Line => "line",
        }
    }
}

/// A register, and where the commands and the question go.
#[derive(Clone, Debug, PartialEq, Eq)]
pub struct Register {
    pub header: Header,
    pub cells: Vec<u8>,
    /// The cell that a deletion is timed on. Its grantor is not SOA, and others hang on its subject.
    pub cut: Pair,
    /// An empty cell whose subject has a chain that does not name its grantor: what is granted there can be deleted again by any of
    /// the four, and the register is as before.
    pub spare: Pair,
    /// The office that the question is about: one with the longest way from SOA.
    pub asked: Office,
}

/// The register of that kind for n offices, 8 at least.
pub fn register(kind: Kind, n: u16) -> Register {
    match kind {
        Kind::Sparse => sparse(n),
        Kind::Dense => dense(n),
        Kind::Ring => ring(n),
        Kind::Line => line(n),
    }
}

fn pair(by: u16, to: u16) -> Pair {
    Pair {
        by: Office(by),
        to: Office(to),
    }
}

fn header(n: u16, soa: u16) -> Header {
    Header {
        n,
        soa: Office(soa),
        layer: LAYER,
    }
}

fn empty(n: u16) -> Vec<u8> {
    vec![0; usize::from(n) * usize::from(n)]
}

fn add(cells: &mut [u8], n: u16, by: u16, to: u16, records: u8) {
    cells[usize::from(by) * usize::from(n) + usize::from(to)] |= records;
}

/// Two records for each office but SOA: TT from the office above it in a binary tree, and TF from the office three numbers on.
fn sparse(n: u16) -> Register {
    let mut cells = empty(n);
    for to in 1..n {
        add(&mut cells, n, (to - 1) / 2, to, TT);
        add(&mut cells, n, 1 + (to + 2) % (n - 1), to, TF);
    }
    Register {
        header: header(n, 0),
        cells,
        cut: pair(1, 3),
        spare: pair(n - 1, 2),
        asked: Office(n - 1),
    }
}

/// Every cell that may hold a record holds some, but for the spare one. SOA grants TT to office 1 alone, which grants it to all.
fn dense(n: u16) -> Register {
    let mut cells = empty(n);
    let spare = pair(n - 1, 2);
    for by in 0..n {
        for to in (1..n).filter(|to| *to != by) {
            if pair(by, to) != spare {
                add(&mut cells, n, by, to, dense_cell(by, to));
            }
        }
    }
    Register {
        header: header(n, 0),
        cells,
        cut: pair(1, n / 2),
        spare,
        asked: Office(n - 1),
    }
}

/// Offices above 1 grant any set of permissions but none and all.
fn dense_cell(by: u16, to: u16) -> u8 {
    match (by, to) {
        (0, 1) | (1, _) => TT,
        (0, _) => FF,
        _ => 1 + ((by * 5 + to * 3) % 14) as u8,
    }
}

/// SOA grants TT to office 1, and from there it goes round all others and back to office 1.
fn ring(n: u16) -> Register {
    let mut cells = empty(n);
    add(&mut cells, n, 0, 1, TT);
    for by in 1..n {
        add(&mut cells, n, by, 1 + by % (n - 1), TT);
    }
    Register {
        header: header(n, 0),
        cells,
        cut: pair(n / 2, n / 2 + 1),
        spare: pair(n - 1, 2),
        asked: Office(n - 1),
    }
}

/// SOA is the last office, and each office grants TT to the one with the number below: the rounds of the levels visit offices
/// upwards, and the chain runs downwards.
fn line(n: u16) -> Register {
    let mut cells = empty(n);
    for to in 0..n - 1 {
        add(&mut cells, n, to + 1, to, TT);
    }
    Register {
        header: header(n, n - 1),
        cells,
        cut: pair(n / 2, n / 2 - 1),
        spare: pair(0, n - 2),
        asked: Office(0),
    }
}
