//! The register as a map from pairs of offices to their cells.

use crate::permission::{byte_of_cell, carries, cell_from_byte, restrict, Cell, Permission};
use std::collections::{BTreeMap, BTreeSet};

/// Ordered as the register text orders records: grantor, subject, permission.
#[derive(Clone, Copy, Debug, PartialEq, Eq, PartialOrd, Ord)]
pub struct Record {
    pub by: u16,
    pub to: u16,
    pub permission: Permission,
}

/// Empty cells are not kept, so equal registers are equal values.
#[derive(Clone, Debug, PartialEq, Eq)]
pub struct Register {
    pub n: u16,
    pub soa: u16,
    cells: BTreeMap<(u16, u16), Cell>,
}

impl Register {
    pub fn empty(n: u16, soa: u16) -> Register {
        Register {
            n,
            soa,
            cells: BTreeMap::new(),
        }
    }

    /// No register unless there are n·n bytes and each stands for a cell.
    pub fn from_bytes(bytes: &[u8], n: u16, soa: u16) -> Option<Register> {
        let offices = usize::from(n);
        if bytes.len() != offices * offices {
            return None;
        }
        let mut register = Register::empty(n, soa);
        let places = (0..n).flat_map(|by| (0..n).map(move |to| (by, to)));
        for ((by, to), byte) in places.zip(bytes) {
            register.set_cell(by, to, cell_from_byte(*byte)?);
        }
        Some(register)
    }

    pub fn to_bytes(&self) -> Vec<u8> {
        let offices = usize::from(self.n);
        let mut bytes = vec![0; offices * offices];
        for ((by, to), cell) in &self.cells {
            bytes[usize::from(*by) * offices + usize::from(*to)] = byte_of_cell(cell);
        }
        bytes
    }

    pub fn cell(&self, by: u16, to: u16) -> Cell {
        self.cells.get(&(by, to)).cloned().unwrap_or_default()
    }

    pub fn set_cell(&mut self, by: u16, to: u16, cell: Cell) {
        if cell.is_empty() {
            self.cells.remove(&(by, to));
        } else {
            self.cells.insert((by, to), cell);
        }
    }

    pub fn add(&mut self, record: Record) {
        let cell = self.cells.entry((record.by, record.to)).or_default();
        cell.insert(record.permission);
    }

    pub fn has(&self, record: Record) -> bool {
        self.cell(record.by, record.to).contains(&record.permission)
    }

    pub fn link_carries(&self, by: u16, to: u16, p: Permission) -> bool {
        self.cells
            .get(&(by, to))
            .is_some_and(|cell| carries(cell, p))
    }

    /// The links out of `by` that are not empty, each as its subject and cell.
    pub fn row(&self, by: u16) -> impl Iterator<Item = (u16, &Cell)> {
        let row = self.cells.range((by, 0)..=(by, u16::MAX));
        row.map(|((_, to), cell)| (*to, cell))
    }

    pub fn row_records(&self, by: u16) -> BTreeSet<Record> {
        let record = move |to: u16, p: &Permission| Record {
            by,
            to,
            permission: *p,
        };
        self.row(by)
            .flat_map(|(to, cell)| cell.iter().map(move |p| record(to, p)))
            .collect()
    }

    pub fn records(&self) -> BTreeSet<Record> {
        (0..self.n).flat_map(|by| self.row_records(by)).collect()
    }

    pub fn restrict_row(&mut self, by: u16, level: u8) {
        for to in 0..self.n {
            self.restrict_cell(by, to, level);
        }
    }

    /// Each cell of the column is restricted to the level of its own grantor.
    pub fn restrict_column(&mut self, to: u16, level_of_grantor: &[u8]) {
        for by in 0..self.n {
            self.restrict_cell(by, to, level_of_grantor[usize::from(by)]);
        }
    }

    fn restrict_cell(&mut self, by: u16, to: u16, level: u8) {
        let restricted = restrict(&self.cell(by, to), level);
        self.set_cell(by, to, restricted);
    }
}
