//! The four permissions, and cells as sets of them.

use std::collections::BTreeSet;

/// In the order in which the register text names the records of a cell.
#[derive(Clone, Copy, Debug, PartialEq, Eq, PartialOrd, Ord)]
pub enum Permission {
    TT,
    TF,
    FT,
    FF,
}

use Permission::{FF, FT, TF, TT};

pub const PERMISSIONS: [Permission; 4] = [TT, TF, FT, FF];

/// A cell is a set of permissions; each member is one record.
pub type Cell = BTreeSet<Permission>;

impl Permission {
    pub fn code(self) -> u8 {
        match self {
            TT => 8,
            TF => 4,
            FT => 2,
            FF => 1,
        }
    }

    pub fn from_code(code: u8) -> Option<Permission> {
        PERMISSIONS.into_iter().find(|p| p.code() == code)
    }

    pub fn name(self) -> &'static str {
        match self {
            TT => "TT",
            TF => "TF",
            FT => "FT",
            FF => "FF",
        }
    }

    pub fn from_name(name: &str) -> Option<Permission> {
        PERMISSIONS.into_iter().find(|p| p.name() == name)
    }

    pub fn entitles(self, other: Permission) -> bool {
        match self {
            TT => true,
            TF => other == TF || other == FF,
            FT | FF => false,
        }
    }

    pub fn stronger(self, other: Permission) -> bool {
        match self {
            TT => other != TT,
            TF | FT => other == FF,
            FF => false,
        }
    }
}

/// A link carries `p` if its cell holds `p` or something stronger.
pub fn carries(cell: &Cell, p: Permission) -> bool {
    cell.iter().any(|q| *q == p || q.stronger(p))
}

/// Restricting to level 1 may turn two records into one; the set merges them.
pub fn restrict(cell: &Cell, level: u8) -> Cell {
    match level {
        0 => Cell::new(),
        1 => cell
            .iter()
            .map(|p| without_right_to_issue_negatives(*p))
            .collect(),
        _ => cell.clone(),
    }
}

/// Level 1 takes away the second letter: TT becomes TF and FT becomes FF.
fn without_right_to_issue_negatives(p: Permission) -> Permission {
    match p {
        TT => TF,
        FT => FF,
        TF | FF => p,
    }
}

/// No cell for a byte above 15, which stands for no set of permissions.
pub fn cell_from_byte(byte: u8) -> Option<Cell> {
    let cell: Cell = PERMISSIONS
        .into_iter()
        .filter(|p| byte / p.code() % 2 == 1)
        .collect();
    if byte_of_cell(&cell) == byte {
        Some(cell)
    } else {
        None
    }
}

pub fn byte_of_cell(cell: &Cell) -> u8 {
    cell.iter().map(|p| p.code()).sum()
}
