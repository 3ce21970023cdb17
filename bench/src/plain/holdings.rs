//! The functions of `crates/holdings/src/lib.rt`.

use super::registers::Register;
use super::rights::{Header, Office, Permission};
use super::{carrying, levels};

#[derive(Debug, PartialEq, Eq)]
struct Levelled<'a> {
    register: Register<'a>,
    levels: [u8; 128],
}

impl<'a> Levelled<'a> {
    fn of(register: Register<'a>) -> Levelled<'a> {
        Levelled {
            register,
            levels: levels::levels(register.cells, register.header),
        }
    }

    fn passes_on(&self, perm: Permission, y: u16, x: u16) -> bool {
        carrying::suffices(self.levels[x as usize], perm)
            && carrying::carries_as(self.register.cell(Office(x), Office(y)), perm)
    }

    fn holds(&self, perm: Permission, y: u16) -> bool {
        y == self.register.header.soa.0
            || (0..self.register.header.n).any(|x| self.passes_on(perm, y, x))
    }
}

#[derive(Debug, PartialEq, Eq)]
struct Change<'a> {
    before: Levelled<'a>,
    after: Levelled<'a>,
}

impl<'a> Change<'a> {
    fn loses_one(&self, y: u16, perm: Permission) -> bool {
        self.before.holds(perm, y) && !self.after.holds(perm, y)
    }

    fn loses(&self, y: u16) -> bool {
        Permission::ALL.iter().any(|perm| self.loses_one(y, *perm))
    }

    fn losers(&self) -> [u8; 128] {
        let mut marks = [0; 128];
        for y in 0..self.before.register.header.n {
            marks[y as usize] = u8::from(self.loses(y));
        }
        marks
    }
}

pub fn losers(before: &[u8], after: &[u8], header: Header) -> [u8; 128] {
    match (Register::of(before, header), Register::of(after, header)) {
        (Some(before), Some(after)) => Change {
            before: Levelled::of(before),
            after: Levelled::of(after),
        }
        .losers(),
        _ => [0; 128],
    }
}
