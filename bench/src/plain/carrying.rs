//! The functions of `crates/carrying/src/lib.rt`.

use super::rights::Permission;

pub fn carries_as(c: u8, perm: Permission) -> bool {
    match perm {
        Permission::TT => c / 8 % 2 == 1,
        Permission::TF => c / 4 % 4 != 0,
        Permission::FT => c / 8 % 2 + c / 2 % 2 != 0,
        Permission::FF => c % 16 != 0,
    }
}

pub fn carries(c: u8, perm: u8) -> bool {
    carries_as(c, Permission::decoded(perm))
}

fn needed(perm: Permission) -> u8 {
    match perm {
        Permission::TT | Permission::FT => 2,
        Permission::TF | Permission::FF => 1,
    }
}

pub fn suffices(level: u8, perm: Permission) -> bool {
    needed(perm) <= level
}

pub fn enough(perm: u8, level: u8) -> bool {
    suffices(level, Permission::decoded(perm))
}

pub fn restrict(c: u8, level: u8) -> u8 {
    match level {
        0 => 0,
        1 => (c / 4 % 4).min(1) * 4 + (c % 4).min(1),
        _ => c,
    }
}
