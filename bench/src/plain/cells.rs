//! The functions of `crates/cells/src/lib.rt`.

use super::rights::Permission;

pub fn is_code(perm: u8) -> bool {
    matches!(perm, 8 | 4 | 2 | 1)
}

pub fn stands(c: u8, perm: Permission) -> bool {
    match perm {
        Permission::TT => c / 8 % 2 == 1,
        Permission::TF => c / 4 % 2 == 1,
        Permission::FT => c / 2 % 2 == 1,
        Permission::FF => c % 2 == 1,
    }
}

pub fn has(c: u8, perm: u8) -> bool {
    stands(c, Permission::decoded(perm))
}

fn code_if(stands: bool, perm: Permission) -> u8 {
    if stands {
        perm.code()
    } else {
        0
    }
}

fn cell_of<F: Fn(Permission) -> bool>(test: F) -> u8 {
    code_if(test(Permission::TT), Permission::TT)
        + code_if(test(Permission::TF), Permission::TF)
        + code_if(test(Permission::FT), Permission::FT)
        + code_if(test(Permission::FF), Permission::FF)
}

pub fn union(a: u8, b: u8) -> u8 {
    cell_of(|perm| stands(a, perm) || stands(b, perm))
}

pub fn without(a: u8, b: u8) -> u8 {
    cell_of(|perm| stands(a, perm) && !stands(b, perm))
}

pub fn size(c: u8) -> u8 {
    c / 8 % 2 + c / 4 % 2 + c / 2 % 2 + c % 2
}
