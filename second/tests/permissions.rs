//! The tables of 01 about permissions and cells, written out in full.

use second::permission::Permission::{self, FF, FT, TF, TT};
use second::permission::{byte_of_cell, carries, cell_from_byte, restrict, PERMISSIONS};

/// All pairs for which the relation holds, in the order of the list.
fn pairs(relation: impl Fn(Permission, Permission) -> bool) -> Vec<(Permission, Permission)> {
    let all = PERMISSIONS
        .into_iter()
        .flat_map(|p| PERMISSIONS.into_iter().map(move |q| (p, q)));
    all.filter(|(p, q)| relation(*p, *q)).collect()
}

#[test]
fn entitles_as_listed() {
    let listed = [(TT, TT), (TT, TF), (TT, FT), (TT, FF), (TF, TF), (TF, FF)];
    assert_eq!(pairs(Permission::entitles), listed);
}

#[test]
fn stronger_as_listed() {
    let listed = [(TT, TF), (TT, FT), (TT, FF), (TF, FF), (FT, FF)];
    assert_eq!(pairs(Permission::stronger), listed);
}

#[test]
fn carries_for_all_sixteen_cells() {
    for byte in 0..16u8 {
        let cell = cell_from_byte(byte).unwrap();
        assert_eq!(carries(&cell, TT), byte >= 8);
        assert_eq!(carries(&cell, TF), byte >= 4);
        assert_eq!(carries(&cell, FT), byte & 10 != 0);
        assert_eq!(carries(&cell, FF), byte != 0);
    }
}

#[test]
fn restrict_for_all_sixteen_cells() {
    let level_1 = [0, 1, 1, 1, 4, 5, 5, 5, 4, 5, 5, 5, 4, 5, 5, 5];
    for (byte, expected) in (0u8..).zip(level_1) {
        let cell = cell_from_byte(byte).unwrap();
        assert_eq!(byte_of_cell(&restrict(&cell, 2)), byte);
        assert_eq!(byte_of_cell(&restrict(&cell, 1)), expected);
        assert_eq!(byte_of_cell(&restrict(&cell, 0)), 0);
    }
}

#[test]
fn a_byte_above_15_is_no_cell() {
    for byte in 0..=255u8 {
        let back = cell_from_byte(byte).map(|cell| byte_of_cell(&cell));
        assert_eq!(back, if byte <= 15 { Some(byte) } else { None });
    }
}
