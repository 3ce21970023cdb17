//! The four schemes once more, on bytes, with levels found by trying all
//! chains. Slow, so only for few offices.

mod support;

use second::chains_by_length::first_chain;
use second::permission::Permission;
use support::*;

/// The byte of a cell restricted to level 0, 1 and 2.
fn restricted(byte: u8, level: u8) -> u8 {
    let turned = if byte & (TT | TF) != 0 { TF } else { 0 };
    let merged = if byte & (FT | FF) != 0 { FF } else { 0 };
    [0, turned | merged, byte][usize::from(level)]
}

fn holds(map: &Map, office: u16, p: Permission, unnamed: Option<u16>) -> bool {
    first_chain(&map.register(), office, p, unnamed).is_some()
}

fn level(map: &Map, office: u16, unnamed: Option<u16>) -> u8 {
    if holds(map, office, Permission::TT, unnamed) {
        2
    } else {
        u8::from(holds(map, office, Permission::TF, unnamed))
    }
}

fn levels(map: &Map, unnamed: Option<u16>) -> Vec<u8> {
    (0..map.n)
        .map(|office| level(map, office, unnamed))
        .collect()
}

fn place(map: &Map, by: u16, to: u16) -> usize {
    usize::from(by) * usize::from(map.n) + usize::from(to)
}

fn restrict_at(map: &mut Map, by: u16, to: u16, level: u8) {
    let place = place(map, by, to);
    map.cells[place] = restricted(map.cells[place], level);
}

fn sweep(map: &mut Map) {
    let levels = levels(map, None);
    for by in 0..map.n {
        for to in 0..map.n {
            restrict_at(map, by, to, levels[usize::from(by)]);
        }
    }
}

fn restrict_column(map: &mut Map, to: u16, independent: &[u8]) {
    for by in 0..map.n {
        restrict_at(map, by, to, independent[usize::from(by)]);
    }
}

fn row_as_in_wld(before: &Map, map: &mut Map, by: u16, to: u16) {
    let level = level(map, to, None);
    for subject in 0..map.n {
        restrict_at(map, to, subject, level);
        let gone = before.cell(to, subject) & !map.cell(to, subject);
        if subject != by {
            let place = place(map, by, subject);
            map.cells[place] |= gone;
        }
    }
}

fn held_count(map: &Map, office: u16) -> usize {
    questions(map.n)
        .filter(|(o, p)| *o == office && holds(map, office, *p, None))
        .count()
}

fn rounds_of_sgd(before: &Map, map: &mut Map, independent: &[u8]) {
    loop {
        let last = map.clone();
        for office in (0..map.n).filter(|o| held_count(&last, *o) < held_count(before, *o)) {
            restrict_column(map, office, independent);
        }
        sweep(map);
        if *map == last {
            return;
        }
    }
}

fn deleted(before: &Map, act: u8, by: u16, to: u16) -> Map {
    let mut map = before.clone();
    let independent = levels(before, Some(by));
    match act {
        WLD | WGD => restrict_at(&mut map, by, to, 0),
        _ => restrict_column(&mut map, to, &independent),
    }
    match act {
        WLD | SLD => row_as_in_wld(before, &mut map, by, to),
        _ => sweep(&mut map),
    }
    if act == SGD {
        rounds_of_sgd(before, &mut map, &independent);
    }
    map
}

#[test]
fn each_scheme_gives_what_all_chains_give() {
    let mut random = Random(31);
    let mut unlike = [0; 5];
    for _ in 0..150 {
        let before = random_map(&mut random, 2, 5);
        let mut links: Vec<(u16, u16)> = before
            .register()
            .records()
            .iter()
            .map(|record| (record.by, record.to))
            .collect();
        random.shuffle(&mut links);
        for (by, to) in links.into_iter().take(4) {
            let ends: Vec<Map> = [WLD, WGD, SLD, SGD]
                .into_iter()
                .map(|act| check_scheme(&before, act, by, to))
                .collect();
            let schemes = [WGD, SLD, SGD].into_iter().zip(&ends[1..]);
            for (act, end) in schemes {
                unlike[usize::from(act)] += u32::from(*end != ends[0]);
            }
        }
    }
    assert!(
        unlike[2..].iter().all(|count| *count > 10),
        "unlike WLD: {unlike:?}"
    );
}

fn check_scheme(before: &Map, act: u8, by: u16, to: u16) -> Map {
    let mut map = before.clone();
    assert_eq!(map.give(act, by, to, 0).answer, 0);
    assert_eq!(
        map,
        deleted(before, act, by, to),
        "act {act} {by} {to} on {before:?}"
    );
    map
}
