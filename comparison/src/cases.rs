//! The worked cases of 01, on both sides and against what 01 says.

use crate::compare::commands::{command, run};
use crate::compare::lent::part_of;
use crate::compare::questions::holding;
use crate::maps::{Map, FF, FT, TF, TT};
use crate::told::{Seen, Told};
use rights_register::{Command, Entry, Office};

type Record = (u16, u16, u8);

const GRANT: u8 = 0;
const WLD: u8 = 1;
const WGD: u8 = 2;
const SLD: u8 = 3;
const SGD: u8 = 4;

const LAYER: u16 = 7;
const A: &[Record] = &[(0, 1, TT), (0, 3, TF), (1, 2, TT), (2, 4, TT), (3, 2, TF)];
const B: &[Record] = &[(0, 1, TT), (1, 2, TT), (1, 3, TT), (3, 2, TF)];
const C: &[Record] = &[(0, 1, TT), (1, 2, TT), (2, 1, TT)];

fn map(n: u16, records: &[Record]) -> Map {
    Map::empty(n, 0, LAYER).with(records)
}

fn give(told: &mut Told, map: &mut Map, act: u8, by: u16, to: u16, perm: u8) -> Seen {
    let given = Command {
        act,
        layer: map.header.layer,
        by: Office(by),
        to: Office(to),
        perm,
    };
    command(told, map, given)
}

fn says(told: &mut Told, case: u8, right: bool) {
    told.same(right, || format!("case {case}: 01 says otherwise"));
}

/// The deletions one after the other leave these records; the last one's tally is as 01 gives it,
/// where it does.
fn cut(
    told: &mut Told,
    case: u8,
    start: &Map,
    acts: &[(u8, u16, u16)],
    left: &[Record],
    tally: Option<[u64; 2]>,
) {
    let mut after = start.clone();
    let mut last = None;
    for (act, by, to) in acts {
        let seen = give(told, &mut after, *act, *by, *to, 0);
        says(told, case, seen.answer == 0);
        last = Some(seen);
    }
    says(told, case, after.cells == map(start.header.n, left).cells);
    if let (Some(seen), Some(tally)) = (last, tally) {
        says(told, case, seen.numbers == tally);
    }
}

fn cuts_of_a(told: &mut Told) {
    let a = map(5, A);
    let left = [(0, 3, TF), (2, 4, TF), (3, 2, TF)];
    cut(told, 1, &a, &[(WGD, 0, 1)], &left, Some([3, 1]));
    let left = [(0, 2, TT), (0, 3, TF), (2, 4, TT), (3, 2, TF)];
    cut(told, 2, &a, &[(WLD, 0, 1)], &left, Some([2, 1]));
    let left = [(0, 1, TT), (0, 3, TF), (2, 4, TF), (3, 2, TF)];
    cut(told, 3, &a, &[(WGD, 1, 2)], &left, Some([2, 1]));
    let left = [(0, 1, TT), (0, 3, TF), (1, 4, TT), (2, 4, TF), (3, 2, TF)];
    cut(told, 4, &a, &[(WLD, 1, 2)], &left, Some([2, 2]));
    cut(told, 4, &a, &[(SLD, 1, 2)], &left, Some([2, 2]));
    for acts in [[(WGD, 0, 1), (WGD, 3, 2)], [(WGD, 3, 2), (WGD, 0, 1)]] {
        cut(told, 5, &a, &acts, &[(0, 3, TF)], None);
    }
}

fn cuts_of_b_and_c(told: &mut Told) {
    let (b, c) = (map(4, B), map(3, C));
    let left = [(0, 1, TT), (1, 3, TT), (3, 2, TF)];
    cut(told, 6, &b, &[(WGD, 1, 2)], &left, None);
    cut(told, 6, &b, &[(SGD, 1, 2)], &[(0, 1, TT), (1, 3, TT)], None);
    cut(told, 7, &c, &[(WGD, 0, 1)], &[], None);
    let left = [(0, 2, TT), (2, 1, TT)];
    cut(told, 7, &c, &[(WLD, 0, 1)], &left, None);
    let seen = holding(told, &map(3, &left), 1, TT, &[0; 3]);
    says(told, 7, seen.answer == 0);
}

fn chains(told: &mut Told) {
    let mut a = map(5, A);
    let asked = |told: &mut Told, a: &Map, office, perm, chain: &[u8]| {
        let seen = holding(told, a, office, perm, &[99; 5]);
        says(told, 8, seen.numbers == [chain.len() as u64]);
        says(told, 8, part_of(&seen.buffers[0]).starts_with(chain));
        seen.answer
    };
    asked(told, &a, 4, TF, &[0, 1, 2, 4]);
    asked(told, &a, 0, TT, &[0]);
    let answer = asked(told, &a, 3, FT, &[]);
    says(told, 8, answer == 12);
    give(told, &mut a, WGD, 0, 1, 0);
    asked(told, &a, 4, TF, &[0, 3, 2, 4]);
}

fn grants_and_refusals(told: &mut Told) {
    let steps = [
        (GRANT, 3, 4, FF, 0),
        (GRANT, 3, 4, FT, 8),
        (GRANT, 0, 1, TT, 9),
        (GRANT, 0, 1, TF, 0),
        (GRANT, 4, 0, TT, 7),
        (WGD, 4, 1, 0, 10),
    ];
    for (act, by, to, perm, answer) in steps {
        let seen = give(told, &mut map(5, A), act, by, to, perm);
        says(told, 9, seen.answer == answer);
    }
    let mut a = map(5, A);
    give(told, &mut a, WGD, 0, 1, 0);
    let seen = give(told, &mut a, WGD, 1, 2, 0);
    says(told, 9, seen.answer == 10);
}

fn runs_and_sizes(told: &mut Told) {
    let grant = Command {
        act: GRANT,
        layer: map(5, A).header.layer,
        by: Office(0),
        to: Office(1),
        perm: TF,
    };
    for (many, answer) in [(0, 0), (1, 0), (256, 0), (257, 16)] {
        let entries = vec![Entry::new(grant); many];
        let seen = run(told, &map(5, A), &entries);
        says(told, 10, seen.answer == answer);
    }
    for n in [1, 129] {
        let seen = give(told, &mut map(n, &[]), GRANT, 0, 1, TT);
        says(told, 10, seen.answer == 1);
    }
}

pub fn all(told: &mut Told) {
    cuts_of_a(told);
    cuts_of_b_and_c(told);
    chains(told);
    grants_and_refusals(told);
    runs_and_sizes(told);
}
