//! The four deletion schemes. Each takes the register before and gives the
//! register after; `by` is i and `to` is j.

use crate::chains::{independent_levels, Holdings};
use crate::permission::Cell;
use crate::register::{Record, Register};

/// Restricts every row to its office's level, all levels taken first.
pub fn sweep(register: &mut Register) {
    let levels = Holdings::of(register).levels();
    for (office, level) in (0..register.n).zip(levels) {
        register.restrict_row(office, level);
    }
}

pub fn wgd(before: &Register, by: u16, to: u16) -> Register {
    let mut after = before.clone();
    after.set_cell(by, to, Cell::new());
    sweep(&mut after);
    after
}

pub fn wld(before: &Register, by: u16, to: u16) -> Register {
    let mut after = before.clone();
    after.set_cell(by, to, Cell::new());
    hand_on_what_goes(before, &mut after, by, to);
    after
}

pub fn sld(before: &Register, by: u16, to: u16) -> Register {
    let mut after = before.clone();
    after.restrict_column(to, &independent_levels(before, by));
    hand_on_what_goes(before, &mut after, by, to);
    after
}

/// Row j is restricted to the level j has now; the records that stood before
/// and are gone now are added in i's name, except a record to i itself.
fn hand_on_what_goes(before: &Register, after: &mut Register, by: u16, to: u16) {
    let level = Holdings::of(after).level(to);
    after.restrict_row(to, level);
    let still_there = after.row_records(to);
    for record in before.row_records(to).difference(&still_there) {
        if record.to != by {
            after.add(Record { by, ..*record });
        }
    }
}

pub fn sgd(before: &Register, by: u16, to: u16) -> Register {
    let mut steps = sgd_steps(before, by, to);
    steps.pop().expect("there is a first step")
}

/// The register after the first column and its sweep, and after each round
/// that altered something.
pub fn sgd_steps(before: &Register, by: u16, to: u16) -> Vec<Register> {
    let independent = independent_levels(before, by);
    let held_before = Holdings::of(before);
    let mut now = before.clone();
    now.restrict_column(to, &independent);
    sweep(&mut now);
    let mut steps = vec![now];
    loop {
        let last = &steps[steps.len() - 1];
        let next = sgd_round(last, &held_before, &independent);
        if next == *last {
            return steps;
        }
        steps.push(next);
    }
}

/// The offices that hold fewer permissions are taken once, as the round
/// begins; then all their columns are restricted, and one sweep follows.
fn sgd_round(now: &Register, held_before: &Holdings, independent: &[u8]) -> Register {
    let held_now = Holdings::of(now);
    let mut next = now.clone();
    for office in 0..now.n {
        if held_now.of_office(office).len() < held_before.of_office(office).len() {
            next.restrict_column(office, independent);
        }
    }
    sweep(&mut next);
    next
}
