//! What is timed is what the table says: registers that are sound, commands that are done, and a line that costs a round an office.

use bench::operations::{Desk, Operation, OPERATIONS};
use bench::plain::levels::levels;
use bench::plain::sound::register_refusal;
use bench::registers::{register, Kind, KINDS};
use bench::sides::{RATTLE, RUST};

const SIZES: [u16; 3] = [8, 16, 32];

fn each() -> impl Iterator<Item = (Kind, u16)> {
    KINDS.into_iter().flat_map(|kind| SIZES.map(|n| (kind, n)))
}

#[test]
fn registers_are_sound_and_every_office_holds_tt() {
    for (kind, n) in each() {
        let made = register(kind, n);
        assert_eq!(
            register_refusal(&made.cells, made.header),
            Ok(()),
            "{kind:?} {n}"
        );
        let levels = levels(&made.cells, made.header);
        assert!(levels[..usize::from(n)].iter().all(|level| *level == 2));
    }
}

#[test]
fn both_sides_do_the_same() {
    for (kind, n) in each() {
        for operation in OPERATIONS {
            let desk = Desk::new(&register(kind, n));
            let (mut one, mut other) = (desk.clone(), desk);
            let answers = [
                one.perform(operation, &RATTLE),
                other.perform(operation, &RUST),
            ];
            assert_eq!(answers[0], answers[1], "{operation:?} {kind:?} {n}");
            assert_eq!(one, other, "{operation:?} {kind:?} {n}");
        }
    }
}

#[test]
fn what_is_timed_is_done() {
    for (kind, n) in each() {
        let start = register(kind, n);
        let mut desk = Desk::new(&start);
        for operation in OPERATIONS {
            let answer = desk.perform(operation, &RUST);
            let expected = if operation == Operation::Soundness {
                4
            } else {
                0
            };
            assert_eq!(answer.number, expected, "{operation:?} {kind:?} {n}");
        }
        assert_eq!(desk.perform(Operation::Read, &RUST).number, 0);
        assert_eq!(desk.cells, start.cells, "the text is the register's");
    }
}

#[test]
fn a_run_does_each_command_and_leaves_the_register_as_it_was() {
    for (kind, n) in each() {
        let start = register(kind, n);
        let mut desk = Desk::new(&start);
        let answer = desk.perform(Operation::Run, &RUST);
        assert_eq!(answer.counts, [128, 128], "{kind:?} {n}");
        assert!(desk.entries.iter().all(|entry| entry.answer == 0));
        assert_eq!(desk.cells, start.cells, "{kind:?} {n}");
    }
}

#[test]
fn the_line_is_as_long_as_it_can_be() {
    for n in SIZES {
        let mut desk = Desk::new(&register(Kind::Line, n));
        let answer = desk.perform(Operation::Question, &RUST);
        assert_eq!(answer.counts[0], u64::from(n));
        let downwards: Vec<u8> = (0..n as u8).rev().collect();
        assert_eq!(desk.chain, downwards);
    }
}
