//! Commands and runs.

use super::lent::{kept, Lent};
use super::shown;
use crate::calls::Call;
use crate::maps::Map;
use crate::told::{Seen, Told};
use rights_register::{raw, Answer, Command, Entry};

fn of_second(map: &Map, cells: &mut [u8], command: &Command) -> second::Outcome {
    let header = map.header;
    second::command(
        cells,
        header.n,
        header.soa.0,
        header.layer.0,
        command.act,
        command.layer.0,
        command.by.0,
        command.to.0,
        command.perm,
    )
}

/// Carries out the command on the map, and gives what was seen.
pub fn command(told: &mut Told, map: &mut Map, command: Command) -> Seen {
    let before = map.clone();
    let mut cells = map.cells.clone();
    let outcome = of_second(map, &mut cells, &command);
    let theirs = Seen {
        answer: outcome.answer,
        numbers: vec![outcome.removed.into(), outcome.added.into()],
        buffers: vec![kept(&cells)],
    };
    let mut cells = Lent::of(&map.cells);
    let outcome = raw::command(cells.part(), map.header, command);
    map.cells.copy_from_slice(cells.part());
    let ours = Seen {
        answer: outcome.answer,
        numbers: vec![outcome.removed.into(), outcome.added.into()],
        buffers: vec![cells.whole()],
    };
    let input = || format!("{command:?} to {}", shown(&before));
    told.judge(Call::Command, &ours, &theirs, input);
    ours
}

/// Every field of every entry as numbers, the places for the answers too.
fn flat(entries: &[Entry]) -> impl Iterator<Item = u64> + '_ {
    entries.iter().flat_map(|entry| {
        let Entry { command, answer } = entry;
        let numbers = [command.layer.0, command.by.0, command.to.0].map(u64::from);
        let bytes = [command.act, command.perm, answer.byte()].map(u64::from);
        numbers.into_iter().chain(bytes)
    })
}

fn run_seen(answer: u8, tally: [u64; 2], entries: &[Entry], cells: Vec<u8>) -> Seen {
    Seen {
        answer,
        numbers: tally.into_iter().chain(flat(entries)).collect(),
        buffers: vec![cells],
    }
}

/// A run that kept to the entries and the cells.
fn run_kept(answer: u8, tally: [u64; 2], entries: &[Entry], cells: &[u8]) -> Seen {
    run_seen(answer, tally, &kept(entries), kept(cells))
}

fn run_of_second(map: &Map, entries: &[Entry]) -> Seen {
    let header = map.header;
    let mut cells = map.cells.clone();
    let lent = entries.iter().map(|entry| second::Entry {
        act: entry.command.act,
        layer: entry.command.layer.0,
        by: entry.command.by.0,
        to: entry.command.to.0,
        perm: entry.command.perm,
        answer: entry.answer.byte(),
    });
    let mut lent: Vec<second::Entry> = lent.collect();
    let (n, soa, layer) = (header.n, header.soa.0, header.layer.0);
    let ran = second::run(&mut cells, n, soa, layer, &mut lent);
    let after: Vec<Entry> = lent.iter().map(entry_of_second).collect();
    let tally = [ran.removed.into(), ran.added.into()];
    run_kept(ran.answer, tally, &after, &cells)
}

fn entry_of_second(entry: &second::Entry) -> Entry {
    Entry {
        command: Command {
            act: entry.act,
            layer: rights_register::Layer(entry.layer),
            by: rights_register::Office(entry.by),
            to: rights_register::Office(entry.to),
            perm: entry.perm,
        },
        answer: Answer::from_byte(entry.answer),
    }
}

/// What the same commands do one by one, through the binding.
fn one_by_one(map: &Map, entries: &[Entry]) -> Seen {
    let (mut cells, mut entries) = (Lent::of(&map.cells), entries.to_vec());
    let mut tally = [0; 2];
    for entry in &mut entries {
        let outcome = raw::command(cells.part(), map.header, entry.command);
        entry.answer = Answer::from_byte(outcome.answer);
        tally[0] += u64::from(outcome.removed);
        tally[1] += u64::from(outcome.added);
    }
    run_seen(0, tally, &kept(&entries), cells.whole())
}

/// Runs the entries on both sides, and compares the run with its commands one by one too, or one of
/// more than 256 with nothing done.
pub fn run(told: &mut Told, map: &Map, entries: &[Entry]) -> Seen {
    let (mut cells, mut lent) = (Lent::of(&map.cells), Lent::of(entries));
    let ran = raw::run(cells.part(), map.header, lent.part());
    let tally = [ran.tally.removed, ran.tally.added];
    let ours = run_seen(ran.answer, tally, &lent.whole(), cells.whole());
    let theirs = run_of_second(map, entries);
    let input = || format!("{entries:?} on {}", shown(map));
    told.judge(Call::Run, &ours, &theirs, input);
    let singly = match entries.len() {
        0..=256 => one_by_one(map, entries),
        _ => run_kept(16, [0; 2], entries, &map.cells),
    };
    told.same(ours == singly, || {
        format!("run and one by one: {}", input())
    });
    ours
}
