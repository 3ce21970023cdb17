//! What `rights.h` says of the stack, with the largest register and the longest chain there can be.

use rights_register::{raw, register_text};
use rights_register::{Command, Entry, Header, Layer, Office, Permission};
use std::thread;

const STACK: usize = 128 * 1024;

const HEADER: Header = Header {
    n: 128,
    soa: Office(0),
    layer: Layer(7),
};

/// Each office grants TT to the next one.
fn line() -> Vec<u8> {
    let mut cells = vec![0; 128 * 128];
    for office in 0..127 {
        cells[office * 128 + office + 1] = Permission::TT.code();
    }
    cells
}

/// One of each deletion, from the end of the line on.
fn cuts() -> Vec<Entry> {
    let deletions = [Command::wld, Command::wgd, Command::sld, Command::sgd];
    let pairs = (1..128).rev().map(|to| (Office(to - 1), Office(to)));
    let cuts = deletions.into_iter().zip(pairs);
    cuts.map(|(deletion, (by, to))| Entry::new(deletion(HEADER.layer, by, to)))
        .collect()
}

fn call_all(text: &[u8], room: &mut [u8], cells: &mut [u8], entries: &mut [Entry]) {
    assert_eq!(raw::read_register(text, cells).answer, 0);
    let held = raw::holding(cells, HEADER, Office(127), 8, room);
    assert_eq!((held.answer, held.offices), (0, 128));
    assert_eq!(raw::write_header(HEADER, room).answer, 0);
    assert_eq!(raw::write_row(cells, HEADER, Office(126), room).answer, 0);
    assert_eq!(raw::write_end(room).answer, 0);
    assert_eq!(raw::read_command(text).answer, 13);
    assert_eq!(raw::run(cells, HEADER, entries).answer, 0);
    assert!(entries.iter().all(|entry| entry.outcome() == Some(Ok(()))));
}

#[test]
fn every_call_does_with_128_kib_of_stack() {
    let text = register_text(&line(), HEADER).expect("the line is sound");
    let (mut room, mut cells, mut entries) = (vec![0; 128], line(), cuts());
    let calls = move || call_all(&text, &mut room, &mut cells, &mut entries);
    let started = thread::Builder::new().stack_size(STACK).spawn(calls);
    let ended = started.expect("a thread starts").join();
    ended.expect("no call fails");
}
