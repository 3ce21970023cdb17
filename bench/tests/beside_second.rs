//! The port beside `second`, on random registers and texts: the same answers, and the same bytes in every buffer that is lent. The
//! seeds are fixed.

#[path = "../../second/tests/support/mod.rs"]
mod support;

use bench::plain::rights::{Command, Entry, Header, Layer, Office};
use bench::plain::{
    command_reader, commands, frames, questions, register_reader, row_writer, runs,
};
use support::{random_clean_map, random_map, Map, Random};
use support::{FF, FT, GRANT, LAYER, SGD, TF, TT};

const PERMS: [u8; 6] = [8, 4, 2, 1, 0, 3];

fn header(map: &Map) -> Header {
    Header {
        n: map.n,
        soa: Office(map.soa),
        layer: Layer(LAYER),
    }
}

/// Mostly a sound register; sometimes any records, a byte too many or too few, a cell above 15, or a header that is none.
fn any_map(random: &mut Random, largest: u16) -> Map {
    let mut map = match random.below(4) {
        0 => random_clean_map(random, 2, largest),
        _ => random_map(random, 2, largest),
    };
    match random.below(24) {
        0 => map.cells.push(0),
        1 => drop(map.cells.pop()),
        2 => {
            let at = random.below(map.cells.len());
            map.cells[at] = random.below(256) as u8;
        }
        3 => map.soa = map.n,
        4 => map.n = random.one_of(&[0, 1, 129, 65_535]),
        _ => {}
    }
    map
}

/// Offices mostly in range, the layer mostly the register's, the perm mostly one that is allowed.
fn any_command(random: &mut Random, n: u16) -> Command {
    let act = random.below(usize::from(SGD) + 2) as u8;
    let any_perm = random.below(8) == 0;
    let perm = match (any_perm, act) {
        (true, _) => random.one_of(&PERMS),
        (false, GRANT) => random.perm(),
        (false, _) => 0,
    };
    Command {
        act,
        layer: Layer(if random.below(16) == 0 {
            LAYER + 1
        } else {
            LAYER
        }),
        by: Office(any_office(random, n)),
        to: Office(any_office(random, n)),
        perm,
    }
}

fn any_office(random: &mut Random, n: u16) -> u16 {
    match random.below(16) {
        0 => n,
        _ if n == 0 => 0,
        _ => random.office(n),
    }
}

fn by_second(cells: &mut [u8], map: &Map, command: Command) -> second::Outcome {
    let Command {
        act,
        layer,
        by,
        to,
        perm,
    } = command;
    let (n, soa) = (map.n, map.soa);
    second::command(cells, n, soa, LAYER, act, layer.0, by.0, to.0, perm)
}

#[test]
fn commands_do_the_same() {
    let mut random = Random(1);
    let mut answers = [0; 17];
    for _ in 0..4_000 {
        let map = any_map(&mut random, 9);
        let command = any_command(&mut random, map.n);
        let mut plain = map.cells.clone();
        let mut other = map.cells.clone();
        let one = commands::command(&mut plain, header(&map), command);
        let two = by_second(&mut other, &map, command);
        assert_eq!(
            (one.answer, one.removed, one.added),
            (two.answer, two.removed, two.added),
            "{command:?} to {map:?}"
        );
        assert_eq!(plain, other, "{command:?} to {map:?}");
        answers[usize::from(one.answer)] += 1;
    }
    assert!(answers[..=10].iter().all(|many| *many > 0), "{answers:?}");
}

#[test]
fn deletions_of_what_stands_do_the_same() {
    let mut random = Random(2);
    for _ in 0..120 {
        let map = random_map(&mut random, 2, 12);
        let n = usize::from(map.n);
        for at in (0..n * n).filter(|at| map.cells[*at] != 0) {
            let (by, to) = ((at / n) as u16, (at % n) as u16);
            let act = 1 + random.below(4) as u8;
            let mut plain = map.cells.clone();
            let mut other = map.clone();
            let command = Command {
                act,
                layer: Layer(LAYER),
                by: Office(by),
                to: Office(to),
                perm: 0,
            };
            let one = commands::command(&mut plain, header(&map), command);
            let two = other.give(act, by, to, 0);
            assert_eq!(one.answer, 0);
            assert_eq!((one.removed, one.added), (two.removed, two.added));
            assert_eq!(plain, other.cells, "{command:?} to {map:?}");
        }
    }
}

/// SGD of i, j takes two rounds that alter something: k loses FT with j's row, then the rest by the first round, and so m loses TF
/// and by the second round FF. Everything but SOA's and i's other grants falls.
#[test]
fn a_strong_deletion_of_two_rounds_does_the_same() {
    let mut random = Random(8);
    for _ in 0..50 {
        let mut order: Vec<u16> = (0..6).collect();
        random.shuffle(&mut order);
        let [soa, i, j, other, k, m] = order.try_into().expect("six offices");
        let kept = [(soa, i, TT), (i, other, TT)];
        let falling = [
            (i, j, TT),
            (j, k, FT),
            (other, k, TF),
            (k, m, TF),
            (other, m, FF),
        ];
        let map = Map::new(6, soa, &[&kept[..], &falling].concat());
        let command = Command {
            act: SGD,
            layer: Layer(LAYER),
            by: Office(i),
            to: Office(j),
            perm: 0,
        };
        let (mut plain, mut by_other) = (map.cells.clone(), map.cells.clone());
        let one = commands::command(&mut plain, header(&map), command);
        let two = by_second(&mut by_other, &map, command);
        assert_eq!((one.answer, one.removed, one.added), (0, 5, 0));
        assert_eq!((two.answer, two.removed, two.added), (0, 5, 0));
        assert_eq!(plain, by_other, "{map:?}");
        assert_eq!(plain, Map::new(6, soa, &kept).cells);
    }
}

#[test]
fn runs_do_the_same() {
    let mut random = Random(3);
    for turn in 0..60 {
        let map = any_map(&mut random, 6);
        let length = [0, 1, 12, 256, 257][turn % 5];
        let mut entries: Vec<Entry> = (0..length)
            .map(|_| Entry {
                command: any_command(&mut random, map.n),
                answer: 99,
            })
            .collect();
        let mut others: Vec<second::Entry> = entries
            .iter()
            .map(|entry| second::Entry {
                act: entry.command.act,
                layer: entry.command.layer.0,
                by: entry.command.by.0,
                to: entry.command.to.0,
                perm: entry.command.perm,
                answer: entry.answer,
            })
            .collect();
        let before = entries.clone();
        let (mut plain, mut other) = (map.cells.clone(), map.cells.clone());
        let one = runs::run(&mut plain, header(&map), &mut entries);
        let two = second::run(&mut other, map.n, map.soa, LAYER, &mut others);
        assert_eq!(one.answer, two.answer);
        assert_eq!(one.tally.removed, u64::from(two.removed));
        assert_eq!(one.tally.added, u64::from(two.added));
        assert_eq!(plain, other, "{map:?}");
        let answers = |list: &[Entry]| list.iter().map(|e| e.answer).collect::<Vec<u8>>();
        let others: Vec<u8> = others.iter().map(|entry| entry.answer).collect();
        assert_eq!(answers(&entries), others);
        let commands = |list: &[Entry]| list.iter().map(|e| e.command).collect::<Vec<Command>>();
        assert_eq!(commands(&entries), commands(&before));
    }
}

#[test]
fn questions_answer_the_same() {
    let mut random = Random(4);
    let mut answers = [0; 17];
    for _ in 0..800 {
        let map = any_map(&mut random, 9);
        let office = any_office(&mut random, map.n);
        for perm in PERMS {
            let room = usize::from(map.n.min(130)) + random.below(4);
            let mut plain = vec![77; room.saturating_sub(1)];
            let mut other = plain.clone();
            let one =
                questions::holding(&map.cells, header(&map), Office(office), perm, &mut plain);
            let two = second::holding(&map.cells, map.n, map.soa, office, perm, &mut other);
            assert_eq!(
                (one.answer, usize::from(one.offices)),
                two,
                "{office} {perm} {map:?}"
            );
            assert_eq!(plain, other, "{office} {perm} {map:?}");
            answers[usize::from(one.answer)] += 1;
        }
    }
    for answer in [0, 1, 2, 3, 4, 6, 11, 12] {
        assert!(answers[answer] > 0, "{answer} never given: {answers:?}");
    }
}

/// One or two edits of a text: a byte removed, doubled or changed, a part of it told twice, or the end cut off.
fn damaged(random: &mut Random, text: &[u8]) -> Vec<u8> {
    let mut text = text.to_vec();
    for _ in 0..random.below(3) {
        let at = random.below(text.len());
        match random.below(5) {
            0 => drop(text.remove(at)),
            1 => text.insert(at, text[at]),
            2 => text[at] = random.one_of(b"0123456789=\nTFbytoper "),
            3 => {
                let end = at + random.below(text.len() - at);
                let part = text[at..end].to_vec();
                text.splice(at..at, part);
            }
            _ => text.truncate(at.max(1)),
        }
    }
    text
}

#[test]
fn registers_are_read_the_same() {
    let mut random = Random(5);
    let mut answers = [0; 17];
    for _ in 0..3_000 {
        let map = random_map(&mut random, 2, 6);
        let whole = match random.below(4) {
            0 => text_of_any_records(&mut random),
            _ => map.text(),
        };
        let mut text = damaged(&mut random, &whole);
        text.extend(b"act=wgd\n");
        let size = usize::from(map.n) * usize::from(map.n);
        let mut plain = vec![77; size + random.below(4) - usize::from(random.below(8) == 0)];
        let mut other = plain.clone();
        let one = register_reader::read_register(&text, &mut plain);
        let two = second::read_register(&text, &mut other);
        let told = String::from_utf8_lossy(&text).into_owned();
        assert_eq!(
            (one.answer, one.at, one.next),
            (two.answer, two.at, two.rest_offset),
            "{told}"
        );
        let read = (one.header.n, one.header.soa.0, one.header.layer.0);
        assert_eq!(read, (two.n, two.soa, two.layer), "{told}");
        assert_eq!(plain, other, "{told}");
        answers[usize::from(one.answer)] += 1;
    }
    for answer in [0, 1, 2, 3, 6, 7, 13] {
        assert!(answers[answer] > 0, "{answer} never given: {answers:?}");
    }
}

/// Records in order of the text, whoever may grant them and whether or not there are such offices.
fn text_of_any_records(random: &mut Random) -> Vec<u8> {
    let n = random.below(5);
    let mut text = format!("n={n}\nsoa={}\nlayer=7\n", random.below(4));
    for by in 0..n + 1 {
        for to in 0..n + 1 {
            if random.below(6) == 0 {
                let name = random.one_of(&["TT", "TF", "FT", "FF"]);
                text += &format!("by={by}\nto={to}\nperm={name}\n");
            }
        }
    }
    (text + "end=register\n").into_bytes()
}

#[test]
fn commands_are_read_the_same() {
    let mut random = Random(6);
    let mut done = 0;
    for _ in 0..20_000 {
        let act = random.one_of(&["grant", "wld", "wgd", "sld", "sgd"]);
        let perm = random.one_of(&["none", "TT", "TF", "FT", "FF"]);
        let numbers = [0; 3].map(|_: u16| random.one_of(&[0, 1, 9, 10, 65_535, 65_536]));
        let [layer, by, to] = numbers;
        let told = format!("act={act}\nlayer={layer}\nby={by}\nto={to}\nperm={perm}\n");
        let text = damaged(&mut random, told.as_bytes());
        let one = command_reader::read_command(&text);
        let two = second::read_command(&text);
        assert_eq!(
            (one.answer, one.at, one.next),
            (two.answer, two.at, two.rest_offset),
            "{told}"
        );
        let command = Command {
            act: two.act,
            layer: Layer(two.layer),
            by: Office(two.by),
            to: Office(two.to),
            perm: two.perm,
        };
        assert_eq!(one.command, command, "{told}");
        done += u32::from(one.answer == 0);
    }
    assert!(done > 1_000 && done < 19_000, "{done}");
}

#[test]
fn texts_are_written_the_same() {
    let mut random = Random(7);
    let mut answers = [0; 17];
    for _ in 0..1_000 {
        let map = any_map(&mut random, 10);
        let row = any_office(&mut random, map.n);
        let mut plain = vec![77; random.below(400)];
        let mut other = plain.clone();
        let one = row_writer::write_row(&map.cells, header(&map), Office(row), &mut plain);
        let two = second::write_row(&map.cells, map.n, map.soa, row, &mut other);
        assert_eq!((one.answer, one.size), two, "{row} {map:?}");
        assert_eq!(plain, other, "{row} {map:?}");
        answers[usize::from(one.answer)] += 1;

        let room = random.below(30);
        let one = frames::write_header(header(&map), &mut plain[..room.min(other.len())]);
        let two = second::write_header(map.n, map.soa, LAYER, &mut other[..room.min(plain.len())]);
        assert_eq!((one.answer, one.size), two, "{map:?}");
        assert_eq!(plain, other, "{map:?}");

        let one = frames::write_end(&mut plain);
        let two = second::write_end(&mut other);
        assert_eq!((one.answer, one.size), two);
        assert_eq!(plain, other);
    }
    for answer in [0, 1, 2, 3, 6, 14] {
        assert!(answers[answer] > 0, "{answer} never given: {answers:?}");
    }
}
