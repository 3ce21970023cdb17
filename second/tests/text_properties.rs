//! Reader, writers and program on random registers and on damaged texts.

mod support;

use second::{command, read_command, read_register, regrun, ReadRegister};
use std::collections::BTreeSet;
use support::*;

#[test]
fn reading_what_was_written_gives_the_register_back() {
    let mut random = Random(21);
    for _ in 0..400 {
        let map = random_map(&mut random, 2, 8);
        let mut text = map.text();
        let rest_offset = text.len();
        let rubbish = random.below(5);
        text.extend((0..rubbish).map(|_| random.next() as u8));
        let mut cells = vec![170; 64 + random.below(9)];
        let read = read_register(&text, &mut cells);
        let Map { n, soa, .. } = map;
        assert_eq!(
            read,
            ReadRegister {
                answer: 0,
                at: 0,
                rest_offset,
                n,
                soa,
                layer: LAYER
            }
        );
        let (written, rest) = cells.split_at(map.cells.len());
        assert_eq!(written, map.cells);
        assert!(rest.iter().all(|byte| *byte == 0));
    }
}

/// One to three small damages: bytes changed, taken out, put in, or lines
/// taken out, doubled or exchanged.
fn damage(random: &mut Random, text: &[u8]) -> Vec<u8> {
    let mut damaged = text.to_vec();
    for _ in 0..=random.below(3) {
        let place = random.below(damaged.len() + 1);
        let byte = random.one_of(b"0123456789=\nTFbytoperm\r\0\xff");
        match random.below(5) {
            0 if place < damaged.len() => damaged[place] = byte,
            1 if place < damaged.len() => drop(damaged.remove(place)),
            2 => damaged.insert(place, byte),
            3 => damaged.truncate(place),
            _ => damaged = damage_lines(random, &damaged),
        }
    }
    damaged
}

fn damage_lines(random: &mut Random, text: &[u8]) -> Vec<u8> {
    let mut lines: Vec<&[u8]> = text.split_inclusive(|byte| *byte == b'\n').collect();
    if lines.is_empty() {
        return Vec::new();
    }
    let (one, other) = (random.below(lines.len()), random.below(lines.len()));
    match random.below(3) {
        0 => drop(lines.remove(one)),
        1 => lines.insert(one, lines[other]),
        _ => lines.swap(one, other),
    }
    lines.concat()
}

/// What must be so of every outcome, whatever the text.
fn check_outcome(text: &[u8], read: &ReadRegister, cells: &[u8]) {
    if read.answer == 0 {
        let length = usize::from(read.n) * usize::from(read.n);
        let map = Map {
            n: read.n,
            soa: read.soa,
            cells: cells[..length].to_vec(),
        };
        let layer_line = format!("layer={}\n", read.layer);
        let written = String::from_utf8(map.text()).unwrap();
        let written = written.replacen(&format!("layer={LAYER}\n"), &layer_line, 1);
        assert_eq!(
            written.as_bytes(),
            &text[..read.rest_offset],
            "one text for one register"
        );
        return;
    }
    assert!([13, 1, 2, 6, 7, 3].contains(&read.answer));
    assert!(cells.iter().all(|byte| *byte == 0));
    assert_eq!(
        (read.n, read.soa, read.layer, read.rest_offset),
        (0, 0, 0, text.len())
    );
    let starts_a_line = read.at == 0 || text[read.at - 1] == b'\n';
    assert!(starts_a_line && (read.answer == 13 || read.at == 0));
}

#[test]
fn damaged_register_texts_are_read_without_panic() {
    let mut random = Random(22);
    let mut answers = BTreeSet::new();
    for _ in 0..6_000 {
        let text = random_map(&mut random, 2, 6).text();
        let damaged = damage(&mut random, &text);
        let mut cells = vec![170; [25, 36, 16_384][random.below(3)]];
        let read = read_register(&damaged, &mut cells);
        check_outcome(&damaged, &read, &cells);
        answers.insert(read.answer);
    }
    assert_eq!(answers, BTreeSet::from([0, 1, 2, 3, 6, 7, 13]));
}

/// No line before the first bad one is bad: cut off there, the text is bad
/// only for the lines that are missing at its end.
#[test]
fn the_text_before_the_first_bad_line_is_only_too_short() {
    let mut random = Random(23);
    let mut seen = 0;
    for _ in 0..3_000 {
        let text = random_map(&mut random, 2, 6).text();
        let damaged = damage(&mut random, &text);
        let mut cells = vec![0; 16_384];
        let read = read_register(&damaged, &mut cells);
        if read.answer == 13 {
            let before = &damaged[..read.at];
            let again = read_register(before, &mut cells);
            assert_eq!((again.answer, again.at), (13, before.len()));
            seen += 1;
        }
    }
    assert!(seen > 1_000, "{seen} refused with 13");
}

fn random_command_text(random: &mut Random, n: u16) -> String {
    let act = ["grant", "grant", "wld", "wgd", "sld", "sgd"][random.below(6)];
    let names = ["TT", "TF", "FT", "FF", "none"];
    let perm = match (act, random.below(20)) {
        ("grant", _) => names[random.below(4)],
        (_, 0) => names[random.below(5)],
        _ => "none",
    };
    let layer = LAYER + u16::from(random.below(20) == 0);
    let (by, to) = (random.office(n), random.office(n + 1));
    format!("act={act}\nlayer={layer}\nby={by}\nto={to}\nperm={perm}\n")
}

/// The program put together from the reader, the commands and the writers.
fn expected_output(mut map: Map, commands: &[String]) -> Vec<u8> {
    let mut output = String::new();
    for text in commands {
        let c = read_command(text.as_bytes());
        assert_eq!((c.answer, c.at, c.rest_offset), (0, 0, text.len()));
        let outcome = command(
            &mut map.cells,
            map.n,
            map.soa,
            LAYER,
            c.act,
            c.layer,
            c.by,
            c.to,
            c.perm,
        );
        output += &format!("answer={}\n", outcome.answer);
        output += &format!("removed={}\nadded={}\n", outcome.removed, outcome.added);
    }
    [output.into_bytes(), map.text()].concat()
}

#[test]
fn the_program_answers_each_command_and_writes_the_register() {
    let mut random = Random(24);
    for _ in 0..200 {
        let map = random_map(&mut random, 2, 8);
        let count = random.below(30);
        let commands: Vec<String> = (0..count)
            .map(|_| random_command_text(&mut random, map.n))
            .collect();
        let input = [map.text(), commands.concat().into_bytes()].concat();
        assert_eq!(regrun(&input), expected_output(map, &commands));
    }
}

#[test]
fn the_program_never_panics_and_ends_in_a_register_or_a_refusal() {
    let mut random = Random(25);
    let mut refused = 0;
    for _ in 0..2_000 {
        let map = random_map(&mut random, 2, 6);
        let commands: String = (0..4)
            .map(|_| random_command_text(&mut random, map.n))
            .collect();
        let input = damage(&mut random, &[map.text(), commands.into_bytes()].concat());
        let output = String::from_utf8(regrun(&input)).unwrap();
        let lines: Vec<&str> = output.lines().collect();
        match lines[lines.len() - 1].strip_prefix("at=") {
            None => assert!(output.ends_with("end=register\n")),
            Some(at) => {
                let at: usize = at.parse().unwrap();
                assert!(at == 0 || input[at - 1] == b'\n');
                assert!(lines[lines.len() - 2].starts_with("refused="));
                assert!(!output.contains("n=") && !output.contains("end="));
                refused += 1;
            }
        }
    }
    assert!(refused > 500 && refused < 2_000, "{refused} refused");
}
