//! A round: one random register, and calls of every kind with it.

use crate::compare::{commands, questions, readers, writers};
use crate::maps::{self, Map, PERMS};
use crate::orders;
use crate::random::Random;
use crate::texts;
use crate::told::Told;
use rights_register::register_text;

/// How much is tried with one register. The second program is slow where there are many offices.
struct Effort {
    commands: usize,
    pairs: usize,
    faulty: usize,
    offices: usize,
    run: usize,
    texts: usize,
    rows: usize,
}

const SMALL: Effort = Effort {
    commands: 30,
    pairs: 6,
    faulty: 12,
    offices: FEW as usize,
    run: 30,
    texts: 24,
    rows: 3,
};

const LARGE: Effort = Effort {
    commands: 4,
    pairs: 1,
    faulty: 3,
    offices: 2,
    run: 4,
    texts: 3,
    rows: 1,
};

/// The first registers of each large size have a question for every office, too.
const FIRST_LARGE: Effort = Effort {
    offices: 128,
    ..LARGE
};

/// Registers of up to so many offices are tried with all the effort.
const FEW: u16 = 12;

/// Every fortieth round has many offices.
fn size(random: &mut Random, round: u64) -> u16 {
    match round % 120 {
        39 => 64,
        79 => 127,
        119 => 128,
        _ => 2 + random.office(FEW - 1),
    }
}

pub fn round(told: &mut Told, random: &mut Random, round: u64) {
    let n = size(random, round);
    let effort = match (n <= FEW, round < 240) {
        (true, _) => SMALL,
        (false, true) => FIRST_LARGE,
        (false, false) => LARGE,
    };
    let map = maps::sound(random, n);
    ask(told, random, &map, &effort);
    write(told, random, &map, &effort);
    read(told, random, &map, &effort);
    run(told, random, &map, round, &effort);
    cut(told, random, &map, &effort);
    let left = carry_out(told, random, &map, &effort);
    ask(told, random, &left, &effort);
    try_faulty(told, random, &map, &effort);
}

/// The four deletions of some grants, each on the register as it was made.
fn cut(told: &mut Told, random: &mut Random, map: &Map, effort: &Effort) {
    let mut pairs = map.pairs();
    random.shuffle(&mut pairs);
    for (by, to) in pairs.into_iter().take(effort.pairs) {
        for act in 1..=4 {
            let deletion = orders::of(act, map, by, to, 0);
            commands::command(told, &mut map.clone(), deletion);
        }
    }
}

/// Commands one after the other, each on what the last one left; gives what is left at the end.
fn carry_out(told: &mut Told, random: &mut Random, map: &Map, effort: &Effort) -> Map {
    let mut map = map.clone();
    for _ in 0..effort.commands {
        let command = orders::command(random, &map);
        commands::command(told, &mut map, command);
    }
    map
}

/// Every permission for every office, or for some where there are many, in rooms that are just long
/// enough or longer.
fn ask(told: &mut Told, random: &mut Random, map: &Map, effort: &Effort) {
    let n = map.header.n;
    let mut offices: Vec<u16> = (0..n).collect();
    random.shuffle(&mut offices);
    offices.truncate(effort.offices);
    for office in offices {
        for perm in PERMS {
            let room = usize::from(n) + random.below(3);
            let chain = random.bytes(room);
            questions::holding(told, map, office, perm, &chain);
        }
    }
    ask_oddly(told, random, map);
}

/// A question with any of the faults that are refused by 4, 6 and 11, or with several.
fn ask_oddly(told: &mut Told, random: &mut Random, map: &Map) {
    let n = map.header.n;
    let office = match random.below(3) {
        0 => random.one_of(&[n, n.saturating_add(1), 65535]),
        _ => random.office(n.max(1)),
    };
    let perm = match random.below(3) {
        0 => random.byte(),
        _ => random.one_of(&PERMS),
    };
    let shorter = [0, 1, usize::from(n.saturating_sub(1).min(200))];
    let room = match random.below(3) {
        0 => random.one_of(&shorter),
        _ => usize::from(n.min(200)),
    };
    let chain = random.bytes(room);
    questions::holding(told, map, office, perm, &chain);
}

/// Calls with a header, a buffer or a register that is refused by 1, 2 or 3, the command being odd
/// or not.
fn try_faulty(told: &mut Told, random: &mut Random, map: &Map, effort: &Effort) {
    for _ in 0..effort.faulty {
        let faulty = maps::faulty(random, map);
        let command = match random.below(2) {
            0 => orders::odd(random, map),
            _ => orders::command(random, map),
        };
        commands::command(told, &mut faulty.clone(), command);
        ask_oddly(told, random, &faulty);
        let room = random.bytes(60);
        writers::header(told, &faulty, &room);
        let row = random.office(map.header.n + 2);
        writers::row(told, &faulty, row, &room);
        let entries = orders::entries(random, map, 2);
        commands::run(told, &faulty, &entries);
    }
}

/// Runs of none, of one and of some; in some rounds of 256 and of 257.
fn run(told: &mut Told, random: &mut Random, map: &Map, round: u64, effort: &Effort) {
    let some = 2 + random.below(effort.run);
    let mut lengths = vec![0, 1, some];
    if map.header.n <= FEW {
        match round % 8 {
            0 => lengths.push(256),
            4 => lengths.push(257),
            5 => lengths.push(258 + random.below(300)),
            _ => (),
        }
    }
    for many in lengths {
        let entries = orders::entries(random, map, many);
        commands::run(told, map, &entries);
    }
}

/// Rooms of every length around the text's.
fn rooms(random: &mut Random, size: usize) -> Vec<Vec<u8>> {
    let lengths = size.saturating_sub(2)..=size + 2;
    lengths.map(|length| random.bytes(length)).collect()
}

fn write(told: &mut Told, random: &mut Random, map: &Map, effort: &Effort) {
    for length in 0..=texts::header(map.header).len() + 1 {
        let room = random.bytes(length);
        writers::header(told, map, &room);
    }
    for length in 0..=15 {
        let room = random.bytes(length);
        writers::end(told, &room);
    }
    for _ in 0..effort.rows {
        let row = random.office(map.header.n + 1);
        let seen = writers::row(told, map, row, &random.bytes(12_000));
        for room in rooms(random, seen.numbers[0] as usize) {
            writers::row(told, map, row, &room);
        }
    }
    let text = register_text(&map.cells, map.header);
    told.same(text == Ok(texts::register(map)), || {
        format!("text of {}", super::compare::shown(map))
    });
}

/// A buffer for n offices: as long as it must be, longer, or too short.
fn buffer(random: &mut Random, n: u16) -> Vec<u8> {
    let exact = usize::from(n) * usize::from(n);
    let length = match random.below(6) {
        0 => random.below(exact + 1),
        1 => exact - 1,
        2 => exact + random.below(40),
        _ => exact,
    };
    random.bytes(length)
}

/// The register's own text, texts with other records, and damaged ones, each with something behind
/// it.
fn read(told: &mut Told, random: &mut Random, map: &Map, effort: &Effort) {
    let n = map.header.n;
    for _ in 0..effort.texts {
        let mut text = match random.below(3) {
            0 => texts::register(map),
            1 => texts::odd_register(random, map),
            _ => texts::damaged(random, &texts::register(map)),
        };
        let command = orders::odd(random, map);
        match random.below(3) {
            0 => text.extend(texts::command(&command)),
            1 => text.extend(random.bytes(5)),
            _ => (),
        }
        let buffer = buffer(random, n);
        readers::register(told, &text, &buffer);
        read_commands(told, random, map);
    }
}

/// Two commands behind each other, the second perhaps damaged, read until the text ends or is
/// refused.
fn read_commands(told: &mut Told, random: &mut Random, map: &Map) {
    let first = orders::command(random, map);
    let second = orders::odd(random, map);
    let mut text = texts::command(&second);
    if random.once_in(2) {
        text = texts::damaged(random, &text);
    }
    let text = [texts::command(&first), text].concat();
    let mut at = 0;
    while at < text.len() {
        at += readers::command(told, &text[at..]);
    }
    readers::command(told, &text[at..]);
}
