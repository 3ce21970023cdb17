//! Inputs for the program.

use crate::compare::program::regrun;
use crate::maps::{self, Map, FF, PERMS};
use crate::orders;
use crate::random::Random;
use crate::texts;
use crate::told::Told;
use rights_register::{Command, Layer, Office};
use std::path::Path;

const LONGEST: usize = 65_536;

const EXAMPLE: &[u8] = b"n=3\nsoa=0\nlayer=7\nby=0\nto=1\nperm=TT\nby=1\nto=2\nperm=TT\nby=2\nto=1\nperm=TT\nend=register\n\
act=wgd\nlayer=7\nby=0\nto=1\nperm=none\n";
const EXAMPLE_OUTPUT: &[u8] = b"answer=0\nremoved=3\nadded=0\nn=3\nsoa=0\nlayer=7\nend=register\n";

/// A register text with command texts behind it.
fn whole(random: &mut Random, map: &Map, commands: usize) -> Vec<u8> {
    let mut input = texts::register(map);
    for _ in 0..commands {
        input.extend(texts::command(&orders::command(random, map)));
    }
    input
}

/// Of the form or not, as it comes.
fn any(random: &mut Random) -> Vec<u8> {
    let n = random.one_of(&[2, 3, 4, 5, 7, 9, 12, 30, 128]);
    let map = maps::sound(random, n);
    let commands = random.below(if n <= 12 { 30 } else { 4 });
    let input = whole(random, &map, commands);
    match random.below(4) {
        0 => texts::damaged(random, &input),
        1 => texts::odd_register(random, &map),
        _ => input,
    }
}

/// A number below `most` with so many digits.
fn number(random: &mut Random, digits: usize, most: u16) -> u16 {
    let least = if digits == 1 {
        0
    } else {
        10u16.pow(digits as u32 - 1)
    };
    let bound = 10u32
        .pow(digits as u32)
        .min(u32::from(most).max(u32::from(least) + 1));
    least + random.below((bound - u32::from(least)) as usize) as u16
}

/// A command whose text has so many bytes, 36 to 48: 36 is that with one digit to each number.
fn command_of(random: &mut Random, n: u16, length: usize) -> Command {
    let extra = length - 36;
    let of_layer = extra.min(4);
    let of_by = (extra - of_layer).div_ceil(2);
    let of_to = extra - of_layer - of_by;
    let act = random.below(5) as u8;
    let perm = if act == 0 { random.one_of(&PERMS) } else { 0 };
    let layer = if of_layer == 4 {
        12_345
    } else {
        number(random, 1 + of_layer, 65535)
    };
    Command {
        act,
        layer: Layer(layer),
        by: Office(number(random, 1 + of_by, n)),
        to: Office(number(random, 1 + of_to, n)),
        perm,
    }
}

/// The text of a register of 20 offices that leaves room for seven commands of 42 bytes, so that
/// none has to be longer than 48.
fn register_within(random: &mut Random, length: usize) -> Vec<u8> {
    loop {
        let mut map = maps::sound(random, 20);
        map.header.layer = Layer(12_345);
        let text = texts::register(&map);
        if text.len() + 7 * 42 <= length {
            return text;
        }
    }
}

/// An input of the form that has so many bytes. Most of its commands are for the register's own
/// layer and offices.
fn of_length(random: &mut Random, length: usize) -> Vec<u8> {
    let mut input = register_within(random, length);
    let commands = (length - input.len()) / 42;
    for left in (1..=commands).rev() {
        let size = (length - input.len()) / left;
        input.extend(texts::command(&command_of(random, 20, size)));
    }
    assert_eq!(input.len(), length);
    input
}

/// A register text that is refused by each of 1, 6, 7 and 3.
fn refused_registers() -> Vec<Vec<u8>> {
    let faults = [(1, 0, 1), (3, 0, 3), (3, 0, 0), (3, 1, 2)];
    let text = |(n, by, to)| texts::told(Map::empty(n, 0, 7).header, &[(by, to, FF)]);
    faults.map(text).to_vec()
}

/// Inputs around the greatest length, the empty one, refused registers, and 01's example.
fn edges(random: &mut Random) -> Vec<Vec<u8>> {
    let mut inputs = vec![Vec::new(), EXAMPLE.to_vec(), b"\n".to_vec()];
    inputs.extend(refused_registers());
    for length in [LONGEST - 1, LONGEST, LONGEST + 1, LONGEST + 2, 2 * LONGEST] {
        inputs.push(of_length(random, length));
    }
    for length in [LONGEST, LONGEST + 1, 300_000] {
        inputs.push(random.bytes(length));
    }
    inputs
}

/// Runs the program on the edges, on as many other inputs as asked for, and on some that come
/// slowly.
pub fn all(told: &mut Told, program: &Path, random: &mut Random, many: usize) {
    for input in edges(random) {
        regrun(told, program, &input, 1);
    }
    for _ in 0..many {
        let input = any(random);
        regrun(told, program, &input, 1);
    }
    for length in [5_000, LONGEST, LONGEST + 1] {
        let input = of_length(random, length);
        regrun(told, program, &input, 5);
    }
    let output = regrun(told, program, EXAMPLE, 20);
    told.same(output == EXAMPLE_OUTPUT, || String::from("01's example"));
}
