//! The proved library, called through its binding, beside the second program: both are given the
//! same inputs, and every answer, tally, chain, header, offset and byte of what they were lent, or of
//! what stands beside it, is compared.
//!
//!     comparison [--seed S] [--count ROUNDS] [--first ROUND] [--regrun PROGRAM]
//!
//! The last line is 'N agreements, M differences'. The status is not 0 where there is a difference,
//! or where an answer was not met.

mod calls;
mod cases;
mod compare;
mod inputs;
mod maps;
mod orders;
mod random;
mod rounds;
mod texts;
mod told;

use random::Random;
use std::env;
use std::panic::{catch_unwind, AssertUnwindSafe};
use std::path::PathBuf;
use std::process::ExitCode;
use told::Told;

/// The program is run on one input for so many rounds.
const INPUT_EVERY: usize = 10;

struct Asked {
    seed: u64,
    count: u64,
    first: u64,
    regrun: Option<PathBuf>,
}

fn asked() -> Option<Asked> {
    let mut asked = Asked {
        seed: 1,
        count: 4000,
        first: 0,
        regrun: None,
    };
    let mut words = env::args().skip(1);
    while let Some(word) = words.next() {
        let value = words.next()?;
        match word.as_str() {
            "--seed" => asked.seed = value.parse().ok()?,
            "--count" => asked.count = value.parse().ok()?,
            "--first" => asked.first = value.parse().ok()?,
            "--regrun" => asked.regrun = Some(value.into()),
            _ => return None,
        }
    }
    Some(asked)
}

/// A panic on either side is a difference too.
fn guarded(told: &mut Told, tried: impl FnOnce(&mut Told)) {
    let ended = catch_unwind(AssertUnwindSafe(|| tried(told)));
    if ended.is_err() {
        told.same(false, || String::from("panicked"));
    }
}

fn compare(asked: &Asked) -> Told {
    let (seed, first) = (asked.seed, asked.first);
    let mut told = Told::new();
    told.start(String::from("worked cases"));
    guarded(&mut told, cases::all);
    for round in first..first + asked.count {
        told.start(format!("--seed {seed} --first {round} --count 1"));
        let mut random = Random::of_round(seed, round);
        guarded(&mut told, |told| rounds::round(told, &mut random, round));
    }
    if let Some(program) = &asked.regrun {
        told.start(format!("--seed {seed} --regrun {}", program.display()));
        let mut random = Random::of_round(seed, u64::MAX);
        let many = asked.count as usize / INPUT_EVERY;
        guarded(&mut told, |told| {
            inputs::all(told, program, &mut random, many)
        });
    }
    told
}

fn main() -> ExitCode {
    let Some(asked) = asked() else {
        eprintln!("comparison [--seed S] [--count ROUNDS] [--first ROUND] [--regrun PROGRAM]");
        return ExitCode::from(2);
    };
    let told = compare(&asked);
    let Asked {
        seed, count, first, ..
    } = asked;
    println!("seed {seed}, {count} rounds from {first} on");
    println!("{}", told.table());
    let mut faults = told.faults();
    if asked.regrun.is_none() {
        faults.push(String::from(
            "not tried: answer 15, which only the program gives (--regrun)",
        ));
    }
    for fault in &faults {
        println!("{fault}");
    }
    println!("{}", told.verdict());
    if told.differs() || !faults.is_empty() {
        return ExitCode::FAILURE;
    }
    ExitCode::SUCCESS
}
