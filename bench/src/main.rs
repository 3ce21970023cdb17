//! Prints the table that docs/BENCH.md explains; `--quick` takes some 20 seconds. No time makes it fail, only two sides that differ.

use bench::measure::{times, FULL, QUICK};
use bench::operations::{Desk, OPERATIONS};
use bench::registers::{register, KINDS};
use bench::table::{heading, line, summary, Row};
use std::process::ExitCode;

const SIZES: [u16; 5] = [8, 16, 32, 64, 128];
/// Places in `SIZES` of the sizes that have a row, and of the half and the double that give the growth.
const SHOWN: [(usize, usize, usize); 3] = [(0, 0, 1), (2, 2, 3), (4, 3, 4)];

const LEGEND: &str = "\
Rattle ns, Rust ns: median time of one call, both sides and all sizes timed by turns. ratio: Rattle / Rust.
growth: time(2n) / time(n) of Rattle; for n = 128 it is time(128) / time(64).
soundness: a command with an unknown act, which is refused (4) right after the register was found sound.
grant, deletions, soundness, run: the register is put back from a copy before each call, on both sides alike.
write: header, all rows and end line; each row's writer looks for soundness anew.";

fn main() -> ExitCode {
    let words: Vec<String> = std::env::args().skip(1).collect();
    let budget = match words.iter().map(String::as_str).collect::<Vec<_>>()[..] {
        [] => FULL,
        ["--quick"] => QUICK,
        _ => {
            eprintln!("usage: bench [--quick]");
            return ExitCode::from(2);
        }
    };
    let mut rows = Vec::new();
    println!("{}", heading());
    for operation in OPERATIONS {
        for kind in KINDS {
            let desks = SIZES.map(|n| Desk::new(&register(kind, n)));
            let Some(all) = times(desks.into(), operation, budget) else {
                let (operation, kind) = (operation.name(), kind.name());
                eprintln!("{operation}, {kind}: Rattle and Rust do not do the same");
                return ExitCode::FAILURE;
            };
            for (shown, half, double) in SHOWN {
                let row = Row {
                    operation,
                    kind,
                    n: SIZES[shown],
                    times: all[shown],
                    growth: all[double].rattle / all[half].rattle,
                };
                println!("{}", line(&row));
                rows.push(row);
            }
        }
    }
    println!("\n{LEGEND}\n\n{}", summary(&rows));
    ExitCode::SUCCESS
}
