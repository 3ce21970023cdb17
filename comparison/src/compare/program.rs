//! The program: its whole output for an input that comes through a pipe.

use crate::calls::Call;
use crate::told::{Seen, Told};
use std::io::{self, Read, Write};
use std::path::Path;
use std::process::{Child, ChildStdin, Command, Stdio};
use std::thread;
use std::time::Duration;

const PAUSE: Duration = Duration::from_millis(30);

/// Writes the input in so many parts, with a pause before each but the first. A program that has
/// seen enough may close its end.
fn feed(mut pipe: ChildStdin, input: &[u8], parts: usize) -> io::Result<()> {
    let size = input.len().div_ceil(parts).max(1);
    for (place, part) in input.chunks(size).enumerate() {
        if place > 0 {
            thread::sleep(PAUSE);
        }
        match pipe.write_all(part).and_then(|()| pipe.flush()) {
            Err(error) if error.kind() == io::ErrorKind::BrokenPipe => return Ok(()),
            other => other?,
        }
    }
    Ok(())
}

fn started(program: &Path) -> io::Result<Child> {
    Command::new(program)
        .stdin(Stdio::piped())
        .stdout(Stdio::piped())
        .spawn()
}

/// The output, and whether the program's exit status was 0. The input is fed beside the reading, so
/// that neither waits for the other.
fn output(program: &Path, input: &[u8], parts: usize) -> io::Result<(Vec<u8>, bool)> {
    let mut child = started(program)?;
    let pipe = child.stdin.take().expect("the input is piped");
    let mut from = child.stdout.take().expect("the output is piped");
    let mut output = Vec::new();
    thread::scope(|scope| {
        let feeding = scope.spawn(|| feed(pipe, input, parts));
        from.read_to_end(&mut output)?;
        feeding.join().expect("feeding does not panic")
    })?;
    Ok((output, child.wait()?.code() == Some(0)))
}

/// The number of the last `refused=` line, or 0: then the register was written.
fn answer(output: &[u8]) -> u8 {
    let text = String::from_utf8_lossy(output);
    let mut refused = text
        .lines()
        .filter_map(|line| line.strip_prefix("refused="));
    refused
        .next_back()
        .and_then(|n| n.parse().ok())
        .unwrap_or(0)
}

/// Runs the program on the input, in so many parts, and compares its whole output with the second
/// program's. The exit status must be 0, whatever was refused.
pub fn regrun(told: &mut Told, program: &Path, input: &[u8], parts: usize) -> Vec<u8> {
    let theirs = second::regrun(input);
    let (ours, done) = output(program, input, parts)
        .unwrap_or_else(|error| panic!("{}: {error}", program.display()));
    let seen = |output: &[u8], done: bool| Seen {
        answer: answer(output),
        numbers: vec![done.into()],
        buffers: vec![output.to_vec()],
    };
    let input = || {
        let start = &input[..input.len().min(2000)];
        format!(
            "{} bytes in {parts} parts \"{}\"",
            input.len(),
            start.escape_ascii()
        )
    };
    told.judge(
        Call::Program,
        &seen(&ours, done),
        &seen(&theirs, true),
        input,
    );
    ours
}
