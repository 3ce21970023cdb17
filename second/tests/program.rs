//! The program itself, from standard input to standard output.

use std::io::Write;
use std::process::{Command, Stdio};

fn output_of(input: &[u8]) -> Vec<u8> {
    let mut program = Command::new(env!("CARGO_BIN_EXE_second"))
        .stdin(Stdio::piped())
        .stdout(Stdio::piped())
        .spawn()
        .expect("the program starts");
    let mut standard_input = program.stdin.take().expect("it has a standard input");
    standard_input.write_all(input).expect("it reads all of it");
    drop(standard_input);
    let output = program.wait_with_output().expect("it ends");
    assert!(output.status.success());
    output.stdout
}

#[test]
fn the_example_of_01() {
    let input = "n=3\nsoa=0\nlayer=7\nby=0\nto=1\nperm=TT\nby=1\nto=2\nperm=TT\n\
                 by=2\nto=1\nperm=TT\nend=register\n\
                 act=wgd\nlayer=7\nby=0\nto=1\nperm=none\n";
    let output = "answer=0\nremoved=3\nadded=0\nn=3\nsoa=0\nlayer=7\nend=register\n";
    assert_eq!(output_of(input.as_bytes()), output.as_bytes());
}

#[test]
fn input_too_long() {
    assert_eq!(output_of(&vec![b'n'; 200_000]), b"refused=15\nat=0\n");
    assert_eq!(output_of(&vec![b'n'; 65_536]), b"refused=13\nat=0\n");
}
