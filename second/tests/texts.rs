//! The readers: what is of the form, where the first bad line starts, and the
//! order of the checks.

mod support;

use second::{read_command, read_register, ReadCommand, ReadRegister};
use support::*;

/// Reads into a buffer full of rubbish and checks what a refusal must leave.
fn read(text: &str, length: usize) -> (ReadRegister, Vec<u8>) {
    let mut cells = vec![170; length];
    let read = read_register(text.as_bytes(), &mut cells);
    if read.answer != 0 {
        assert!(
            cells.iter().all(|byte| *byte == 0),
            "refused: the whole buffer zero"
        );
        assert_eq!((read.n, read.soa, read.layer), (0, 0, 0));
        assert_eq!(read.rest_offset, text.len(), "refused: an empty part");
    }
    (read, cells)
}

/// The answer and the offset.
fn verdict(text: &str) -> (u8, usize) {
    let (read, _) = read(text, 16_384);
    (read.answer, read.at)
}

fn header(n: &str, soa: &str) -> String {
    format!("n={n}\nsoa={soa}\nlayer=7\n")
}

fn record(by: &str, to: &str, perm: &str) -> String {
    format!("by={by}\nto={to}\nperm={perm}\n")
}

const END: &str = "end=register\n";

#[test]
fn done_gives_the_cells_and_the_unread_part() {
    let text = header("3", "1") + &record("1", "0", "TF") + &record("1", "0", "FF") + END;
    let (read, cells) = read(&(text.clone() + "act=\n\0"), 12);
    let whole = ReadRegister {
        answer: 0,
        at: 0,
        rest_offset: text.len(),
        n: 3,
        soa: 1,
        layer: 7,
    };
    assert_eq!(read, whole);
    assert_eq!(cells, [0, 0, 0, TF + FF, 0, 0, 0, 0, 0, 0, 0, 0]);
}

#[test]
fn numbers_of_the_form() {
    for value in [
        "", "00", "07", "+7", "-0", " 7", "7 ", "65536", "99999", "7\r", "0x7", "७", "7=7",
    ] {
        let text = format!("n=2\nsoa=0\nlayer={value}\n{END}");
        assert_eq!(verdict(&text), (13, 10), "{value:?}");
    }
    for (value, number) in [("0", 0), ("9", 9), ("10", 10), ("65535", 65_535)] {
        let text = format!("n=2\nsoa=0\nlayer={value}\n{END}");
        let (read, _) = read(&text, 4);
        assert_eq!((read.answer, read.layer), (0, number));
    }
}

#[test]
fn lines_missing_wrong_or_without_lf() {
    let whole = header("3", "0") + &record("0", "1", "TT") + END;
    let starts: Vec<usize> = (0..whole.len())
        .filter(|at| *at == 0 || whole.as_bytes()[at - 1] == b'\n')
        .collect();
    for length in 0..whole.len() {
        let last_start = starts.iter().rev().find(|start| **start <= length).unwrap();
        assert_eq!(
            verdict(&whole[..length]),
            (13, *last_start),
            "cut at {length}"
        );
    }
    assert_eq!(verdict(&whole), (0, 0));
    for start in starts {
        for stray in [
            "\n",
            "x\n",
            "=\n",
            "end=\n",
            "end=register \n",
            "END=register\n",
            "by\n",
        ] {
            let text = [&whole[..start], stray, &whole[start..]].concat();
            assert_eq!(verdict(&text), (13, start), "{stray:?} at {start}");
        }
    }
}

#[test]
fn a_perm_of_a_record_is_one_of_the_four() {
    for perm in ["none", "tt", "T", "TTT", "", "8"] {
        let text = header("3", "0") + &record("0", "1", perm) + END;
        assert_eq!(verdict(&text), (13, 28), "{perm:?}");
    }
}

#[test]
fn the_bad_line_of_a_record_out_of_order() {
    let start = header("3", "0") + &record("0", "2", "TF");
    let by = start.len();
    let (to, perm) = (by + 5, by + 10);
    let ten = header("3", "0") + &record("10", "2", "TF") + &record("9", "2", "TF") + END;
    assert_eq!(
        verdict(&ten),
        (13, by + 1),
        "numbers are compared, not digits"
    );
    let tenth = header("3", "0") + &record("1", "2", "TF");
    let cases = [
        (&tenth, record("0", "9", "FF"), by),
        (&start, record("0", "1", "FF"), to),
        (&start, record("0", "2", "TT"), perm),
        (&start, record("0", "2", "TF"), perm),
        (&tenth, "by=0\n".to_string(), by),
        (&tenth, "by=0\nto=x\n".to_string(), by),
        (&start, "by=0\nto=1\n".to_string(), to),
        (&start, "by=0\nto=1\nperm=none\n".to_string(), to),
        (&start, "by=0\nto=2\nperm=none\n".to_string(), perm),
        (&start, "by=0\nto=2\n".to_string(), perm),
    ];
    for (before, bad, at) in cases {
        assert_eq!(verdict(&format!("{before}{bad}")), (13, at), "{bad:?}");
    }
    for (by, to, perm) in [
        ("0", "2", "FT"),
        ("0", "2", "FF"),
        ("0", "10", "TT"),
        ("10", "1", "TT"),
    ] {
        let text = start.clone() + &record(by, to, perm) + END;
        assert_ne!(verdict(&text).0, 13, "{by} {to} {perm} comes after");
    }
}

#[test]
fn each_check_is_made_over_the_whole_text_before_the_next() {
    let mut records = vec![record("0", "1", "TT")];
    let answer = |n: &str, soa: &str, records: &[String], length: usize| {
        read(&(header(n, soa) + &records.concat() + END), length)
            .0
            .answer
    };
    assert_eq!(answer("4", "0", &records, 16), 0);
    records.push(record("2", "1", "TT"));
    assert_eq!(answer("4", "0", &records, 16), 3);
    records.push(record("3", "0", "TT"));
    assert_eq!(answer("4", "0", &records, 16), 7);
    records.push(record("4", "1", "TT"));
    assert_eq!(answer("4", "0", &records, 16), 6);
    assert_eq!(answer("4", "0", &records, 15), 2);
    assert_eq!(answer("4", "4", &records, 15), 1);
    assert_eq!(answer("1", "0", &records, 0), 1);
    assert_eq!(answer("129", "0", &records, 0), 1);
    records.push(record("4", "1", "TT"));
    assert_eq!(answer("4", "4", &records, 15), 13);
}

#[test]
fn refusals_6_and_7_for_either_line() {
    let told = |by: &str, to: &str| verdict(&(header("3", "1") + &record(by, to, "TT") + END));
    assert_eq!(
        [told("3", "0"), told("1", "3"), told("3", "3")],
        [(6, 0); 3]
    );
    assert_eq!(
        [told("0", "0"), told("0", "1"), told("1", "1")],
        [(7, 0); 3]
    );
}

#[test]
fn a_command_and_the_rest() {
    let text = "act=grant\nlayer=65535\nby=3\nto=200\nperm=FT\nact=";
    let rest_offset = text.len() - 4;
    let command = ReadCommand {
        answer: 0,
        at: 0,
        rest_offset,
        act: 0,
        layer: 65_535,
        by: 3,
        to: 200,
        perm: 2,
    };
    assert_eq!(read_command(text.as_bytes()), command);
    let acts = ["grant", "wld", "wgd", "sld", "sgd"];
    let perms = [("TT", 8), ("TF", 4), ("FT", 2), ("FF", 1), ("none", 0)];
    for (code, act) in (0u8..).zip(acts) {
        for (perm, perm_code) in perms {
            let text = format!("act={act}\nlayer=0\nby=0\nto=0\nperm={perm}\n");
            let read = read_command(text.as_bytes());
            assert_eq!((read.answer, read.act, read.perm), (0, code, perm_code));
        }
    }
}

#[test]
fn the_bad_line_of_a_command() {
    let lines = ["act=sgd\n", "layer=1\n", "by=2\n", "to=3\n", "perm=none\n"];
    let bad = [
        "act=SGD\n",
        "layer=01\n",
        "by=\n",
        "to=65536\n",
        "perm=None\n",
    ];
    for place in 0..lines.len() {
        let start: usize = lines[..place].iter().map(|line| line.len()).sum();
        let mut damaged = lines;
        damaged[place] = bad[place];
        let missing = lines[..place].concat();
        let without_lf = lines[..=place].concat();
        let without_lf = without_lf.trim_end_matches('\n').to_string();
        let swapped = [&lines[..place], &lines[place + 1..], &lines[place..=place]]
            .concat()
            .concat();
        for text in [damaged.concat(), missing, without_lf] {
            refused_at(&text, start);
        }
        if place + 1 < lines.len() {
            refused_at(&swapped, start);
        }
    }
}

fn refused_at(text: &str, at: usize) {
    let rest_offset = text.len();
    let zeros = ReadCommand {
        answer: 13,
        at,
        rest_offset,
        act: 0,
        layer: 0,
        by: 0,
        to: 0,
        perm: 0,
    };
    assert_eq!(read_command(text.as_bytes()), zeros, "{text:?}");
}
