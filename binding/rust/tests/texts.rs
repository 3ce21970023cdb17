//! Register text and command text through the safe calls.

use rights_register::{read_command, read_register, register_text, write_row};
use rights_register::{Command, Header, Layer, Office, Refusal, RefusedText, ROW_TEXT};

const MAP_C: &[u8] = b"n=3\nsoa=0\nlayer=7\nby=0\nto=1\nperm=TT\nby=1\nto=2\nperm=TT\nby=2\nto=1\nperm=TT\nend=register\n";
const CUT: &[u8] = b"act=wgd\nlayer=7\nby=0\nto=1\nperm=none\n";

#[test]
fn a_register_and_the_commands_behind_it() {
    let text = [MAP_C, CUT].concat();
    let mut cells = [9; 12];
    let read = read_register(&text, &mut cells).unwrap();
    assert_eq!(cells, [0, 8, 0, 0, 0, 8, 0, 8, 0, 0, 0, 0]);
    assert_eq!(read.header.layer, Layer(7));
    assert_eq!(read.rest, CUT);
    assert_eq!(register_text(&cells[..9], read.header).unwrap(), MAP_C);

    let command = read_command(read.rest).unwrap();
    let expected = Command::wgd(Layer(7), Office(0), Office(1));
    assert_eq!((command.command, command.rest), (expected, &b""[..]));
}

#[test]
fn a_refused_text_says_where() {
    let mut cells = [9; 9];
    let bad = MAP_C.strip_suffix(b"end=register\n").unwrap();
    let refused = read_register(bad, &mut cells).unwrap_err();
    let (refusal, at) = (Refusal::NotOfTheForm, bad.len());
    assert_eq!(refused, RefusedText { refusal, at });
    assert_eq!(cells, [0; 9]);
    assert_eq!(
        refused.to_string(),
        "refusal 13: text not of the form, at byte 72"
    );

    let refused = read_register(MAP_C, &mut cells[..8]).unwrap_err();
    let (refusal, at) = (Refusal::BufferLength, 0);
    assert_eq!(refused, RefusedText { refusal, at });

    let refused = read_command(&CUT[..20]).unwrap_err();
    assert_eq!((refused.refusal, refused.at), (Refusal::NotOfTheForm, 16));
}

/// The length of the longest row that there is, which is below the proved bound: by SOA, as the last
/// of 128 offices, to all others, with every permission.
const LONGEST_ROW: usize = 10_736;

#[test]
fn the_longest_row_fits_its_room() {
    let soa = Office(127);
    let layer = Layer(65535);
    let header = Header { n: 128, soa, layer };
    let mut cells = vec![0; 128 * 128];
    cells[127 * 128..].fill(15);
    cells[127 * 128 + 127] = 0;
    let mut room = [0; ROW_TEXT];
    assert_eq!(write_row(&cells, header, soa, &mut room), Ok(LONGEST_ROW));
    let exact = write_row(&cells, header, soa, &mut room[..LONGEST_ROW]);
    assert_eq!(exact, Ok(LONGEST_ROW));
    let short = write_row(&cells, header, soa, &mut room[..LONGEST_ROW - 1]);
    assert_eq!(short, Err(Refusal::TooLittleRoom));
}
