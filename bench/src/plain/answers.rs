//! The functions of `crates/answers/src/lib.rt`.

use super::printing;
use super::printing::{Line, Written};

pub fn write_answer(answer: u8, removed: u32, added: u32, room: &mut [u8]) -> Written {
    let lines = [
        Line(b"answer=", answer as u32),
        Line(b"removed=", removed),
        Line(b"added=", added),
    ];
    printing::write_lines(&lines, room)
}

pub fn write_refused(number: u8, at: u32, room: &mut [u8]) -> Written {
    let lines = [Line(b"refused=", number as u32), Line(b"at=", at)];
    printing::write_lines(&lines, room)
}
