//! The functions of `crates/printing/src/lib.rt`.

use super::numbers;
use super::rights::Refusal;

#[repr(C)]
#[derive(Clone, Copy, Debug, PartialEq, Eq)]
pub struct Written {
    pub answer: u8,
    pub size: usize,
}

impl From<Result<usize, Refusal>> for Written {
    fn from(outcome: Result<usize, Refusal>) -> Written {
        match outcome {
            Ok(size) => Written { answer: 0, size },
            Err(refusal) => Written {
                answer: refusal.number(),
                size: 0,
            },
        }
    }
}

#[derive(Clone, Copy, Debug, PartialEq, Eq)]
pub struct Line<'a>(pub &'a [u8], pub u32);

impl Line<'_> {
    fn size(&self) -> usize {
        self.0.len() + numbers::digits(self.1) + 1
    }
}

#[derive(Debug, PartialEq, Eq)]
pub struct Page<'a> {
    pub room: &'a mut [u8],
    pub at: usize,
}

impl Page<'_> {
    fn put_byte(&mut self, b: u8) {
        self.room[self.at] = b;
        self.at += 1;
    }

    fn put_bytes(&mut self, text: &[u8]) {
        let end = self.at + text.len();
        self.room[self.at..end].copy_from_slice(text);
        self.at = end;
    }

    fn put_number(&mut self, v: u32) {
        if 10 <= v {
            self.put_number(v / 10);
        }
        self.put_byte(b'0' + (v % 10) as u8);
    }

    fn put_line(&mut self, line: &Line) {
        self.put_bytes(line.0);
        self.put_number(line.1);
        self.put_byte(b'\n');
    }
}

pub fn write_bytes(text: &[u8], room: &mut [u8]) -> Written {
    if room.len() < text.len() {
        return Written::from(Err(Refusal::LittleRoom));
    }
    let mut page = Page { room, at: 0 };
    page.put_bytes(text);
    Written::from(Ok(page.at))
}

fn left_behind(lines: &[Line], room: usize) -> Option<usize> {
    let mut left = room;
    for line in lines {
        left = left.checked_sub(line.size())?;
    }
    Some(left)
}

fn try_lines(lines: &[Line], room: &mut [u8]) -> Result<usize, Refusal> {
    left_behind(lines, room.len()).ok_or(Refusal::LittleRoom)?;
    let mut page = Page { room, at: 0 };
    for line in lines {
        page.put_line(line);
    }
    Ok(page.at)
}

pub fn write_lines(lines: &[Line], room: &mut [u8]) -> Written {
    Written::from(try_lines(lines, room))
}

pub fn write_two(a: &[u8], x: u32, b: &[u8], y: u32, room: &mut [u8]) -> Written {
    write_lines(&[Line(a, x), Line(b, y)], room)
}

pub fn write_three(
    a: &[u8],
    x: u32,
    b: &[u8],
    y: u32,
    c: &[u8],
    z: u32,
    room: &mut [u8],
) -> Written {
    write_lines(&[Line(a, x), Line(b, y), Line(c, z)], room)
}
