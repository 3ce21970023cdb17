//! Register text and command text: their readers and writers.

use crate::lines::{act_code, end_value, number, perm_code, Lines};
use crate::permission::{Permission, PERMISSIONS};
use crate::refusal::{check_size, refuse_if, Refusal, DONE};
use crate::register::{Record, Register};
use crate::sound::{is_sound, sound_register};

/// What the register reader gives beside the lent buffer. The unread part
/// starts at `rest_offset`; refused, that is the text's end, an empty part.
#[derive(Clone, Copy, Debug, PartialEq, Eq)]
pub struct ReadRegister {
    pub answer: u8,
    pub at: usize,
    pub rest_offset: usize,
    pub n: u16,
    pub soa: u16,
    pub layer: u16,
}

/// What the command reader gives; refused, a command of zeros.
#[derive(Clone, Copy, Debug, PartialEq, Eq)]
pub struct ReadCommand {
    pub answer: u8,
    pub at: usize,
    pub rest_offset: usize,
    pub act: u8,
    pub layer: u16,
    pub by: u16,
    pub to: u16,
    pub perm: u8,
}

/// A text of the form, not yet judged by what its numbers say.
struct RegisterText {
    n: u16,
    soa: u16,
    layer: u16,
    records: Vec<Record>,
    rest_offset: usize,
}

/// A record's lines as far as they are of the form, each as its start and the
/// place of its value in the order of records.
type RecordLines = Vec<(usize, u16)>;

/// Reads a register text into the lent buffer.
pub fn read_register(text: &[u8], cells: &mut [u8]) -> ReadRegister {
    cells.fill(0);
    let refused = |refusal: Refusal, at: usize| ReadRegister {
        answer: refusal.number(),
        at,
        rest_offset: text.len(),
        n: 0,
        soa: 0,
        layer: 0,
    };
    let told = match register_of_the_form(text) {
        Err(at) => return refused(Refusal::NotOfTheForm, at),
        Ok(told) => told,
    };
    match register_told(&told, cells.len()) {
        Err(refusal) => refused(refusal, 0),
        Ok(register) => {
            let bytes = register.to_bytes();
            cells[..bytes.len()].copy_from_slice(&bytes);
            let RegisterText {
                n,
                soa,
                layer,
                rest_offset,
                ..
            } = told;
            ReadRegister {
                answer: DONE,
                at: 0,
                rest_offset,
                n,
                soa,
                layer,
            }
        }
    }
}

/// Check 13. The lines of the form come before the first line that is not, so
/// one of them that is out of order is the first bad line of the text.
fn register_of_the_form(text: &[u8]) -> Result<RegisterText, usize> {
    let mut lines = Lines::new(text);
    let (_, n) = lines.read("n", number)?;
    let (_, soa) = lines.read("soa", number)?;
    let (_, layer) = lines.read("layer", number)?;
    let mut told = Vec::new();
    let ending = read_records(&mut lines, &mut told);
    if let Some(at) = first_out_of_order(&told) {
        return Err(at);
    }
    ending?;
    let records = told.iter().map(record_of).collect();
    Ok(RegisterText {
        n,
        soa,
        layer,
        records,
        rest_offset: lines.at,
    })
}

/// Reads records until the end line; where a line is bad, the record it
/// belongs to is the last of `told` and has the lines read before it.
fn read_records(lines: &mut Lines, told: &mut Vec<RecordLines>) -> Result<(), usize> {
    while lines.read("end", end_value).is_err() {
        let mut record = RecordLines::new();
        let ending = read_record(lines, &mut record);
        told.push(record);
        ending?;
    }
    Ok(())
}

fn read_record(lines: &mut Lines, record: &mut RecordLines) -> Result<(), usize> {
    record.push(lines.read("by", number)?);
    record.push(lines.read("to", number)?);
    record.push(lines.read("perm", place_of_permission)?);
    Ok(())
}

fn place_of_permission(name: &str) -> Option<u16> {
    Permission::from_name(name).map(|p| p as u16)
}

fn record_of(record: &RecordLines) -> Record {
    let permission = PERMISSIONS[usize::from(record[2].1)];
    Record {
        by: record[0].1,
        to: record[1].1,
        permission,
    }
}

fn first_out_of_order(told: &[RecordLines]) -> Option<usize> {
    told.windows(2)
        .find_map(|pair| line_out_of_order(&pair[0], &pair[1]))
}

/// The first line that differs from the record before decides; if none does,
/// the record is told twice and its last line, `perm=`, is the bad one.
fn line_out_of_order(previous: &RecordLines, record: &RecordLines) -> Option<usize> {
    for ((_, before), (start, value)) in previous.iter().zip(record) {
        if value != before {
            return if value < before { Some(*start) } else { None };
        }
    }
    record.get(2).map(|(start, _)| *start)
}

/// The checks 1, 2, 6, 7 and 3, each over all records before the next.
fn register_told(told: &RegisterText, buffer_length: usize) -> Result<Register, Refusal> {
    let (n, soa, records) = (told.n, told.soa, &told.records);
    check_size(n, soa)?;
    let length = usize::from(n) * usize::from(n);
    refuse_if(buffer_length < length, Refusal::BufferLength)?;
    let too_high = records.iter().any(|r| r.by >= n || r.to >= n);
    refuse_if(too_high, Refusal::OfficeNumber)?;
    let misplaced = records.iter().any(|r| r.by == r.to || r.to == soa);
    refuse_if(misplaced, Refusal::SameOfficeOrSource)?;
    let mut register = Register::empty(n, soa);
    for record in records {
        register.add(*record);
    }
    refuse_if(!is_sound(&register), Refusal::NotSound)?;
    Ok(register)
}

/// Reads the five lines of a command; there is no refusal but 13.
pub fn read_command(text: &[u8]) -> ReadCommand {
    match command_of_the_form(text) {
        Ok(command) => command,
        Err(at) => ReadCommand {
            answer: Refusal::NotOfTheForm.number(),
            at,
            rest_offset: text.len(),
            act: 0,
            layer: 0,
            by: 0,
            to: 0,
            perm: 0,
        },
    }
}

fn command_of_the_form(text: &[u8]) -> Result<ReadCommand, usize> {
    let mut lines = Lines::new(text);
    let (_, act) = lines.read("act", act_code)?;
    let (_, layer) = lines.read("layer", number)?;
    let (_, by) = lines.read("by", number)?;
    let (_, to) = lines.read("to", number)?;
    let (_, perm) = lines.read("perm", perm_code)?;
    Ok(ReadCommand {
        answer: DONE,
        at: 0,
        rest_offset: lines.at,
        act,
        layer,
        by,
        to,
        perm,
    })
}

pub fn header_text(n: u16, soa: u16, layer: u16) -> String {
    format!("n={n}\nsoa={soa}\nlayer={layer}\n")
}

pub fn row_text(register: &Register, office: u16) -> String {
    let mut text = String::new();
    for Record { by, to, permission } in register.row_records(office) {
        text += &format!("by={by}\nto={to}\nperm={}\n", permission.name());
    }
    text
}

pub fn end_text() -> String {
    String::from("end=register\n")
}

/// Writes the header; the checks are 1 and 14.
pub fn write_header(n: u16, soa: u16, layer: u16, room: &mut [u8]) -> (u8, usize) {
    let text = check_size(n, soa).map(|()| header_text(n, soa, layer));
    write(text, room)
}

/// Writes the records that `office` granted; the checks are 1, 2, 3, 6, 14.
pub fn write_row(cells: &[u8], n: u16, soa: u16, office: u16, room: &mut [u8]) -> (u8, usize) {
    let text = sound_register(cells, n, soa).and_then(|register| {
        refuse_if(office >= n, Refusal::OfficeNumber)?;
        Ok(row_text(&register, office))
    });
    write(text, room)
}

/// Writes the end line; the only check is 14.
pub fn write_end(room: &mut [u8]) -> (u8, usize) {
    write(Ok(end_text()), room)
}

/// Gives the answer and the length; refused, the room stays as it is.
fn write(text: Result<String, Refusal>, room: &mut [u8]) -> (u8, usize) {
    let fitting = text.and_then(|text| {
        refuse_if(text.len() > room.len(), Refusal::TooLittleRoom)?;
        Ok(text)
    });
    match fitting {
        Err(refusal) => (refusal.number(), 0),
        Ok(text) => {
            room[..text.len()].copy_from_slice(text.as_bytes());
            (DONE, text.len())
        }
    }
}
