//! The program: a register text, then command texts until the input ends.

use crate::commands::{command, Outcome};
use crate::refusal::{Refusal, DONE};
use crate::register::Register;
use crate::text::{end_text, header_text, read_command, read_register, row_text};
use crate::text::{ReadCommand, ReadRegister};

const LONGEST_INPUT: usize = 65_536;
const LARGEST_REGISTER: usize = 128 * 128;

/// From the whole standard input to the whole standard output.
pub fn regrun(input: &[u8]) -> Vec<u8> {
    if input.len() > LONGEST_INPUT {
        return refused(Refusal::InputTooLong.number(), 0).into_bytes();
    }
    let mut buffer = vec![0; LARGEST_REGISTER];
    let header = read_register(input, &mut buffer);
    if header.answer != DONE {
        return refused(header.answer, header.at).into_bytes();
    }
    let cells = &mut buffer[..usize::from(header.n) * usize::from(header.n)];
    let mut output = String::new();
    match carry_out_commands(input, cells, &header, &mut output) {
        Ok(()) => output += &register_text(cells, &header),
        Err(at) => output += &refused(Refusal::NotOfTheForm.number(), at),
    }
    output.into_bytes()
}

/// Carries out the commands one at a time; gives the offset in the input of
/// the first bad line if a command text is refused.
fn carry_out_commands(
    input: &[u8],
    cells: &mut [u8],
    header: &ReadRegister,
    output: &mut String,
) -> Result<(), usize> {
    let mut start = header.rest_offset;
    while start < input.len() {
        let read = read_command(&input[start..]);
        if read.answer != DONE {
            return Err(start + read.at);
        }
        *output += &answered(carry_out(cells, header, &read));
        start += read.rest_offset;
    }
    Ok(())
}

fn carry_out(cells: &mut [u8], header: &ReadRegister, read: &ReadCommand) -> Outcome {
    let ReadRegister { n, soa, layer, .. } = *header;
    command(
        cells, n, soa, layer, read.act, read.layer, read.by, read.to, read.perm,
    )
}

fn answered(outcome: Outcome) -> String {
    let Outcome {
        answer,
        removed,
        added,
    } = outcome;
    format!("answer={answer}\nremoved={removed}\nadded={added}\n")
}

fn refused(answer: u8, at: usize) -> String {
    format!("refused={answer}\nat={at}\n")
}

fn register_text(cells: &[u8], header: &ReadRegister) -> String {
    let ReadRegister { n, soa, layer, .. } = *header;
    let register = Register::from_bytes(cells, n, soa).expect("the reader gave these cells");
    let rows: String = (0..n).map(|office| row_text(&register, office)).collect();
    header_text(n, soa, layer) + &rows + &end_text()
}
