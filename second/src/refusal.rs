//! The refusal numbers of 01.

#[derive(Clone, Copy, Debug, PartialEq, Eq)]
pub enum Refusal {
    SizeOrSource = 1,
    BufferLength = 2,
    NotSound = 3,
    ActOrPermission = 4,
    OtherLayer = 5,
    OfficeNumber = 6,
    SameOfficeOrSource = 7,
    NotEntitled = 8,
    RecordStands = 9,
    CellEmpty = 10,
    ChainBufferShort = 11,
    NotHeld = 12,
    NotOfTheForm = 13,
    TooLittleRoom = 14,
    InputTooLong = 15,
    RunTooLong = 16,
}

impl Refusal {
    pub fn number(self) -> u8 {
        self as u8
    }
}

/// The answer for what was done.
pub const DONE: u8 = 0;

/// So that a list of checks reads in the order 01 gives them.
pub fn refuse_if(applies: bool, refusal: Refusal) -> Result<(), Refusal> {
    if applies {
        Err(refusal)
    } else {
        Ok(())
    }
}

/// Refusal 1, which every function that is told n and SOA checks first.
pub fn check_size(n: u16, soa: u16) -> Result<(), Refusal> {
    refuse_if(!(2..=128).contains(&n) || soa >= n, Refusal::SizeOrSource)
}
