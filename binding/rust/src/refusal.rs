//! The refusals of document 01, by number and in its words.

use std::error::Error;
use std::fmt;

/// Why something was refused.
#[derive(Clone, Copy, Debug, PartialEq, Eq, Hash)]
#[allow(missing_docs)] // `words` says each
pub enum Refusal {
    SizeOrSource = 1,
    BufferLength = 2,
    NotSound = 3,
    ActOrPermission = 4,
    OtherLayer = 5,
    OfficeNumber = 6,
    SameOfficeOrSource = 7,
    NotEntitled = 8,
    RecordStands = 9,
    CellEmpty = 10,
    ChainBufferShort = 11,
    NotHeld = 12,
    NotOfTheForm = 13,
    TooLittleRoom = 14,
    InputTooLong = 15,
    RunTooLong = 16,
}

use Refusal::*;

impl Refusal {
    /// All sixteen, by number.
    pub const ALL: [Refusal; 16] = [
        SizeOrSource,
        BufferLength,
        NotSound,
        ActOrPermission,
        OtherLayer,
        OfficeNumber,
        SameOfficeOrSource,
        NotEntitled,
        RecordStands,
        CellEmpty,
        ChainBufferShort,
        NotHeld,
        NotOfTheForm,
        TooLittleRoom,
        InputTooLong,
        RunTooLong,
    ];

    /// 01's number, 1 to 16.
    pub fn number(self) -> u8 {
        self as u8
    }

    /// The refusal of a number; 0 is done, and other numbers are none.
    pub fn from_number(number: u8) -> Option<Refusal> {
        Refusal::ALL
            .into_iter()
            .find(|refusal| refusal.number() == number)
    }

    /// 01's words for it.
    pub fn words(self) -> &'static str {
        match self {
            SizeOrSource => "n outside 2..128, or SOA ≥ n",
            BufferLength => "register buffer not n·n long (text reader: shorter)",
            NotSound => "register not sound",
            ActOrPermission => "unknown act, or perm not allowed for it",
            OtherLayer => "command for another layer",
            OfficeNumber => "office number ≥ n",
            SameOfficeOrSource => "by equals to, or to is SOA",
            NotEntitled => "grant: by holds nothing that entitles perm",
            RecordStands => "grant: record already stands",
            CellEmpty => "deletion: cell empty",
            ChainBufferShort => "chain buffer shorter than n",
            NotHeld => "office does not hold the permission",
            NotOfTheForm => "text not of the form",
            TooLittleRoom => "too little room for a row's text",
            InputTooLong => "program input too long",
            RunTooLong => "run of more than 256",
        }
    }

    /// An answer as a result. No entry of the library answers with a number that is neither 0 nor a
    /// refusal's.
    pub(crate) fn unless_done(answer: u8) -> Result<(), Refusal> {
        match answer {
            0 => Ok(()),
            number => {
                Err(Refusal::from_number(number).expect("an answer is 0 or one of 01's refusals"))
            }
        }
    }
}

impl fmt::Display for Refusal {
    fn fmt(&self, out: &mut fmt::Formatter<'_>) -> fmt::Result {
        write!(out, "refusal {}: {}", self.number(), self.words())
    }
}

impl Error for Refusal {}

/// Why a text was refused, and where.
#[derive(Clone, Copy, Debug, PartialEq, Eq, Hash)]
pub struct RefusedText {
    /// The refusal.
    pub refusal: Refusal,
    /// Where the first bad line starts; 0 unless the text is not of the form.
    pub at: usize,
}

impl fmt::Display for RefusedText {
    fn fmt(&self, out: &mut fmt::Formatter<'_>) -> fmt::Result {
        match self.refusal {
            NotOfTheForm => write!(out, "{}, at byte {}", self.refusal, self.at),
            other => other.fmt(out),
        }
    }
}

impl Error for RefusedText {}
