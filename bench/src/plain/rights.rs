//! The functions of `crates/rights/src/lib.rt`.

#[derive(Clone, Copy, PartialEq, Eq, Debug)]
pub enum Permission {
    TT = 8,
    TF = 4,
    FT = 2,
    FF = 1,
}

impl Permission {
    pub const ALL: [Permission; 4] = [
        Permission::TT,
        Permission::TF,
        Permission::FT,
        Permission::FF,
    ];

    pub fn code(self) -> u8 {
        self as u8
    }

    pub fn decoded(perm: u8) -> Permission {
        match perm {
            8 => Permission::TT,
            4 => Permission::TF,
            2 => Permission::FT,
            _ => Permission::FF,
        }
    }
}

#[derive(Clone, Copy, PartialEq, Eq, Debug)]
pub enum Act {
    Grant,
    WLD,
    WGD,
    SLD,
    SGD,
}

impl TryFrom<u8> for Act {
    type Error = Refusal;

    fn try_from(act: u8) -> Result<Act, Refusal> {
        match act {
            0 => Ok(Act::Grant),
            1 => Ok(Act::WLD),
            2 => Ok(Act::WGD),
            3 => Ok(Act::SLD),
            4 => Ok(Act::SGD),
            _ => Err(Refusal::NoCommand),
        }
    }
}

#[derive(Clone, Copy, PartialEq, Eq, Debug)]
pub enum Refusal {
    NoHeader = 1,
    WrongLength = 2,
    Unsound = 3,
    NoCommand = 4,
    OtherLayer = 5,
    NoOffice = 6,
    Barred = 7,
    NotEntitled = 8,
    Standing = 9,
    EmptyCell = 10,
    ShortChain = 11,
    NotHeld = 12,
    BadText = 13,
    LittleRoom = 14,
    LongInput = 15,
    LongRun = 16,
}

impl Refusal {
    pub fn number(self) -> u8 {
        self as u8
    }
}

#[repr(C)]
#[derive(Clone, Copy, PartialEq, Eq, PartialOrd, Ord, Default, Debug)]
pub struct Office(pub u16);

#[repr(C)]
#[derive(Clone, Copy, PartialEq, Eq, Default, Debug)]
pub struct Layer(pub u16);

#[repr(C)]
#[derive(Clone, Copy, Default, Debug, PartialEq, Eq)]
pub struct Header {
    pub n: u16,
    pub soa: Office,
    pub layer: Layer,
}

#[repr(C)]
#[derive(Clone, Copy, Default, Debug, PartialEq, Eq)]
pub struct Command {
    pub act: u8,
    pub layer: Layer,
    pub by: Office,
    pub to: Office,
    pub perm: u8,
}

#[repr(C)]
#[derive(Clone, Copy, Debug, PartialEq, Eq)]
pub struct Entry {
    pub command: Command,
    pub answer: u8,
}

#[repr(C)]
#[derive(Clone, Copy, Default, Debug, PartialEq, Eq)]
pub struct Tally {
    pub removed: u64,
    pub added: u64,
}

impl Tally {
    pub fn taking_in(self, removed: u32, added: u32) -> Tally {
        Tally {
            removed: self.removed.saturating_add(removed as u64),
            added: self.added.saturating_add(added as u64),
        }
    }
}

#[repr(C)]
#[derive(Clone, Copy, Debug, PartialEq, Eq)]
pub struct Ran {
    pub answer: u8,
    pub tally: Tally,
}
