//! Offices, layers, permissions, acts, and the header of a register.

/// The number of an office. It is never taken where the number of a layer is due:
///
/// ```compile_fail,E0308
/// use rights_register::{Command, Office};
/// Command::wgd(Office(7), Office(0), Office(1));
/// ```
#[repr(C)]
#[derive(Clone, Copy, Debug, Default, PartialEq, Eq, PartialOrd, Ord, Hash)]
pub struct Office(pub u16);

/// The number of a layer. It is never taken where the number of an office is due:
///
/// ```compile_fail,E0308
/// use rights_register::{Command, Layer, Office};
/// Command::wgd(Layer(7), Layer(0), Office(1));
/// ```
#[repr(C)]
#[derive(Clone, Copy, Debug, Default, PartialEq, Eq, PartialOrd, Ord, Hash)]
pub struct Layer(pub u16);

/// What a register's bytes do not say themselves: how many offices, which of them is the source of
/// authority, and whose layer.
#[repr(C)]
#[derive(Clone, Copy, Debug, Default, PartialEq, Eq, Hash)]
pub struct Header {
    /// How many offices there are.
    pub n: u16,
    /// The source of authority.
    pub soa: Office,
    /// The layer of the register.
    pub layer: Layer,
}

/// Records removed (stood before, not after) and added (after, not before).
#[repr(C)]
#[derive(Clone, Copy, Debug, Default, PartialEq, Eq, Hash)]
pub struct Tally {
    /// Records that stood before and not after.
    pub removed: u64,
    /// Records that stood after and not before.
    pub added: u64,
}

/// The first letter is the right to pass on, the second the right to issue negatives.
#[derive(Clone, Copy, Debug, PartialEq, Eq, Hash)]
pub enum Permission {
    /// Passes on, may issue negatives.
    TT = 8,
    /// Passes on.
    TF = 4,
    /// May issue negatives.
    FT = 2,
    /// Neither.
    FF = 1,
}

impl Permission {
    /// All four, in the order of the register text.
    pub const ALL: [Permission; 4] = [
        Permission::TT,
        Permission::TF,
        Permission::FT,
        Permission::FF,
    ];

    /// The code of the permission in a cell and in a command.
    pub fn code(self) -> u8 {
        self as u8
    }

    /// The permission of a code.
    pub fn from_code(code: u8) -> Option<Permission> {
        Permission::ALL.into_iter().find(|p| p.code() == code)
    }
}

/// The code of a permission as it is handed over. Made from a [`Permission`], or from any number:
/// the library refuses those that are no code.
#[derive(Clone, Copy, Debug, PartialEq, Eq, Hash)]
pub struct Perm(pub u8);

impl From<Permission> for Perm {
    fn from(permission: Permission) -> Perm {
        Perm(permission.code())
    }
}

/// What a command does.
#[derive(Clone, Copy, Debug, PartialEq, Eq, Hash)]
pub enum Act {
    /// Adds a record.
    Grant = 0,
    /// Weak local deletion.
    Wld = 1,
    /// Weak global deletion.
    Wgd = 2,
    /// Strong local deletion.
    Sld = 3,
    /// Strong global deletion.
    Sgd = 4,
}

impl Act {
    /// All five, by their codes.
    pub const ALL: [Act; 5] = [Act::Grant, Act::Wld, Act::Wgd, Act::Sld, Act::Sgd];

    /// The code of the act in a command.
    pub fn code(self) -> u8 {
        self as u8
    }

    /// The act of a code.
    pub fn from_code(code: u8) -> Option<Act> {
        Act::ALL.into_iter().find(|act| act.code() == code)
    }
}
