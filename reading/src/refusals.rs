//! "Numbered refusals": the table, and what a refusal carries.

/// The table's names, in its order.
#[derive(Clone, Copy, Debug, PartialEq, Eq, PartialOrd, Ord, Hash)]
#[repr(u8)]
pub enum Name {
    BadShape = 1,
    BadCap = 2,
    TooLong = 3,
    UnknownOpcode = 4,
    NotCarried = 5,
    Truncated = 6,
    BadShift = 7,
    BadHint = 8,
    BadRegister = 9,
    Overlap = 10,
    NoRoom = 11,
    SamePosition = 12,
    BadPosition = 13,
    BadGates = 14,
}

impl Name {
    /// Every name, for tests that go through the table.
    pub const ALL: [Name; 14] = [
        Name::BadShape,
        Name::BadCap,
        Name::TooLong,
        Name::UnknownOpcode,
        Name::NotCarried,
        Name::Truncated,
        Name::BadShift,
        Name::BadHint,
        Name::BadRegister,
        Name::Overlap,
        Name::NoRoom,
        Name::SamePosition,
        Name::BadPosition,
        Name::BadGates,
    ];

    pub fn number(self) -> u8 {
        self as u8
    }
}

/// A refusal with its offset: "0 where none is carried".
#[derive(Clone, Copy, Debug, PartialEq, Eq, Hash)]
pub struct Refused {
    pub name: Name,
    pub offset: usize,
}

impl Refused {
    pub fn bare(name: Name) -> Refused {
        Refused { name, offset: 0 }
    }

    pub fn at(name: Name, offset: usize) -> Refused {
        Refused { name, offset }
    }
}
