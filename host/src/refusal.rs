//! The numbered refusals of document 01.

use crate::units::ByteOffset;
use std::error::Error;
use std::fmt;

/// Why the library refused, by document 01's names. The refusals of an instruction carry the place of its opcode byte.
///
/// A refusal changes nothing that was lent.
#[derive(Clone, Copy, Debug, PartialEq, Eq, Hash)]
pub enum Refusal {
    /// A rule about rows, width, the array's length or the stripe is broken.
    BadShape,
    /// The cap is over its limit, or the report buffer has another length.
    BadCap,
    /// The program is too long.
    TooLong,
    /// A byte is none of the opcodes.
    UnknownOpcode(ByteOffset),
    /// An opcode of the Rust that the port does not carry.
    NotCarried(ByteOffset),
    /// An instruction passes the program's end.
    Truncated(ByteOffset),
    /// A shift has a variant or an amount that does not exist.
    BadShift(ByteOffset),
    /// A hint's id or shape is not listed.
    BadHint(ByteOffset),
    /// A register is not below the rows.
    BadRegister(ByteOffset),
    /// A destination is also a source or another destination.
    Overlap(ByteOffset),
    /// An emitter has no room. No function of this crate emits, so none answers this.
    NoRoom,
    /// Two failing reports name one batch position.
    SamePosition,
    /// A stripe's start and a position in it lead past the widest batch.
    BadPosition,
    /// A rule about the gate list is broken.
    BadGates,
}

impl Refusal {
    /// The refusal with this number of document 01, if there is one; the offset is used where the refusal carries one.
    pub(crate) fn from_number(number: u8, offset: ByteOffset) -> Option<Refusal> {
        Some(match number {
            1 => Refusal::BadShape,
            2 => Refusal::BadCap,
            3 => Refusal::TooLong,
            4 => Refusal::UnknownOpcode(offset),
            5 => Refusal::NotCarried(offset),
            6 => Refusal::Truncated(offset),
            7 => Refusal::BadShift(offset),
            8 => Refusal::BadHint(offset),
            9 => Refusal::BadRegister(offset),
            10 => Refusal::Overlap(offset),
            11 => Refusal::NoRoom,
            12 => Refusal::SamePosition,
            13 => Refusal::BadPosition,
            14 => Refusal::BadGates,
            _ => return None,
        })
    }

    /// Document 01's number.
    pub const fn number(self) -> u8 {
        match self {
            Refusal::BadShape => 1,
            Refusal::BadCap => 2,
            Refusal::TooLong => 3,
            Refusal::UnknownOpcode(_) => 4,
            Refusal::NotCarried(_) => 5,
            Refusal::Truncated(_) => 6,
            Refusal::BadShift(_) => 7,
            Refusal::BadHint(_) => 8,
            Refusal::BadRegister(_) => 9,
            Refusal::Overlap(_) => 10,
            Refusal::NoRoom => 11,
            Refusal::SamePosition => 12,
            Refusal::BadPosition => 13,
            Refusal::BadGates => 14,
        }
    }

    /// Document 01's name.
    pub const fn name(self) -> &'static str {
        match self {
            Refusal::BadShape => "BadShape",
            Refusal::BadCap => "BadCap",
            Refusal::TooLong => "TooLong",
            Refusal::UnknownOpcode(_) => "UnknownOpcode",
            Refusal::NotCarried(_) => "NotCarried",
            Refusal::Truncated(_) => "Truncated",
            Refusal::BadShift(_) => "BadShift",
            Refusal::BadHint(_) => "BadHint",
            Refusal::BadRegister(_) => "BadRegister",
            Refusal::Overlap(_) => "Overlap",
            Refusal::NoRoom => "NoRoom",
            Refusal::SamePosition => "SamePosition",
            Refusal::BadPosition => "BadPosition",
            Refusal::BadGates => "BadGates",
        }
    }

    /// The place of the instruction that was refused, where an instruction was.
    pub const fn offset(self) -> Option<ByteOffset> {
        match self {
            Refusal::UnknownOpcode(at)
            | Refusal::NotCarried(at)
            | Refusal::Truncated(at)
            | Refusal::BadShift(at)
            | Refusal::BadHint(at)
            | Refusal::BadRegister(at)
            | Refusal::Overlap(at) => Some(at),
            _ => None,
        }
    }
}

impl fmt::Display for Refusal {
    fn fmt(&self, f: &mut fmt::Formatter<'_>) -> fmt::Result {
        write!(f, "refusal {}, {}", self.number(), self.name())?;
        match self.offset() {
            Some(at) => write!(f, ", at byte {} of the program", at.get()),
            None => Ok(()),
        }
    }
}

impl Error for Refusal {}

#[cfg(test)]
mod tests {
    use super::*;

    #[test]
    fn numbers_and_names_are_the_tables() {
        let names = [
            "BadShape",
            "BadCap",
            "TooLong",
            "UnknownOpcode",
            "NotCarried",
            "Truncated",
            "BadShift",
            "BadHint",
            "BadRegister",
            "Overlap",
            "NoRoom",
            "SamePosition",
            "BadPosition",
            "BadGates",
        ];
        for (place, name) in names.into_iter().enumerate() {
            let number = place as u8 + 1;
            let refusal = Refusal::from_number(number, ByteOffset::new(9)).expect("a refusal");
            assert_eq!((refusal.number(), refusal.name()), (number, name));
            assert_eq!(refusal.offset().is_some(), (4..=10).contains(&number));
        }
        assert_eq!(Refusal::from_number(0, ByteOffset::new(0)), None);
        assert_eq!(Refusal::from_number(15, ByteOffset::new(0)), None);
    }

    #[test]
    fn it_prints_number_name_and_place() {
        assert_eq!(
            Refusal::BadShift(ByteOffset::new(13)).to_string(),
            "refusal 7, BadShift, at byte 13 of the program"
        );
        assert_eq!(Refusal::BadCap.to_string(), "refusal 2, BadCap");
    }
}
