//! A type for every unit, so that a count of rows is never taken for a count of columns.

use std::fmt;

/// A count or a number with a unit: made from a number and turned back into one by name only.
macro_rules! unit {
    ($(#[$doc:meta])* $name:ident($number:ty), $one:literal, $many:literal) => {
        $(#[$doc])*
        #[derive(Clone, Copy, Debug, Default, PartialEq, Eq, PartialOrd, Ord, Hash)]
        pub struct $name($number);

        impl $name {
            /// This many, or this one.
            pub const fn new(number: $number) -> Self {
                Self(number)
            }

            /// The number, without its unit.
            pub const fn get(self) -> $number {
                self.0
            }
        }

        /// With the unit.
        impl fmt::Display for $name {
            fn fmt(&self, f: &mut fmt::Formatter<'_>) -> fmt::Result {
                counted(f, self.0 as u64, $one, $many)
            }
        }
    };
}

/// `1 row`, `2 rows`; `row 2` where the unit names one thing and does not count many.
fn counted(f: &mut fmt::Formatter<'_>, number: u64, one: &str, many: &str) -> fmt::Result {
    match (many, number) {
        ("", _) => write!(f, "{one} {number}"),
        (_, 1) => write!(f, "1 {one}"),
        _ => write!(f, "{number} {many}"),
    }
}

unit! {
    /// How many rows a program's registers name, and a batch's array has.
    Rows(usize), "row", "rows"
}
unit! {
    /// How many columns a batch has: one for each parcel.
    Width(usize), "parcel", "parcels"
}
unit! {
    /// How many columns of a batch a stripe covers.
    Columns(usize), "parcel", "parcels"
}
unit! {
    /// A register: the number of a row, from 0.
    Register(u32), "register", ""
}
unit! {
    /// A column counted from the batch's start, from 0.
    ///
    /// A [`LocalPosition`] becomes one only by raising a stripe's report with the stripe's start.
    BatchPosition(usize), "batch position", ""
}
unit! {
    /// How many times a parcel violates the program's assertions.
    Violations(usize), "violation", "violations"
}
unit! {
    /// An instruction's number in its program, from 0.
    InstructionNumber(u32), "instruction", ""
}
unit! {
    /// The path spec that an assertion carries: the prover's own name for a place in its circuit.
    PathSpec(u32), "path spec", ""
}
unit! {
    /// A byte's place in a program, counted from the program's start.
    ByteOffset(usize), "byte", ""
}
unit! {
    /// A wire of a gate list, from 0.
    Wire(u32), "wire", ""
}
unit! {
    /// A slot of the scratch segment, from 0.
    Slot(u32), "slot", ""
}
unit! {
    /// How many slots the scratch segment has.
    SlotCount(usize), "slot", "slots"
}
unit! {
    /// How many scratch wires are alive at one gate.
    LiveWires(usize), "live wire", "live wires"
}

/// A column counted from its stripe's start, from 0.
///
/// It can be compared and printed, and it has no way to a bare number: what turns it into a [`BatchPosition`] is
/// [`StripeReport::raise`](crate::StripeReport::raise).
#[derive(Clone, Copy, Debug, PartialEq, Eq, PartialOrd, Ord, Hash)]
pub struct LocalPosition(usize);

impl LocalPosition {
    /// The column with this number from the stripe's start.
    pub const fn new(number: usize) -> Self {
        Self(number)
    }

    /// Within the crate alone: the packing needs it.
    pub(crate) const fn get(self) -> usize {
        self.0
    }
}

impl fmt::Display for LocalPosition {
    fn fmt(&self, f: &mut fmt::Formatter<'_>) -> fmt::Result {
        write!(f, "stripe position {}", self.0)
    }
}

#[cfg(test)]
mod tests {
    use super::*;

    #[test]
    fn a_count_says_its_unit() {
        assert_eq!(Rows::new(0).to_string(), "0 rows");
        assert_eq!(Rows::new(1).to_string(), "1 row");
        assert_eq!(Width::new(12).to_string(), "12 parcels");
        assert_eq!(Violations::new(1).to_string(), "1 violation");
        assert_eq!(InstructionNumber::new(1).to_string(), "instruction 1");
        assert_eq!(PathSpec::new(7).to_string(), "path spec 7");
        assert_eq!(BatchPosition::new(2).to_string(), "batch position 2");
        assert_eq!(LocalPosition::new(2).to_string(), "stripe position 2");
    }
}
