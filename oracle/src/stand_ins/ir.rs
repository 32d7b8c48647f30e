//! The circuit as the compiler holds it: as much as the allocator and the assertions name.

pub use graph::{GateGraph, Wire};

pub mod graph {
    use crate::stand_ins::cranelift_entity::{EntityRef, PrimaryMap};

    #[derive(Clone, Copy, Debug, PartialEq, Eq, PartialOrd, Ord)]
    pub struct Wire(u32);

    #[derive(Clone, Copy, Debug, PartialEq, Eq, PartialOrd, Ord)]
    pub struct Gate(u32);

    macro_rules! known_by_number {
        ($($thing:ident),*) => {$(
            impl EntityRef for $thing {
                fn new(number: usize) -> Self {
                    $thing(number.try_into().expect("a number below 2^32"))
                }

                fn index(self) -> usize {
                    self.0 as usize
                }
            }
        )*};
    }

    known_by_number!(Wire, Gate);

    pub struct GateData {
        /// Every wire that the gate mentions.
        pub wires: Vec<Wire>,
    }

    pub struct GateGraph {
        pub gates: PrimaryMap<Gate, GateData>,
        pub wires: PrimaryMap<Wire, ()>,
    }
}

pub mod path {
    #[derive(Clone, Copy, Debug, PartialEq, Eq)]
    pub struct PathSpec(u32);

    impl PathSpec {
        pub const fn from_u32(number: u32) -> Self {
            PathSpec(number)
        }

        pub const fn as_u32(self) -> u32 {
            self.0
        }
    }

    /// Names for paths. Here a path's name is its number, so that a rendered failure tells it.
    pub struct PathSpecTree;

    impl PathSpecTree {
        pub fn stringify(&self, path_spec: PathSpec, out: &mut String) {
            out.push_str(&path_spec.as_u32().to_string());
        }
    }
}

pub use super::hints;
