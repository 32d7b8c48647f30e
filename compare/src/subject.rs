//! Whatever answers at the boundary: the proved library, or a stand-in with a planted fault that the comparison must find.

use gussetglen::boundary;
pub use gussetglen::boundary::Shape;

/// The five functions, by their slices.
pub trait Subject: Sync {
    fn check(&self, code: &[u8], rows: usize) -> u64;
    fn run(&self, code: &[u8], shape: Shape, values: &mut [u64], report: &mut [u64]) -> u64;
    fn raise(&self, start: usize, report: u64) -> u64;
    fn join(&self, left: u64, right: u64) -> u64;
    fn pool(&self, gates: Gates, slots: &mut [u32]) -> u64;
}

/// What the slot allocator is told.
#[derive(Clone, Copy, Debug)]
pub struct Gates<'a> {
    pub wires: usize,
    pub ends: &'a [u32],
    pub mentions: &'a [u32],
    pub marks: &'a [u8],
    pub per_wire: bool,
}

/// The proved library.
pub struct Library;

impl Subject for Library {
    fn check(&self, code: &[u8], rows: usize) -> u64 {
        boundary::check(code, rows)
    }

    fn run(&self, code: &[u8], shape: Shape, values: &mut [u64], report: &mut [u64]) -> u64 {
        boundary::run(code, shape, values, report)
    }

    fn raise(&self, start: usize, report: u64) -> u64 {
        boundary::raise(start, report)
    }

    fn join(&self, left: u64, right: u64) -> u64 {
        boundary::join(left, right)
    }

    fn pool(&self, gates: Gates, slots: &mut [u32]) -> u64 {
        boundary::pool(gates.wires, gates.ends, gates.mentions, gates.marks, slots, gates.per_wire)
    }
}
