//! What the given Rust names and is not given: containers, traits, and the numbers that a circuit's
//! wires, gates and paths go by. No rule that is compared is stood in for; the three hints are
//! document 01's own, and theirs alone is a handler of ours (`hints`).

pub mod artifact;
pub mod binius_field;
pub mod binius_utils;
pub mod bytes;
pub mod constraint_system;
pub mod cranelift_entity;
pub mod hints;
pub mod ir;
pub mod smallvec;
