// The root that the given Rust sees; src/lib.rs includes it where the given Rust is there.
//
// The files belong to two crates, `binius_core` and `binius_frontend`, and here both are this one. They
// name other crates by their names, and the second names the first so: each of those names is made
// another name of this crate, and what is asked of it stands at this root.

extern crate self as binius_core;
extern crate self as binius_field;
extern crate self as binius_utils;
extern crate self as bytemuck;
extern crate self as bytes;
extern crate self as cranelift_entity;
extern crate self as smallvec;
extern crate self as thiserror;

use derives::{Error, Pod, Zeroable};
use stand_ins::{
    artifact,
    binius_field::Ghash128b,
    binius_utils::{checked_arithmetics, serialization, strided_array},
    bytes::{Buf, BufMut},
    cranelift_entity::{EntitySet, SecondaryMap},
    ir,
    smallvec::{SmallVec, smallvec},
};
use word::Word;

// Each include is one line that names the given file (build.rs).
include!(concat!(env!("OUT_DIR"), "/word.rs"));

mod constraint_system {
    #[cfg(test)]
    use crate::stand_ins::constraint_system::ValueVec;
    use crate::stand_ins::constraint_system::{ValueIndex, WordSource};

    include!(concat!(env!("OUT_DIR"), "/shift.rs"));
    pub use shift::ShiftVariant;
}

mod eval_form {
    include!(concat!(env!("OUT_DIR"), "/opcode.rs"));
    include!(concat!(env!("OUT_DIR"), "/builder.rs"));
    include!(concat!(env!("OUT_DIR"), "/exec.rs"));
    include!(concat!(env!("OUT_DIR"), "/batch.rs"));
    include!(concat!(env!("OUT_DIR"), "/assertion.rs"));
}

mod layout {
    include!(concat!(env!("OUT_DIR"), "/scratch_alloc.rs"));
}
