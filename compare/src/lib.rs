//! The proved library beside the given Rust and a second reading of document 01, in one process.
//!
//! What is compared is the boundary as it stands: every packed answer and every lent word. The given Rust judges what is
//! accepted: columns, the failing parcel with its failures, slots. The second reading judges all, and alone what is refused.
//! Where the package was built without the given Rust, the reading alone is left; the programs say so.
//!
//! A case is made from a seed and its number, so a difference is found again from the two that are printed with it.

pub mod cases;
pub mod damage;
pub mod judge;
pub mod limits;
pub mod programs;
pub mod subject;

pub use judge::Judge;
pub use subject::{Library, Subject};
