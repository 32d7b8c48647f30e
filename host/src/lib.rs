//! Gussetglen for the Rust prover: filling the witness of a batch of parcels.
//!
//! The work is done by a proved library, which this crate links and which is the only judge: whatever is refused is refused
//! there, by the numbered rules of document 01. Here every number gets its unit, and every answer its type.
//!
//! ```no_run
//! use gussetglen::{Batch, BatchPosition, BatchReport, Cap, Program, Refusal, Rows, Width};
//!
//! fn fill(code: Vec<u8>, words: Vec<u64>) -> Result<BatchReport, Refusal> {
//!     let program = Program::check(code, Rows::new(12))?;
//!     let mut batch = Batch::from_words(program.rows(), Width::new(1_000), words)?;
//!     let stripes = batch.cut(&[BatchPosition::new(500)]).expect("500 is within the batch");
//!     let report = program.fill_all(&mut batch, &stripes, Cap::new(16)?)?;
//!     if let Some(parcel) = report.failing() {
//!         println!("{} fails with {}", parcel.position(), parcel.total());
//!     }
//!     Ok(report)
//! }
//! ```
//!
//! A stripe's run answers a [`StripeReport`], whose position is a [`LocalPosition`]: counted from the stripe's start.
//! [`StripeReport::raise`] makes it a [`BatchReport`] with a [`BatchPosition`], and nothing else does. Batch reports are
//! [joined](BatchReport::join) in any order; [`BatchReport::CLEAN`] is what none at all come to.
//!
//! Stripes of one [`Batch`] are filled one after the other. To fill them at the same time, give each an array of its own
//! and raise its report with [`StripeReport::raise_to`].

mod batch;
#[cfg(feature = "boundary")]
pub mod boundary;
#[cfg(not(feature = "boundary"))]
mod boundary;
mod packed;
mod program;
mod refusal;
mod report;
mod slots;
mod units;

pub use batch::{BadCut, Batch, Cap, Stripe};
pub use program::Program;
pub use refusal::Refusal;
pub use report::{Assertion, BatchReport, FailingParcel, Failure, Joined, Side, StripeReport};
pub use slots::{Gates, Mark, Policy, Slots};
pub use units::{
    BatchPosition, ByteOffset, Columns, InstructionNumber, LiveWires, LocalPosition, PathSpec, Register, Rows, Slot,
    SlotCount, Violations, Width, Wire,
};
