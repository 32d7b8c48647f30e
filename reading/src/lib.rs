//! Document 01, read a second time, with what document 02 has changed in it: E1 and E2.
//!
//! This package was written from the text of the two alone; from the Rust that the text points to it takes three
//! things, which the text leaves there: the opcode values, the order of an instruction's fields and the use of its
//! operands. It shares no code with the proved crates nor with the Rust that they port. It is slow and plain on purpose,
//! each rule standing where the document has it, so that it can judge the others: every refusal with its number and
//! offset, the words of a column, reports, raising and joining, and the scratch slots.
//!
//! | module | section of document 01 |
//! |---|---|
//! | [`sizes`] | Sizes |
//! | [`refusals`] | Numbered refusals |
//! | [`layout`] | Instruction layout |
//! | [`check`] | Numbered refusals, 1 and 3 to 10 |
//! | [`words`] | Word rules; document 02, E1 and E2 |
//! | [`column`] | Word rules; Assertions |
//! | [`batch`] | Assertions and reports; a run over a stripe |
//! | [`reports`] | Assertions and reports; raising and joining |
//! | [`slots`] | Scratch slots |
//! | [`packing`] | The answers of the boundary as one number each |

pub mod batch;
pub mod check;
pub mod column;
pub mod layout;
pub mod packing;
pub mod refusals;
pub mod reports;
pub mod sizes;
pub mod slots;
pub mod words;
