//! The given Rust as an oracle: its files are compiled unchanged where they lie (build.rs), with
//! stand-ins for only what they name and is not given (`stand_ins`), and asked for answers.
//!
//! [`rust`] gives the oracle, or `None` where the package was built without the given Rust. [`Rust`]
//! lists what it answers, in plain numbers and slices; [`lists`] makes the lists of answers that the
//! repository keeps and that Rattle programs replay.

pub mod lists;
pub mod numbers;

#[cfg(given)]
mod beside;
#[cfg(given)]
mod stand_ins;
#[cfg(given)]
include!("root.rs");

/// The oracle, where the given Rust was there when this package was built.
pub fn rust() -> Option<&'static dyn Rust> {
    #[cfg(given)]
    return Some(&beside::Beside);
    #[cfg(not(given))]
    return None;
}

/// What to say where [`rust`] gives none.
pub const SKIPPED: &str =
    "skipped: no given Rust (GUSSETGLEN_RUST, or shared/docs/src beside the repository)";

/// What the given Rust answers.
///
/// A method stops (panics) where the Rust does: on a program that document 01 refuses, say.
pub trait Rust: Sync {
    /// word.rs: the sum and its carries, with a carry-in of 0 or 1.
    fn add(&self, a: u64, b: u64, carry_in: u64) -> [u64; 2];

    /// word.rs: the difference and its borrows, with a borrow-in of 0 or 1.
    fn subtract(&self, a: u64, b: u64, borrow_in: u64) -> [u64; 2];

    /// word.rs: the high and the low word of the product.
    fn multiply(&self, a: u64, b: u64) -> [u64; 2];

    /// word.rs: the sum of each half and its carries, with the carries-in in bits 31 and 63 of a word.
    fn add_halves(&self, a: u64, b: u64, carries_in: u64) -> [u64; 2];

    /// word.rs: the same by the function that takes no carries-in.
    fn add_bare_halves(&self, a: u64, b: u64) -> [u64; 2];

    /// shift.rs: whether a variant has that number.
    fn has_variant(&self, number: u8) -> bool;

    /// shift.rs: the variant of that number, applied.
    fn shift(&self, variant: u8, amount: u8, word: u64) -> u64;

    /// builder.rs: the bytes that these calls emit, and how many instructions were counted.
    fn emit(&self, calls: &[Call]) -> (Vec<u8>, usize);

    /// exec.rs over batch.rs: a program run over the columns `first .. first + count` of an array
    /// that lies row after row. The answer is the lowest failing column, counted from `first`, if
    /// any fails; at most [`KEPT`] of its failures come with it.
    fn run(
        &self,
        code: &[u8],
        width: usize,
        first: usize,
        count: usize,
        values: &mut [u64],
    ) -> Option<Failing>;

    /// exec.rs over one column by the trait's own methods: `map`, `update` and `check` are exec.rs's,
    /// loads and stores are plain. The answer is every failure, in the order of the program.
    fn run_column(&self, code: &[u8], column: &mut [u64]) -> Vec<Failure>;

    /// scratch_alloc.rs: a slot for each wire ([`UNSLOTTED`] where the Rust has none to give), the
    /// length and the peak. A wire is scratch where its mark is not 0; gate `i` mentions
    /// `mentions[ends[i - 1] .. ends[i]]`.
    fn pool(&self, ends: &[u32], mentions: &[u32], marks: &[u8], per_wire: bool) -> Slots;
}

/// assertion.rs: how many failures of a column the Rust keeps.
pub const KEPT: usize = 100;

/// Document 01's mark of a wire without a slot.
pub const UNSLOTTED: u32 = u32::MAX;

/// One call of an emitter of builder.rs, with its arguments in the order of its parameters.
#[derive(Clone, Debug, PartialEq, Eq)]
pub enum Call {
    Band([u32; 3]),
    Bor([u32; 3]),
    Bxor([u32; 3]),
    Select([u32; 4]),
    BxorMulti(u32, Vec<u32>),
    Fax([u32; 4]),
    /// Destination and source, variant, amount.
    Shift([u32; 2], u8, u8),
    IaddCinCout([u32; 5]),
    IaddCarry([u32; 3]),
    IsubBinBout([u32; 5]),
    Imul([u32; 4]),
    Iadd32CinCout([u32; 5]),
    Iadd32Cout([u32; 4]),
    AssertEq([u32; 3]),
    AssertEqCond([u32; 4]),
    AssertZero([u32; 2]),
    AssertNonZero([u32; 2]),
    AssertFalse([u32; 2]),
    AssertTrue([u32; 2]),
    Hint {
        id: u32,
        dimensions: Vec<u64>,
        inputs: Vec<u32>,
        outputs: Vec<u32>,
    },
}

/// The lowest failing column of a run.
#[derive(Clone, Debug, PartialEq, Eq)]
pub struct Failing {
    pub instance: usize,
    /// Every violation of that column.
    pub total: usize,
    /// Its first violations, in the order of the program.
    pub failures: Vec<Failure>,
}

/// A violation. The Rust tells a path and a sentence; the sentence's form tells the opcode.
#[derive(Clone, Debug, PartialEq, Eq)]
pub struct Failure {
    pub opcode: u8,
    pub path: u32,
    /// The words of the sentence: two, or one and 0.
    pub words: [u64; 2],
}

/// What scratch_alloc.rs assigns.
#[derive(Clone, Debug, PartialEq, Eq)]
pub struct Slots {
    pub slots: Vec<u32>,
    pub length: usize,
    pub peak: usize,
}
