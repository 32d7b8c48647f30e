//! Reports: what a stripe's run found, raised to the batch, and joined.

use crate::batch::Stripe;
use crate::boundary;
use crate::packed;
use crate::refusal::Refusal;
use crate::units::{BatchPosition, InstructionNumber, LocalPosition, PathSpec, Violations};
use std::fmt;

/// How many words of the report buffer one failure takes.
pub(crate) const RECORD_WORDS: usize = 3;

/// What the boundary's word says of a failing report.
#[derive(Clone, Copy, Debug, PartialEq, Eq)]
pub(crate) struct Head<Position> {
    pub(crate) position: Position,
    pub(crate) total: Violations,
    pub(crate) kept: usize,
}

/// The six kinds of assertion, by the names of their opcodes.
#[derive(Clone, Copy, Debug, PartialEq, Eq, Hash)]
pub enum Assertion {
    AssertEq,
    AssertEqCond,
    AssertZero,
    AssertNonZero,
    AssertFalse,
    AssertTrue,
}

impl Assertion {
    fn of_opcode(opcode: u8) -> Assertion {
        match opcode {
            0x60 => Assertion::AssertEq,
            0x61 => Assertion::AssertEqCond,
            0x62 => Assertion::AssertZero,
            0x63 => Assertion::AssertNonZero,
            0x64 => Assertion::AssertFalse,
            0x65 => Assertion::AssertTrue,
            other => panic!("the library kept a record of opcode {other:#04x}, which is no assertion"),
        }
    }

    /// The opcode's name.
    pub const fn name(self) -> &'static str {
        match self {
            Assertion::AssertEq => "AssertEq",
            Assertion::AssertEqCond => "AssertEqCond",
            Assertion::AssertZero => "AssertZero",
            Assertion::AssertNonZero => "AssertNonZero",
            Assertion::AssertFalse => "AssertFalse",
            Assertion::AssertTrue => "AssertTrue",
        }
    }
}

impl fmt::Display for Assertion {
    fn fmt(&self, f: &mut fmt::Formatter<'_>) -> fmt::Result {
        f.write_str(self.name())
    }
}

/// One violation of the lowest failing parcel, as it was kept.
#[derive(Clone, Copy, Debug, PartialEq, Eq, Hash)]
pub struct Failure {
    /// The instruction that was violated.
    pub instruction: InstructionNumber,
    /// Its opcode.
    pub assertion: Assertion,
    /// The path spec that it carries.
    pub path_spec: PathSpec,
    /// The two words that it compared, or the word that it judged and 0.
    pub words: [u64; 2],
}

impl Failure {
    /// The head is packed, most significant first: opcode 8 bits, instruction number 24, path spec 32.
    fn of_record(record: &[u64]) -> Failure {
        let head = record[0];
        Failure {
            instruction: InstructionNumber::new((head >> 32) as u32 & 0xFF_FFFF),
            assertion: Assertion::of_opcode((head >> 56) as u8),
            path_spec: PathSpec::new(head as u32),
            words: [record[1], record[2]],
        }
    }
}

impl fmt::Display for Failure {
    fn fmt(&self, f: &mut fmt::Formatter<'_>) -> fmt::Result {
        let Failure { instruction, assertion, path_spec, words: [a, b] } = self;
        write!(f, "{instruction}, {assertion}, {path_spec}: words {a:#018x} and {b:#018x}")
    }
}

/// A failing parcel: its position, and what it violates.
#[derive(Clone, Debug, PartialEq, Eq)]
pub struct FailingParcel<Position> {
    position: Position,
    total: Violations,
    failures: Vec<Failure>,
}

impl<Position: Copy> FailingParcel<Position> {
    /// Where it stands.
    pub fn position(&self) -> Position {
        self.position
    }

    /// How many violations it has, kept or not.
    pub fn total(&self) -> Violations {
        self.total
    }

    /// Its first violations in program order, up to the cap of the run.
    pub fn failures(&self) -> &[Failure] {
        &self.failures
    }

    fn head(&self) -> Head<Position> {
        Head { position: self.position, total: self.total, kept: self.failures.len() }
    }
}

/// What a run over a stripe found: its lowest failing parcel, counted from the stripe's start, if one fails.
#[derive(Clone, Debug, PartialEq, Eq)]
pub struct StripeReport {
    stripe: Stripe,
    failing: Option<FailingParcel<LocalPosition>>,
}

impl StripeReport {
    /// From the boundary's answer and the report buffer.
    pub(crate) fn new(stripe: Stripe, answer: u64, records: &[u64]) -> Result<StripeReport, Refusal> {
        let head = packed::report(answer, LocalPosition::new)?;
        let failing = head.map(|Head { position, total, kept }| FailingParcel {
            position,
            total,
            failures: records.chunks_exact(RECORD_WORDS).take(kept).map(Failure::of_record).collect(),
        });
        Ok(StripeReport { stripe, failing })
    }

    /// The stripe that was filled.
    pub fn stripe(&self) -> Stripe {
        self.stripe
    }

    /// The lowest failing parcel of the stripe, or nothing: the report is clean.
    pub fn failing(&self) -> Option<&FailingParcel<LocalPosition>> {
        self.failing.as_ref()
    }

    /// The report as one of the batch: the stripe's start is added to the position.
    pub fn raise(self) -> Result<BatchReport, Refusal> {
        let start = self.stripe.first();
        self.raise_to(start)
    }

    /// The same for a stripe that was filled in an array of its own, and stands at `start` in its batch.
    pub fn raise_to(self, start: BatchPosition) -> Result<BatchReport, Refusal> {
        let word = packed::word(self.failing.as_ref().map(FailingParcel::head), LocalPosition::get);
        let raised = packed::report(boundary::raise(start.get(), word), BatchPosition::new)?;
        let failing = self.failing.zip(raised).map(|(parcel, head)| Raised {
            start,
            local: parcel.position,
            parcel: FailingParcel { position: head.position, total: head.total, failures: parcel.failures },
        });
        Ok(BatchReport { failing })
    }
}

/// A failing parcel of the batch, and where it stood in its stripe.
#[derive(Clone, Debug, PartialEq, Eq)]
struct Raised {
    start: BatchPosition,
    local: LocalPosition,
    parcel: FailingParcel<BatchPosition>,
}

/// What a batch, or some of its stripes, came to: the lowest failing parcel, counted from the batch's start, if one fails.
#[derive(Clone, Debug, Default, PartialEq, Eq)]
pub struct BatchReport {
    failing: Option<Raised>,
}

/// Whose report stands after a join.
#[derive(Clone, Copy, Debug, PartialEq, Eq, Hash)]
pub enum Side {
    /// Both were clean.
    Neither,
    Left,
    Right,
}

/// The answer of a join: the report that stands, and whose it is.
#[derive(Clone, Debug, PartialEq, Eq)]
pub struct Joined {
    report: BatchReport,
    side: Side,
}

impl Joined {
    /// The side of this join whose report stands.
    pub fn side(&self) -> Side {
        self.side
    }

    /// The report that stands.
    pub fn report(&self) -> &BatchReport {
        &self.report
    }

    /// The report that stands, to be joined again.
    pub fn into_report(self) -> BatchReport {
        self.report
    }
}

impl BatchReport {
    /// No parcel fails: what no reports at all join to.
    pub const CLEAN: BatchReport = BatchReport { failing: None };

    /// The lowest failing parcel, or nothing: the report is clean.
    pub fn failing(&self) -> Option<&FailingParcel<BatchPosition>> {
        self.failing.as_ref().map(|raised| &raised.parcel)
    }

    /// Where the lowest failing parcel's stripe starts in the batch, and where the parcel stands in it.
    pub fn in_stripe(&self) -> Option<(BatchPosition, LocalPosition)> {
        self.failing.as_ref().map(|raised| (raised.start, raised.local))
    }

    /// The lower failing report of the two, with its records; refusal 12 where both name one position.
    pub fn join(self, other: BatchReport) -> Result<Joined, Refusal> {
        let word = |report: &BatchReport| packed::word(report.failing().map(FailingParcel::head), BatchPosition::get);
        let side = packed::side(boundary::join(word(&self), word(&other)))?;
        let report = match side {
            Side::Neither => BatchReport::CLEAN,
            Side::Left => self,
            Side::Right => other,
        };
        Ok(Joined { report, side })
    }

    /// All of them joined, in the order given; [`BatchReport::CLEAN`] where there are none.
    pub fn join_all(reports: impl IntoIterator<Item = BatchReport>) -> Result<BatchReport, Refusal> {
        reports.into_iter().try_fold(BatchReport::CLEAN, |joined, report| joined.join(report).map(Joined::into_report))
    }
}
