//! One subject beside the two judges: each method makes one comparison and answers what differs.

use crate::subject::{Gates, Shape, Subject};
use oracle::Rust;
use reading::reports::{Local, Report};
use reading::{batch, check, packing, slots};
use std::fmt::Debug;

/// What differs, told so that it can be found again.
pub type Difference = String;

pub struct Judge<'a> {
    pub subject: &'a dyn Subject,
    /// The given Rust, where the package was built with it.
    pub rust: Option<&'static dyn Rust>,
}

/// A run of the subject that the judges agreed with.
#[derive(Clone, Debug)]
pub struct Ran {
    /// The packed answer.
    pub answer: u64,
    pub values: Vec<u64>,
    pub report: Vec<u64>,
}

fn same<T: PartialEq + Debug>(what: &str, subject: &T, judge: &T) -> Result<(), Difference> {
    if subject == judge {
        return Ok(());
    }
    Err(format!("{what}: the subject has {subject:?}, the judge {judge:?}"))
}

/// Long arrays are told by their first difference.
fn same_words<T: PartialEq + Debug>(what: &str, subject: &[T], judge: &[T]) -> Result<(), Difference> {
    if subject == judge {
        return Ok(());
    }
    same(&format!("{what}, length"), &subject.len(), &judge.len())?;
    let at = subject.iter().zip(judge).position(|(a, b)| a != b).expect("they differ somewhere");
    same(&format!("{what} at {at}"), &subject[at], &judge[at])
}

impl Judge<'_> {
    /// The program check.
    pub fn check(&self, code: &[u8], rows: usize) -> Result<(), Difference> {
        let expected = check::check(code, rows).map_or_else(packing::refusal, |_| 0);
        same("the answer", &self.subject.check(code, rows), &expected)
            .map_err(|difference| format!("{difference}; check with {rows} rows of {code:02x?}"))
    }

    /// A run over one stripe, on arrays as they come: the answer and every lent word.
    pub fn run(&self, code: &[u8], shape: Shape, values: &[u64], report: &[u64]) -> Result<Ran, Difference> {
        let mut ran = Ran { answer: 0, values: values.to_vec(), report: report.to_vec() };
        ran.answer = self.subject.run(code, shape, &mut ran.values, &mut ran.report);
        let (mut expected_values, mut expected_report) = (values.to_vec(), report.to_vec());
        let Shape { rows, width, first, count, cap } = shape;
        let of_reading = batch::Shape { rows, width, first, count, cap };
        let expected = batch::run(code, of_reading, &mut expected_values, &mut expected_report);
        let word = match expected {
            Ok(report) => packing::report(report, |Local(position)| position),
            Err(refused) => packing::refusal(refused),
        };
        let within = |difference| format!("{difference}; run of {code:02x?} with {shape:?}");
        same("the answer", &ran.answer, &word).map_err(within)?;
        same_words("the values", &ran.values, &expected_values).map_err(within)?;
        same_words("the report buffer", &ran.report, &expected_report).map_err(within)?;
        if let (Ok(expected), Some(rust)) = (expected, self.rust) {
            self.run_beside_rust(rust, code, shape, values, &ran, expected).map_err(within)?;
        }
        Ok(ran)
    }

    /// What the given Rust says of an accepted run: the columns, the failing parcel, and the failures that both keep.
    fn run_beside_rust(
        &self,
        rust: &dyn Rust,
        code: &[u8],
        shape: Shape,
        values: &[u64],
        ran: &Ran,
        report: Report<Local>,
    ) -> Result<(), Difference> {
        let mut filled = values.to_vec();
        let failing = rust.run(code, shape.width, shape.first, shape.count, &mut filled);
        same_words("the values beside the Rust", &ran.values, &filled)?;
        let head = failing.as_ref().map(|failing| (failing.instance, failing.total));
        let (expected, kept) = match report {
            Report::Clean => (None, 0),
            Report::Failing { position: Local(position), total, kept } => (Some((position, total)), kept),
        };
        same("the failing parcel beside the Rust", &expected, &head)?;
        let failures = failing.map_or(Vec::new(), |failing| failing.failures);
        let both = kept.min(failures.len());
        same("how many failures are kept beside the Rust", &both, &kept.min(oracle::KEPT))?;
        for (place, failure) in failures.iter().take(both).enumerate() {
            let record = &ran.report[3 * place..3 * place + 3];
            let told = ((record[0] >> 56) as u8, record[0] as u32, [record[1], record[2]]);
            let expected = (failure.opcode, failure.path, failure.words);
            same("a failure beside the Rust", &told, &expected)
                .map_err(|difference| format!("{difference}, number {place} of the kept ones"))?;
        }
        Ok(())
    }

    /// A column alone: the subject at width 1 against the Rust's own run of one column.
    pub fn column(&self, code: &[u8], column: &[u64], filled: &[u64]) -> Result<(), Difference> {
        let shape = Shape { rows: column.len(), width: 1, first: 0, count: 1, cap: 0 };
        let ran = self.run(code, shape, column, &[])?;
        same_words("the single-parcel run", filled, &ran.values)?;
        if let Some(rust) = self.rust {
            let mut alone = column.to_vec();
            rust.run_column(code, &mut alone);
            same_words("the single-parcel run of the Rust", filled, &alone)?;
        }
        Ok(())
    }

    pub fn raise(&self, start: usize, word: u64) -> Result<u64, Difference> {
        let raised = self.subject.raise(start, word);
        same("the answer", &raised, &packing::raise_word(start, word))
            .map_err(|difference| format!("{difference}; raise {word:#x} by {start}"))?;
        Ok(raised)
    }

    pub fn join(&self, left: u64, right: u64) -> Result<u64, Difference> {
        let joined = self.subject.join(left, right);
        same("the answer", &joined, &packing::join_word(left, right))
            .map_err(|difference| format!("{difference}; join {left:#x} and {right:#x}"))?;
        Ok(joined)
    }

    /// The slot allocator, on buffers as they come: the answer, and every slot.
    pub fn pool(&self, gates: Gates, slots: &[u32]) -> Result<u64, Difference> {
        let within = |difference| format!("{difference}; pool of {gates:?}, {} slots lent", slots.len());
        let mut given = slots.to_vec();
        let answer = self.subject.pool(gates, &mut given);
        let mut expected_slots = slots.to_vec();
        let Gates { wires, ends, mentions, marks, per_wire } = gates;
        let policy = if per_wire { slots::Policy::PerWire } else { slots::Policy::Pooled };
        let expected = slots::pool(wires, ends, mentions, marks, &mut expected_slots, policy);
        let word = expected.map_or_else(packing::refusal, packing::pool);
        same("the answer", &answer, &word).map_err(within)?;
        same_words("the slots", &given, &expected_slots).map_err(within)?;
        if let (Ok(sizes), Some(rust)) = (expected, self.rust) {
            let beside = rust.pool(ends, mentions, marks, per_wire);
            same_words("the slots beside the Rust", &given, &beside.slots).map_err(within)?;
            let told = (sizes.length, sizes.peak);
            same("length and peak beside the Rust", &told, &(beside.length, beside.peak)).map_err(within)?;
        }
        Ok(answer)
    }
}
