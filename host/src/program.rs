//! A checked program, and filling with it.

use crate::batch::{Batch, Cap, Stripe};
use crate::boundary::{self, Shape};
use crate::packed;
use crate::refusal::Refusal;
use crate::report::{BatchReport, Joined, StripeReport, RECORD_WORDS};
use crate::units::Rows;

/// A program's bytes and its row count, which the library has accepted together.
#[derive(Clone, Debug, PartialEq, Eq)]
pub struct Program {
    code: Vec<u8>,
    rows: Rows,
}

impl Program {
    /// The program check of document 01: refusals 1 and 3 to 10.
    pub fn check(code: impl Into<Vec<u8>>, rows: Rows) -> Result<Program, Refusal> {
        let code = code.into();
        packed::accepted(boundary::check(&code, rows.get()))?;
        Ok(Program { code, rows })
    }

    pub fn bytes(&self) -> &[u8] {
        &self.code
    }

    pub fn rows(&self) -> Rows {
        self.rows
    }

    /// Runs the program over the columns of one stripe and answers what it found there. The other columns stay as they
    /// are; where the answer is a refusal, all do.
    pub fn fill(&self, batch: &mut Batch, stripe: Stripe, cap: Cap) -> Result<StripeReport, Refusal> {
        let shape = Shape {
            rows: self.rows.get(),
            width: batch.width().get(),
            first: stripe.first().get(),
            count: stripe.columns().get(),
            cap: cap.get(),
        };
        let mut records = vec![0; RECORD_WORDS * cap.get()];
        let answer = boundary::run(&self.code, shape, batch.words_mut(), &mut records);
        StripeReport::new(stripe, answer, &records)
    }

    /// Fills stripe after stripe, and raises and joins their reports: the lowest failing parcel of them all.
    pub fn fill_all(&self, batch: &mut Batch, stripes: &[Stripe], cap: Cap) -> Result<BatchReport, Refusal> {
        stripes.iter().try_fold(BatchReport::CLEAN, |joined, &stripe| {
            let raised = self.fill(batch, stripe, cap)?.raise()?;
            joined.join(raised).map(Joined::into_report)
        })
    }
}
