//! Everything that the other programs do, as it should be done.
use gussetglen::{Batch, BatchPosition, BatchReport, Cap, Columns, Program, Refusal, Rows, Stripe, Width};

fn lowest(code: Vec<u8>, words: Vec<u64>) -> Result<Option<usize>, Refusal> {
    let program = Program::check(code, Rows::new(2))?;
    let mut batch = Batch::from_words(Rows::new(2), Width::new(4), words)?;
    let stripe = Stripe::new(BatchPosition::new(1), Columns::new(3));
    let report = program.fill(&mut batch, stripe, Cap::new(1)?)?;
    let raised = report.raise()?;
    let joined = BatchReport::CLEAN.join(raised)?;
    Ok(joined.report().failing().map(|parcel| parcel.position().get()))
}

fn main() {
    println!("{:?}", lowest(Vec::new(), vec![0; 8]));
}
