// E0308: only raised reports are joined.
use gussetglen::{BatchReport, StripeReport};

pub fn joined(left: BatchReport, right: StripeReport) {
    let _ = left.join(right);
}

fn main() {}
