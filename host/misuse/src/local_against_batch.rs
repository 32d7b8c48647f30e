// E0308: the two kinds of position are not compared.
use gussetglen::{BatchReport, StripeReport};

pub fn same(stripe: &StripeReport, batch: &BatchReport) -> bool {
    match (stripe.failing(), batch.failing()) {
        (Some(one), Some(other)) => one.position() == other.position(),
        _ => false,
    }
}

fn main() {}
