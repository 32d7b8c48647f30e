// E0308: a stripe starts at a position of the batch.
use gussetglen::{Columns, LocalPosition, Stripe};

pub fn next(local: LocalPosition) -> Stripe {
    Stripe::new(local, Columns::new(1))
}

fn main() {}
