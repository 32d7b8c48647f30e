// E0624: a position in a stripe has no way to a bare number, and so none to a position in the batch.
use gussetglen::{BatchPosition, LocalPosition};

pub fn in_batch(local: LocalPosition) -> BatchPosition {
    BatchPosition::new(local.get())
}

fn main() {}
