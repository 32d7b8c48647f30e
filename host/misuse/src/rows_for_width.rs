// E0308: rows are not columns.
use gussetglen::{Batch, Refusal, Rows, Width};

pub fn turned(rows: Rows, width: Width) -> Result<Batch, Refusal> {
    Batch::zeroed(width, rows)
}

fn main() {}
