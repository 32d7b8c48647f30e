// E0451: a program is made by the check alone.
use gussetglen::{Program, Rows};

pub fn unchecked(code: Vec<u8>) -> Program {
    Program { code, rows: Rows::new(1) }
}

fn main() {}
