//! What a failed filling is told as: the Rust fills these fields, and the oracle reads them.

pub mod witness {
    #[derive(Debug)]
    pub struct AssertionFailure {
        pub path: String,
        pub detail: String,
    }

    #[derive(Debug)]
    pub struct PopulateError {
        pub total: usize,
        pub failures: Vec<AssertionFailure>,
    }
}
