//! Derives that the given Rust names and that nothing here asks anything of: each adds no code.
//!
//! `Pod` and `Zeroable` say that a word may be read as bytes, `Error` renders a failure as a
//! sentence. The oracle reads words as words and takes failures apart field by field.

use proc_macro::TokenStream;

#[proc_macro_derive(Pod)]
pub fn pod(_: TokenStream) -> TokenStream {
    TokenStream::new()
}

#[proc_macro_derive(Zeroable)]
pub fn zeroable(_: TokenStream) -> TokenStream {
    TokenStream::new()
}

#[proc_macro_derive(Error, attributes(error, source))]
pub fn error(_: TokenStream) -> TokenStream {
    TokenStream::new()
}
