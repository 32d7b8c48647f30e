//! The lists of answers that the repository keeps. Rattle programs replay them: each list is the
//! `stdin` of a crate, and `stdout` beside it is what the program prints where every case agrees.
//!
//! A list is lines of one length: a code of two hexadecimal digits, then five fields of sixteen digits
//! (words) or of eight (numbers), in lower case, a space before each, a line feed at the end. What the
//! codes and fields of a list mean is said where it is made.

use std::{
    fmt::Write,
    fs,
    path::{Path, PathBuf},
};

use crate::Rust;

mod bytecode;
mod programs;
mod runs;
mod scratch;
mod shifts;
mod words;

/// A list, and what its program prints.
pub struct List {
    /// The crate whose program replays it.
    pub name: &'static str,
    pub stdin: String,
    pub stdout: String,
}

/// Every list, by a seed.
pub fn all(rust: &dyn Rust, seed: u64) -> Vec<List> {
    let lists = [
        words::list,
        shifts::list,
        bytecode::list,
        scratch::list,
        runs::list,
    ];
    lists.into_iter().map(|list| list(rust, seed)).collect()
}

/// Where a crate's `stdin` and `stdout` lie.
pub fn folder(name: &str) -> PathBuf {
    Path::new(env!("CARGO_MANIFEST_DIR"))
        .join("../crates")
        .join(name)
}

/// The seed that the stored lists were made by.
pub fn stored_seed() -> u64 {
    let text = fs::read_to_string(seed_file()).expect("oracle/seed is there");
    text.trim_end().parse().expect("oracle/seed is a number")
}

pub fn store_seed(seed: u64) {
    fs::write(seed_file(), format!("{seed}\n")).expect("oracle/seed can be written");
}

fn seed_file() -> PathBuf {
    Path::new(env!("CARGO_MANIFEST_DIR")).join("seed")
}

/// What stands for many words: from 0, for each word rotate left by 5, add 1 and the word, modulo 2^64.
fn checksum(words: impl Iterator<Item = u64>) -> u64 {
    words.fold(0, |sum: u64, word| {
        sum.rotate_left(5).wrapping_add(word).wrapping_add(1)
    })
}

/// Lines of one length, and how many cases they have under each title.
struct Lines {
    digits: usize,
    text: String,
    cases: Vec<(&'static str, usize)>,
}

impl Lines {
    fn new(digits: usize) -> Self {
        Lines {
            digits,
            text: String::new(),
            cases: Vec::new(),
        }
    }

    fn line(&mut self, code: u8, fields: [u64; 5]) {
        let digits = self.digits;
        write!(self.text, "{code:02x}").expect("text grows");
        for field in fields {
            assert!(
                digits == 16 || field >> (4 * digits) == 0,
                "a field that fits"
            );
            write!(self.text, " {field:0digits$x}").expect("text grows");
        }
        self.text.push('\n');
    }

    /// A line that is a case of its own.
    fn case(&mut self, title: &'static str, code: u8, fields: [u64; 5]) {
        self.line(code, fields);
        self.count(title);
    }

    /// One case more under a title.
    fn count(&mut self, title: &'static str) {
        match self.cases.iter_mut().find(|(named, _)| *named == title) {
            Some((_, count)) => *count += 1,
            None => self.cases.push((title, 1)),
        }
    }

    fn list(self, name: &'static str) -> List {
        let tell = |(title, n)| format!("{title}: {n} of {n} agree\n");
        List {
            name,
            stdin: self.text,
            stdout: self.cases.into_iter().map(tell).collect(),
        }
    }
}
