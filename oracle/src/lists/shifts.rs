//! Shifts: every variant by every amount that it takes, at chosen words and random ones. Each answer
//! is exec.rs's over a program of one instruction, and shift.rs's `apply` gives the same.
//!
//! Code: the variant. Fields, of eight digits: amount; high and low half of the word; of the answer.

use super::{Lines, List};
use crate::{Call, Rust, numbers::Numbers};

const NAMES: [&str; 8] = [
    "Sll", "Slr", "Sar", "Rotr", "Sll32", "Srl32", "Sra32", "Rotr32",
];

const CHOSEN: [u64; 8] = [
    1,
    u64::MAX,
    1 << 63,
    1 << 31,
    0x8000_0000_7fff_ffff,
    0x8000_0000_8000_0001,
    (1 << 32) - 1,
    0xffff_ffff_0000_0000,
];

pub fn list(rust: &dyn Rust, seed: u64) -> List {
    let mut numbers = Numbers::new(seed);
    let mut lines = Lines::new(8);
    for (variant, name) in (0..).zip(NAMES) {
        let amounts = if variant < 4 { 64 } else { 32 };
        for amount in 0..amounts {
            let (code, _) = rust.emit(&[Call::Shift([0, 1], variant, amount)]);
            for word in CHOSEN.into_iter().chain([numbers.word(), numbers.word()]) {
                let mut column = [0, word];
                rust.run_column(&code, &mut column);
                let mut batch = [7, 0, 7, !word, word, 7];
                rust.run(&code, 3, 1, 1, &mut batch);
                let answer = column[0];
                assert_eq!(batch, [7, answer, 7, !word, word, 7]);
                assert_eq!(answer, rust.shift(variant, amount, word));
                let half = |word: u64| [word >> 32, word & 0xffff_ffff];
                let [[a, b], [c, d]] = [half(word), half(answer)];
                lines.case(name, variant, [amount.into(), a, b, c, d]);
            }
        }
    }
    lines.list("shift_answers")
}
