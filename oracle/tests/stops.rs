//! Where the given Rust's debug build stops and its release build does not: run in the profile
//! `stops` (`cargo test --profile stops --test stops`), in which its `debug_assert`s are on.
#![cfg(debug_assertions)]

use std::panic::{AssertUnwindSafe, catch_unwind};

use oracle::{Call, Rust};

fn stops(ask: impl Fn(&dyn Rust)) -> bool {
    let rust = oracle::rust().expect(oracle::SKIPPED);
    catch_unwind(AssertUnwindSafe(|| ask(rust))).is_err()
}

/// Document 01: "under Pooled this includes a marked wire that no gate mentions (the Rust's debug
/// build stops there)". It stops under PerWire, too, since the shared slots are worked out first.
#[test]
#[cfg_attr(not(given), ignore = "no given Rust beside the repository")]
fn a_marked_wire_that_no_gate_mentions() {
    assert!(stops(|rust| drop(rust.pool(&[], &[], &[1], false))));
    assert!(stops(|rust| drop(rust.pool(&[], &[], &[1], true))));
}

/// word.rs takes a carry-in of 0 or 1 only; exec.rs hands it bit 63.
#[test]
#[cfg_attr(not(given), ignore = "no given Rust beside the repository")]
fn a_carry_in_that_is_no_bit() {
    assert!(stops(|rust| {
        rust.add(0, 0, 2);
    }));
    assert!(stops(|rust| {
        rust.subtract(0, 0, 2);
    }));
}

/// builder.rs cuts a dimension over 2^32 - 1 to its low half in release; document 01 refuses it (8).
#[test]
#[cfg_attr(not(given), ignore = "no given Rust beside the repository")]
fn a_dimension_over_the_largest() {
    assert!(stops(|rust| {
        rust.emit(&[Call::Hint {
            id: 3,
            dimensions: vec![1 << 32],
            inputs: vec![],
            outputs: vec![],
        }]);
    }));
}

/// A shift by 64 stops in word.rs; document 01 refuses it (7).
#[test]
#[cfg_attr(not(given), ignore = "no given Rust beside the repository")]
fn a_shift_by_the_whole_word() {
    assert!(stops(|rust| {
        rust.shift(0, 64, 1);
    }));
}
