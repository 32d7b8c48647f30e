//! Where the given Rust, built for release, goes on and document 01 refuses: the smallest inputs.
//! docs/DIFFERENCES.md tells of each.

use oracle::{Call, Rust};

fn rust() -> &'static dyn Rust {
    oracle::rust().expect(oracle::SKIPPED)
}

fn hint(id: u32, dimensions: &[u64], inputs: &[u32], outputs: &[u32]) -> Call {
    Call::Hint {
        id,
        dimensions: dimensions.to_vec(),
        inputs: inputs.to_vec(),
        outputs: outputs.to_vec(),
    }
}

/// Refusal 8 when emitting: the Rust keeps the low half of a dimension.
#[test]
#[cfg_attr(not(given), ignore = "no given Rust beside the repository")]
#[cfg(not(debug_assertions))]
fn a_dimension_over_the_largest_is_cut() {
    let rust = rust();
    let over = rust.emit(&[hint(3, &[(1 << 32) + 1], &[0], &[1])]);
    let cut = rust.emit(&[hint(3, &[1], &[0], &[1])]);
    assert_eq!(over, cut);
}

/// Refusal 7: the Rust takes a half-word amount modulo 32 in every build, and in release a whole
/// word's modulo 64.
#[test]
#[cfg_attr(not(given), ignore = "no given Rust beside the repository")]
#[cfg(not(debug_assertions))]
fn an_amount_over_its_width_wraps() {
    let rust = rust();
    let word = 0x8000_0000_0000_0001;
    for variant in 0..8 {
        let width = if variant < 4 { 64 } else { 32 };
        assert_eq!(rust.shift(variant, width, word), word);
        assert_eq!(
            rust.shift(variant, width + 1, word),
            rust.shift(variant, 1, word)
        );
    }
}

/// Refusal 10: the Rust's hints read all inputs before they write an output, and may overlap.
#[test]
#[cfg_attr(not(given), ignore = "no given Rust beside the repository")]
fn a_hint_over_its_own_inputs() {
    let rust = rust();
    let (code, _) = rust.emit(&[hint(3, &[2], &[0, 1], &[0, 1])]);
    let mut column = [4, 9];
    assert_eq!(rust.run(&code, 1, 0, 1, &mut column), None);
    assert_eq!(column, [9, 4]);
}

/// Refusals 4, 6 and 7: the Rust has no check, and stops at such a program when it runs it.
#[test]
#[cfg_attr(not(given), ignore = "no given Rust beside the repository")]
fn programs_that_stop_the_rust() {
    let rust = rust();
    let programs = [
        &[0x04][..],
        &[0x62, 0, 0, 0, 0, 0, 0, 0],
        &[0x10, 0, 0, 0, 0, 1, 0, 0, 0, 8, 0],
    ];
    for code in programs {
        let run = || rust.run(code, 1, 0, 1, &mut [0, 0]);
        assert!(std::panic::catch_unwind(std::panic::AssertUnwindSafe(run)).is_err());
    }
}
