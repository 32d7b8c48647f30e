//! Document 01's examples, asked of the given Rust.

use oracle::{Call, Failing, Failure, Rust};

fn rust() -> &'static dyn Rust {
    oracle::rust().expect(oracle::SKIPPED)
}

const ALL_ONES: u64 = u64::MAX;

#[test]
#[cfg_attr(not(given), ignore = "no given Rust beside the repository")]
fn sums_and_differences() {
    let rust = rust();
    assert_eq!(rust.add(3, 1, 0), [4, 3]);
    assert_eq!(rust.add(ALL_ONES, 1, 0), [0, ALL_ONES]);
    assert_eq!(rust.subtract(0, 1, 0), [ALL_ONES, ALL_ONES]);
}

/// Document 02, E1: no carry goes from the low half into the high one, and the carry in of a half is the
/// top bit of the same half.
#[test]
#[cfg_attr(not(given), ignore = "no given Rust beside the repository")]
fn sums_of_halves() {
    let rust = rust();
    let low_ones = 0xffff_ffff;
    assert_eq!(rust.add_bare_halves(low_ones, 1), [0, low_ones]);
    assert_eq!(rust.add_bare_halves(ALL_ONES, 1), [!low_ones, low_ones]);
    assert_eq!(rust.add_halves(ALL_ONES, 0, 1 << 31), [!low_ones, low_ones]);
    assert_eq!(rust.add_halves(ALL_ONES, 0, 1 << 63), [low_ones, !low_ones]);
    let tops = 1 << 31 | 1 << 63;
    assert_eq!(rust.add_halves(ALL_ONES, 0, tops), [0, ALL_ONES]);
    assert_eq!(rust.add_halves(ALL_ONES, 0, !tops), [ALL_ONES, 0]);
}

#[test]
#[cfg_attr(not(given), ignore = "no given Rust beside the repository")]
fn products() {
    assert_eq!(rust().multiply(ALL_ONES, ALL_ONES), [ALL_ONES - 1, 1]);
}

#[test]
#[cfg_attr(not(given), ignore = "no given Rust beside the repository")]
fn shifts() {
    let rust = rust();
    assert_eq!(rust.shift(2, 63, 1 << 63), ALL_ONES);
    assert_eq!(rust.shift(4, 1, 0x8000_0000_8000_0001), 2);
    assert_eq!(
        rust.shift(6, 31, 0x8000_0000_7fff_ffff),
        0xffff_ffff_0000_0000
    );
}

#[test]
#[cfg_attr(not(given), ignore = "no given Rust beside the repository")]
fn emitted_bytes() {
    let rust = rust();
    let band = [0x01, 5, 0, 0, 0, 1, 0, 0, 0, 2, 0, 0, 0];
    assert_eq!(rust.emit(&[Call::Band([5, 1, 2])]), (band.to_vec(), 1));
    let multi = [0x06, 7, 0, 0, 0, 0, 0, 0, 0];
    assert_eq!(
        rust.emit(&[Call::BxorMulti(7, vec![])]),
        (multi.to_vec(), 1)
    );
    let carried = [
        0x40, 4, 0, 0, 0, 3, 0, 0, 0, 0, 0, 0, 0, 1, 0, 0, 0, 2, 0, 0, 0,
    ];
    assert_eq!(
        rust.emit(&[Call::Iadd32CinCout([4, 3, 0, 1, 2])]),
        (carried.to_vec(), 1)
    );
    let bare = [0x46, 3, 0, 0, 0, 2, 0, 0, 0, 0, 0, 0, 0, 1, 0, 0, 0];
    assert_eq!(
        rust.emit(&[Call::Iadd32Cout([3, 2, 0, 1])]),
        (bare.to_vec(), 1)
    );
    assert_eq!(rust.emit(&[]), (vec![], 0));
}

#[test]
#[cfg_attr(not(given), ignore = "no given Rust beside the repository")]
fn the_lowest_failing_column() {
    let rust = rust();
    let calls = [Call::AssertZero([0, 11]), Call::AssertZero([1, 12])];
    let (code, _) = rust.emit(&calls);
    let values = [0, 0, 9, 0, 0, 4, 0, 0];
    let failing = |instance, path, word| {
        Some(Failing {
            instance,
            total: 1,
            failures: vec![Failure {
                opcode: 0x62,
                path,
                words: [word, 0],
            }],
        })
    };
    let run = |first, count| {
        let mut after = values;
        let verdict = rust.run(&code, 4, first, count, &mut after);
        assert_eq!(after, values);
        verdict
    };
    assert_eq!(run(0, 4), failing(1, 12, 4));
    // Cut after column 1: the right stripe names its own column 0, which is column 2.
    assert_eq!(run(0, 2), failing(1, 12, 4));
    assert_eq!(run(2, 2), failing(0, 11, 9));
    assert_eq!(run(3, 1), None);
}

#[test]
#[cfg_attr(not(given), ignore = "no given Rust beside the repository")]
fn slots() {
    let rust = rust();
    let pooled = rust.pool(&[1, 3, 5, 6], &[0, 0, 1, 1, 2, 2], &[1; 3], false);
    assert_eq!(
        (&pooled.slots[..], pooled.length, pooled.peak),
        (&[0, 1, 0][..], 2, 2)
    );
    let pooled = rust.pool(&[2, 3], &[1, 0, 2], &[1; 3], false);
    assert_eq!(
        (&pooled.slots[..], pooled.length, pooled.peak),
        (&[1, 0, 0][..], 2, 2)
    );
    // The peak is sampled before slots are given back.
    assert_eq!(rust.pool(&[1], &[0], &[1], false).peak, 1);
    let per_wire = rust.pool(&[1, 3, 5, 6], &[0, 0, 1, 1, 2, 2], &[1; 3], true);
    assert_eq!(
        (&per_wire.slots[..], per_wire.length, per_wire.peak),
        (&[0, 1, 2][..], 3, 2)
    );
}

#[test]
#[cfg_attr(not(given), ignore = "no given Rust beside the repository")]
fn wires_without_a_slot() {
    let rust = rust();
    // Wire 0 is unmarked; wire 2 is marked, and no gate mentions it.
    let pooled = rust.pool(&[2], &[0, 1], &[0, 1, 1], false);
    assert_eq!(pooled.slots, [oracle::UNSLOTTED, 0, oracle::UNSLOTTED]);
    let per_wire = rust.pool(&[2], &[0, 1], &[0, 1, 1], true);
    assert_eq!(per_wire.slots, [oracle::UNSLOTTED, 0, 1]);
}
