//! Runs: programs over batches, what exec.rs and batch.rs leave in every word, and the failures of the
//! lowest failing column. Each column is also run by itself, and the two agree. Every assertion of a
//! program has a path spec of its own, which tells its number.
//!
//! Fields have sixteen digits. What a run needs is put line by line:
//! - `01`: a place in the array, and four words from there on (past the array there is room for more);
//! - `05`: a row, the width, and a pattern for the row: in column c stands start + c * step, modulo 2^64;
//! - `06`: a place in the program, and thirty-two bytes, eight to a field.
//!
//! Then it is run:
//! - `10`: length of the program, rows, width, first column * 2^32 + column count, cap.
//!
//! Then what the Rust answers and leaves:
//! - `11`: 1 where a column fails, its position from the stripe's first column, its total, how many
//!   records are kept; all 0 where none fails;
//! - `12`: the number of a record, and its three words;
//! - `21` to `24`: a place, and one to four words from there on;
//! - `2f`: a row, the width, and the row's checksum.

use super::{Lines, List, checksum, programs};
use crate::{
    Call, Failure, Rust,
    numbers::{LIMITS, Numbers},
};

/// A program over a batch.
struct Batch {
    calls: Vec<Call>,
    rows: usize,
    width: usize,
    values: Vec<u64>,
}

/// The columns that are run, and how many records are kept.
#[derive(Clone, Copy)]
struct Stripe {
    first: usize,
    count: usize,
    cap: usize,
}

pub fn list(rust: &dyn Rust, seed: u64) -> List {
    let mut numbers = Numbers::new(seed);
    let mut lines = Lines::new(16);

    // Document 01's: the whole batch, and cut after column 1.
    let example = Batch {
        calls: vec![Call::AssertZero([0, 11]), Call::AssertZero([1, 12])],
        rows: 2,
        width: 4,
        values: vec![0, 0, 9, 0, 0, 4, 0, 0],
    };
    let stripe = |(first, count)| Stripe {
        first,
        count,
        cap: 1,
    };
    put(
        &mut lines,
        rust,
        &example,
        &[(0, 4), (0, 2), (2, 2)].map(stripe),
    );

    put_halves(&mut lines, rust);
    put_averages(&mut lines, rust);

    // Nothing to run: no instructions, no rows, no columns, none of the columns.
    for (rows, width, first, count) in [(0, 0, 0, 0), (0, 3, 1, 2), (2, 0, 0, 0), (2, 3, 3, 0)] {
        let empty = Batch {
            calls: Vec::new(),
            rows,
            width,
            values: (0..rows * width).map(|_| numbers.word()).collect(),
        };
        put(
            &mut lines,
            rust,
            &empty,
            &[Stripe {
                first,
                count,
                cap: 2,
            }],
        );
    }

    for n in 0..90 {
        let batch = any_batch(rust, &mut numbers, n % 10);
        let first = numbers.below(batch.width as u64 + 1) as usize;
        let count = match numbers.below(3) {
            0 => batch.width - first,
            _ => numbers.below((batch.width - first) as u64 + 1) as usize,
        };
        // Some over the whole batch.
        let (first, count) = if numbers.once_in(2) {
            (0, batch.width)
        } else {
            (first, count)
        };
        let cap = numbers.pick(&[0, 1, 2, 3, 5, 8, 100, 256]);
        put(&mut lines, rust, &batch, &[Stripe { first, count, cap }]);
    }

    for n in 0..20 {
        let batch = any_batch(rust, &mut numbers, n % 10);
        put_cut(&mut lines, rust, &mut numbers, &batch);
    }

    // More failures than the Rust keeps, and than any cap keeps.
    let many = Batch {
        calls: (0..260).map(|path| Call::AssertZero([0, path])).collect(),
        rows: 1,
        width: 3,
        values: vec![0, 7, 8],
    };
    let stripe = |cap| Stripe {
        first: 0,
        count: 3,
        cap,
    };
    put(&mut lines, rust, &many, &[0, 99, 100, 101, 256].map(stripe));

    for width in [4095, 4096] {
        put_wide(&mut lines, rust, width);
    }

    lines.list("fill_answers")
}

/// A batch of that width whose words are limits and others, and whose assertions hold in many columns.
fn any_batch(rust: &dyn Rust, numbers: &mut Numbers, width: u64) -> Batch {
    let rows = 1 + numbers.below(11) as usize;
    let width = width as usize;
    let mut values = Vec::new();
    for row in 0..rows {
        let usual = numbers.pick(&LIMITS);
        for column in 0..width {
            let above = if row == 0 {
                usual
            } else {
                values[(row - 1) * width + column]
            };
            values.push(match numbers.below(8) {
                0 => numbers.any_word(),
                1 | 2 => above,
                _ => usual,
            });
        }
    }
    let mut calls: Vec<Call> = Vec::new();
    let mut now = values.clone();
    // The lowest column that any assertion breaks, in many of the batches not the first.
    let lowest = numbers.below(width as u64 / 2 + 1) as usize;
    for path in 0..2 + numbers.below(16) as u32 {
        let wants_failure = numbers.once_in(2);
        for attempt in 0..60 {
            let call = programs::any_call(numbers, rows as u32, 1000 + path);
            let (code, _) = rust.emit(std::slice::from_ref(&call));
            let mut after = now.clone();
            let fits = match rust.run(&code, width, 0, width, &mut after) {
                None => !wants_failure || attempt > 50,
                Some(failing) => wants_failure && failing.instance >= lowest,
            };
            if fits {
                now = after;
                calls.push(call);
                break;
            }
        }
    }
    Batch {
        calls,
        rows,
        width,
        values,
    }
}

/// A batch, and its runs over some stripes, each from the start.
fn put(lines: &mut Lines, rust: &dyn Rust, batch: &Batch, stripes: &[Stripe]) {
    put_program(lines, rust, batch);
    for &stripe in stripes {
        put_values(lines, &batch.values);
        let after = put_run(lines, rust, batch, stripe);
        put_after(lines, &after);
    }
}

/// A batch cut into stripes anywhere, which are run one after the other in any order: the array ends as
/// the Rust leaves it where it runs the whole batch at once.
fn put_cut(lines: &mut Lines, rust: &dyn Rust, numbers: &mut Numbers, batch: &Batch) {
    let mut cuts = vec![0, batch.width];
    cuts.extend((0..numbers.below(4)).map(|_| numbers.below(batch.width as u64 + 1) as usize));
    cuts.sort_unstable();
    let mut stripes: Vec<(usize, usize)> = cuts
        .windows(2)
        .map(|two| (two[0], two[1] - two[0]))
        .collect();
    for left in (1..stripes.len()).rev() {
        stripes.swap(left, numbers.below(left as u64 + 1) as usize);
    }

    put_program(lines, rust, batch);
    put_values(lines, &batch.values);
    let mut so_far = Batch {
        calls: batch.calls.clone(),
        rows: batch.rows,
        width: batch.width,
        values: batch.values.clone(),
    };
    for (first, count) in stripes {
        so_far.values = put_run(
            lines,
            rust,
            &so_far,
            Stripe {
                first,
                count,
                cap: 4,
            },
        );
    }
    let (code, _) = rust.emit(&batch.calls);
    let mut at_once = batch.values.clone();
    rust.run(&code, batch.width, 0, batch.width, &mut at_once);
    assert_eq!(so_far.values, at_once);
    put_after(lines, &at_once);
}

/// What the run left.
fn put_after(lines: &mut Lines, after: &[u64]) {
    for (count, fields) in by_fours(after) {
        lines.case("words", 0x20 + count, fields);
    }
}

/// The array, four words to a line.
fn put_values(lines: &mut Lines, values: &[u64]) {
    for (_, fields) in by_fours(values) {
        lines.line(0x01, fields);
    }
}

/// Words four by four: how many there are, and the fields of a line with their place.
fn by_fours(words: &[u64]) -> impl Iterator<Item = (u8, [u64; 5])> {
    (0..).zip(words.chunks(4)).map(|(at, four)| {
        let word = |i| four.get(i).copied().unwrap_or(0);
        (
            four.len() as u8,
            [4 * at, word(0), word(1), word(2), word(3)],
        )
    })
}

/// Two readings to the word: a carry that would cross from the low half into the high one, and each
/// half's carry in.
fn put_halves(lines: &mut Lines, rust: &dyn Rust) {
    const LOW_ONES: u64 = 0xffff_ffff;
    const BOTH_TOPS: u64 = 0x8000_0000_8000_0000;
    // a, b, and the carries in, column by column; what is written holds 7 before.
    let columns = [
        [0x0000_0005_0000_0003, 0x0000_0001_0000_0002, 0],
        [LOW_ONES, 1, 0],
        [LOW_ONES, 0, 1 << 31],
        [LOW_ONES, 0, 1 << 63],
        [u64::MAX, 0, BOTH_TOPS],
        [u64::MAX, u64::MAX, !BOTH_TOPS],
        [BOTH_TOPS, BOTH_TOPS, 1 << 32],
        [u64::MAX, 1 << 32, 1 << 63],
    ];
    let width = columns.len();
    let mut values = vec![7; 7 * width];
    for (column, words) in columns.iter().enumerate() {
        for (row, &word) in words.iter().enumerate() {
            values[row * width + column] = word;
        }
    }
    let batch = Batch {
        calls: vec![
            Call::Iadd32CinCout([3, 4, 0, 1, 2]),
            Call::Iadd32Cout([5, 6, 0, 1]),
            Call::AssertEq([3, 5, 31]),
            Call::AssertFalse([4, 32]),
            Call::AssertFalse([6, 33]),
        ],
        rows: 7,
        width,
        values,
    };
    let stripes = [(0, width), (0, 2), (2, 2), (4, 4)].map(|(first, count)| Stripe {
        first,
        count,
        cap: 3,
    });
    put(lines, rust, &batch, &stripes);
}

/// An average behind hint 1 and its upper limit, in a batch where single columns have no readings, with
/// sums of 0, 1 and all ones.
fn put_averages(lines: &mut Lines, rust: &dyn Rust) {
    // Sum and count, column by column; then the limit, and a borrow in of 0. What is written holds 7
    // before.
    let columns = [
        [1803, 4],
        [0, 5],
        [0, 0],
        [2400, 3],
        [1, 0],
        [2403, 3],
        [u64::MAX, 0],
        [u64::MAX, 1],
    ];
    let width = columns.len();
    let mut values = vec![7; 8 * width];
    for (column, &[sum, count]) in columns.iter().enumerate() {
        for (row, word) in [sum, count, 800, 0].into_iter().enumerate() {
            values[row * width + column] = word;
        }
    }
    let average = Call::Hint {
        id: 1,
        dimensions: Vec::new(),
        inputs: vec![0, 1],
        outputs: vec![4, 5],
    };
    let batch = Batch {
        calls: vec![
            average,
            // Where the limit less the average borrows, the two are told.
            Call::IsubBinBout([6, 7, 2, 4, 3]),
            Call::AssertEqCond([7, 4, 2, 31]),
            Call::AssertZero([5, 32]),
        ],
        rows: 8,
        width,
        values,
    };
    let stripes = [(0, width), (1, 2), (2, 1), (3, 2), (6, 1)].map(|(first, count)| Stripe {
        first,
        count,
        cap: 2,
    });
    put(lines, rust, &batch, &stripes);
}

/// Three rows by patterns: assertions fail from column 4,000 on.
fn put_wide(lines: &mut Lines, rust: &dyn Rust, width: usize) {
    let patterns: [(u64, u64); 3] = [(1 << 63, 0x9e37_79b9_7f4a_7c15), (0, 0), (4000, u64::MAX)];
    let word =
        |(start, step): (u64, u64), column: u64| start.wrapping_add(column.wrapping_mul(step));
    let row = |&pattern| (0..width as u64).map(move |column| word(pattern, column));
    let values = patterns.iter().flat_map(row).collect();
    let batch = Batch {
        calls: vec![
            // Row 2 falls: it is 0 in column 4,000, and has its top bit set past it.
            Call::AssertEqCond([2, 0, 1, 1]),
            Call::AssertNonZero([2, 2]),
            Call::Bxor([1, 0, 2]),
            Call::AssertFalse([2, 3]),
            Call::AssertNonZero([2, 4]),
            Call::Shift([2, 1], 2, 7),
        ],
        rows: 3,
        width,
        values,
    };
    put_program(lines, rust, &batch);
    for (first, count) in [(0, width), (width - 100, 100), (1, 3999)] {
        for (row, (start, step)) in (0..).zip(patterns) {
            lines.line(0x05, [row, width as u64, start, step, 0]);
        }
        let stripe = Stripe {
            first,
            count,
            cap: 4,
        };
        let after = put_run(lines, rust, &batch, stripe);
        for (row, words) in (0..).zip(after.chunks(width)) {
            let sum = checksum(words.iter().copied());
            lines.case("rows", 0x2f, [row, width as u64, sum, 0, 0]);
        }
    }
}

/// The program.
fn put_program(lines: &mut Lines, rust: &dyn Rust, batch: &Batch) {
    let (code, _) = rust.emit(&batch.calls);
    for (at, bytes) in (0..).zip(code.chunks(32)) {
        let eight = |i: usize| {
            let mut eight = [0; 8];
            for (to, &from) in eight.iter_mut().zip(bytes.iter().skip(8 * i)) {
                *to = from;
            }
            u64::from_be_bytes(eight)
        };
        lines.line(0x06, [32 * at, eight(0), eight(1), eight(2), eight(3)]);
    }
}

/// The run, its report and its records. What the array holds afterwards is answered.
fn put_run(lines: &mut Lines, rust: &dyn Rust, batch: &Batch, stripe: Stripe) -> Vec<u64> {
    let (code, _) = rust.emit(&batch.calls);
    let Stripe { first, count, cap } = stripe;
    let columns = (first as u64) << 32 | count as u64;
    let sizes = [
        code.len() as u64,
        batch.rows as u64,
        batch.width as u64,
        columns,
        cap as u64,
    ];
    lines.line(0x10, sizes);

    let mut after = batch.values.clone();
    let failing = rust.run(&code, batch.width, first, count, &mut after);
    let alone = run_alone(rust, &code, batch, stripe, &after);
    match (failing, alone) {
        (None, None) => lines.case("reports", 0x11, [0; 5]),
        (Some(failing), Some((instance, failures))) => {
            assert_eq!(
                (failing.instance, failing.total),
                (instance, failures.len())
            );
            assert!(failures.starts_with(&failing.failures));
            let kept = cap.min(failures.len());
            let report = [1, instance, failures.len(), kept, 0].map(|number| number as u64);
            lines.case("reports", 0x11, report);
            for (k, failure) in (0..).zip(&failures[..kept]) {
                let [head, one, two] = record(&batch.calls, failure);
                lines.case("records", 0x12, [k, head, one, two, 0]);
            }
        }
        (batch, alone) => panic!("the Rust differs from itself: {batch:?}, {alone:?}"),
    }
    after
}

/// Each column of the stripe run by itself leaves what the batch does; the first that fails, and all of
/// its failures.
fn run_alone(
    rust: &dyn Rust,
    code: &[u8],
    batch: &Batch,
    stripe: Stripe,
    after: &[u64],
) -> Option<(usize, Vec<Failure>)> {
    let mut lowest = None;
    for column in 0..batch.width {
        let of = |values: &[u64]| -> Vec<u64> {
            values
                .iter()
                .skip(column)
                .step_by(batch.width)
                .copied()
                .collect()
        };
        let mut alone = of(&batch.values);
        if (stripe.first..stripe.first + stripe.count).contains(&column) {
            let failures = rust.run_column(code, &mut alone);
            if lowest.is_none() && !failures.is_empty() {
                lowest = Some((column - stripe.first, failures));
            }
        }
        assert_eq!(alone, of(after));
    }
    lowest
}

/// A record as document 01 packs it. The Rust tells no instruction number; the path spec does.
fn record(calls: &[Call], failure: &Failure) -> [u64; 3] {
    let is_its = |call: &Call| match *call {
        Call::AssertEq([.., path])
        | Call::AssertZero([.., path])
        | Call::AssertNonZero([.., path])
        | Call::AssertFalse([.., path])
        | Call::AssertTrue([.., path]) => path == failure.path,
        Call::AssertEqCond([.., path]) => path == failure.path,
        _ => false,
    };
    let number = calls
        .iter()
        .position(is_its)
        .expect("a failure is some assertion's") as u64;
    let head = u64::from(failure.opcode) << 56 | number << 32 | u64::from(failure.path);
    [head, failure.words[0], failure.words[1]]
}
