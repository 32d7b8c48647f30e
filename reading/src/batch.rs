//! A run over a stripe: each of its columns on its own, then the report of the lowest that fails.

use crate::check::instructions;
use crate::column::{run_column, Record};
use crate::layout::Instruction;
use crate::refusals::{Name, Refused};
use crate::reports::{Local, Report};
use crate::sizes::{MOST_CAP, MOST_ROWS, MOST_WIDTH, RECORD_WORDS};

/// What a run is told beside the program and the two arrays.
#[derive(Clone, Copy, Debug, PartialEq, Eq, Hash)]
pub struct Shape {
    pub rows: usize,
    pub width: usize,
    /// The stripe: its first column ..
    pub first: usize,
    /// .. and how many columns it has.
    pub count: usize,
    pub cap: usize,
}

/// "A run checks 1, 2, 3, then instructions in order"; what it answers where all are passed is the program.
pub fn accept(code: &[u8], shape: Shape, values: usize, report: usize) -> Result<Vec<Instruction>, Refused> {
    let words = shape.rows as u128 * shape.width as u128;
    let stripe_end = shape.first as u128 + shape.count as u128;
    if shape.rows > MOST_ROWS || shape.width > MOST_WIDTH || values as u128 != words || stripe_end > shape.width as u128
    {
        return Err(Refused::bare(Name::BadShape));
    }
    if shape.cap > MOST_CAP || report as u128 != RECORD_WORDS as u128 * shape.cap as u128 {
        return Err(Refused::bare(Name::BadCap));
    }
    instructions(code, shape.rows)
}

/// A column of an array that holds row after row.
pub fn column_of(values: &[u64], shape: Shape, column: usize) -> Vec<u64> {
    (0..shape.rows).map(|row| values[row * shape.width + column]).collect()
}

/// The run. A refusal touches neither array.
pub fn run(code: &[u8], shape: Shape, values: &mut [u64], report: &mut [u64]) -> Result<Report<Local>, Refused> {
    let program = accept(code, shape, values.len(), report.len())?;
    let mut lowest: Option<(usize, Vec<Record>)> = None;
    for local in 0..shape.count {
        let place = shape.first + local;
        let mut column = column_of(values, shape, place);
        let violations = run_column(&program, &mut column);
        for (row, word) in column.into_iter().enumerate() {
            values[row * shape.width + place] = word;
        }
        if lowest.is_none() && !violations.is_empty() {
            lowest = Some((local, violations));
        }
    }
    let Some((position, violations)) = lowest else { return Ok(Report::Clean) };
    let total = violations.len();
    let kept = total.min(shape.cap);
    for (place, record) in violations.iter().take(kept).enumerate() {
        report[place * RECORD_WORDS..][..RECORD_WORDS].copy_from_slice(record);
    }
    Ok(Report::Failing { position: Local(position), total, kept })
}

#[cfg(test)]
mod tests {
    use super::*;
    use crate::layout::{encode_all, Opcode};
    use crate::reports::{join, raise, InBatch, Side};

    fn two_zeros() -> Vec<u8> {
        encode_all(&[
            Instruction::assertion(Opcode::AssertZero, &[0], 11),
            Instruction::assertion(Opcode::AssertZero, &[1], 12),
        ])
    }

    const SHAPE: Shape = Shape { rows: 2, width: 4, first: 0, count: 4, cap: 1 };
    const VALUES: [u64; 8] = [0, 0, 9, 0, 0, 4, 0, 0];

    #[test]
    fn the_documents_batch() {
        let mut values = VALUES;
        let mut report = [7; 3];
        let failing = Report::Failing { position: Local(1), total: 1, kept: 1 };
        assert_eq!(run(&two_zeros(), SHAPE, &mut values, &mut report), Ok(failing));
        assert_eq!(report, [0x6200_0001_0000_000C, 4, 0]);
        assert_eq!(values, VALUES);
    }

    #[test]
    fn the_documents_cut() {
        let mut halves = Vec::new();
        for first in [0, 2] {
            let shape = Shape { first, count: 2, ..SHAPE };
            let head = run(&two_zeros(), shape, &mut VALUES.clone(), &mut [0; 3]).expect("accepted");
            halves.push((first, head));
        }
        assert_eq!(halves[1].1, Report::Failing { position: Local(0), total: 1, kept: 1 });
        let raised: Vec<_> = halves.iter().map(|&(first, head)| raise(first, head).expect("in the batch")).collect();
        assert_eq!(raised[1], Report::Failing { position: InBatch(2), total: 1, kept: 1 });
        let lower = Report::Failing { position: InBatch(1), total: 1, kept: 1 };
        assert_eq!(join(raised[0], raised[1]), Ok((lower, Side::Left)));
        assert_eq!(join(raised[1], raised[0]), Ok((lower, Side::Right)));
    }

    #[test]
    fn one_two_three_in_order() {
        let refused = |shape: Shape, values: usize, report: usize, code: &[u8]| {
            accept(code, shape, values, report).expect_err("refused").name.number()
        };
        let long = vec![0; 65_537];
        let bad_rows = Shape { rows: 8_193, width: 0, count: 0, ..SHAPE };
        assert_eq!(refused(bad_rows, 0, 9, &long), 1);
        assert_eq!(refused(Shape { width: 4_097, ..SHAPE }, 2 * 4_097, 3, &[]), 1);
        assert_eq!(refused(SHAPE, 7, 3, &[]), 1);
        assert_eq!(refused(Shape { first: 1, ..SHAPE }, 8, 3, &[]), 1);
        assert_eq!(refused(Shape { first: usize::MAX, count: 1, ..SHAPE }, 8, 3, &[]), 1);
        assert_eq!(refused(SHAPE, 8, 4, &long), 2);
        assert_eq!(refused(Shape { cap: 300, ..SHAPE }, 8, 900, &long), 2);
        assert_eq!(refused(SHAPE, 8, 3, &long), 3);
        assert!(accept(&[], Shape { first: 4, count: 0, ..SHAPE }, 8, 3).is_ok());
    }
}
