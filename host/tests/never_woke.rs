//! A parcel with no readings must not average to zero (document 02, E2): an average behind hint 1 and its upper limit.

use gussetglen::{
    Assertion, Batch, BatchPosition, BatchReport, Cap, Failure, InstructionNumber, PathSpec, Program, Register, Rows,
    Violations, Width,
};
use reading::layout::{encode_all, Instruction, Opcode};

const ROWS: Rows = Rows::new(8);

/// Hundredths of a degree; an average of 0 is a comfortable one.
const WARMEST: u64 = 800;
const ONES: u64 = u64::MAX;

struct Parcel {
    sum: u64,
    count: u64,
    average: u64,
    left_over: u64,
    kept: bool,
}

const fn parcel(sum: u64, count: u64, average: u64, left_over: u64, kept: bool) -> Parcel {
    Parcel { sum, count, average, left_over, kept }
}

const PARCELS: [Parcel; 8] = [
    parcel(1_803, 4, 450, 3, true),
    parcel(0, 5, 0, 0, true),
    // a logger that never woke
    parcel(0, 0, ONES, 0, false),
    parcel(2_400, 3, 800, 0, true),
    parcel(2_403, 3, 801, 0, false),
    // no count, and a sum all the same
    parcel(1, 0, ONES, 1, false),
    parcel(ONES, 0, ONES, ONES, false),
    parcel(ONES, 1, ONES, 0, false),
];

/// The average into register 4; where the limit less the average borrows, "equal to the limit" fails with both in the record.
fn program() -> Program {
    let code = encode_all(&[
        Instruction::hint(1, &[], &[0, 1], &[4, 5]),
        Instruction::plain(Opcode::IsubBinBout, &[6, 7], &[2, 4, 3]),
        Instruction::assertion(Opcode::AssertEqCond, &[7, 4, 2], 31),
    ]);
    Program::check(code, ROWS).expect("accepted")
}

/// Fills the parcels, cut at a column, and sees each average and what is left over.
fn fill(parcels: &[Parcel], cut: usize) -> BatchReport {
    let mut batch = Batch::zeroed(ROWS, Width::new(parcels.len())).expect("in the limits");
    for (position, parcel) in parcels.iter().enumerate() {
        for (row, word) in (0..).zip([parcel.sum, parcel.count, WARMEST]) {
            *batch.word_mut(Register::new(row), BatchPosition::new(position)).expect("there") = word;
        }
    }
    let stripes = batch.cut(&[BatchPosition::new(cut)]).expect("within the batch");
    let report = program().fill_all(&mut batch, &stripes, Cap::new(1).expect("in the limit")).expect("filled");
    for (position, parcel) in parcels.iter().enumerate() {
        for (row, word) in [(4, parcel.average), (5, parcel.left_over)] {
            let found = batch.word(Register::new(row), BatchPosition::new(position));
            assert_eq!(found, Some(word), "row {row} of parcel {position}, cut at {cut}");
        }
    }
    report
}

/// The parcel at this place is the one reported, for its average.
#[track_caller]
fn expect_failing(report: &BatchReport, place: usize, average: u64) {
    let parcel = report.failing().expect("over its limit");
    assert_eq!((parcel.position(), parcel.total()), (BatchPosition::new(place), Violations::new(1)));
    let failure = Failure {
        instruction: InstructionNumber::new(2),
        assertion: Assertion::AssertEqCond,
        path_spec: PathSpec::new(31),
        words: [average, WARMEST],
    };
    assert_eq!(parcel.failures(), [failure]);
}

#[test]
fn every_cut_reports_the_logger_that_never_woke() {
    for cut in 0..=PARCELS.len() {
        expect_failing(&fill(&PARCELS, cut), 2, ONES);
    }
}

#[test]
fn each_parcel_alone_is_judged_by_its_average() {
    for parcel in &PARCELS {
        let report = fill(std::slice::from_ref(parcel), 0);
        if parcel.kept {
            assert!(report.failing().is_none(), "{} over {}", parcel.sum, parcel.count);
        } else {
            expect_failing(&report, 0, parcel.average);
        }
    }
}
