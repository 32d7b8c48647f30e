//! Demand 3 through the crate: any cut, stripes filled in any order, reports joined in any order and any bracketing.

use gussetglen::{
    Batch, BatchPosition, BatchReport, Cap, Columns, Program, Refusal, Register, Rows, Side, Stripe, StripeReport,
    Violations, Width,
};
use reading::layout::{encode_all, Instruction, Opcode};

const ROWS: Rows = Rows::new(5);
const WIDTH: usize = 5;

/// A difference with its borrows, and three assertions: a parcel is clean where a is over b, has 1 violation where they are
/// equal, and 2 where a is under b.
fn program() -> Program {
    let code = encode_all(&[
        Instruction::plain(Opcode::IsubBinBout, &[3, 4], &[0, 1, 2]),
        Instruction::assertion(Opcode::AssertFalse, &[4], 21),
        Instruction::assertion(Opcode::AssertNonZero, &[3], 22),
        Instruction::assertion(Opcode::AssertEqCond, &[4, 0, 1], 23),
    ]);
    Program::check(code, ROWS).expect("accepted")
}

/// Each parcel's a and b; what is to be filled holds 99.
fn batch(readings: [(u64, u64); WIDTH]) -> Batch {
    let mut batch = Batch::zeroed(ROWS, Width::new(WIDTH)).expect("within the limits");
    for (parcel, (a, b)) in readings.into_iter().enumerate() {
        for (row, word) in [(0, a), (1, b), (3, 99), (4, 99)] {
            *batch.word_mut(Register::new(row), BatchPosition::new(parcel)).expect("there") = word;
        }
    }
    batch
}

const READINGS: [(u64, u64); WIDTH] = [(9, 2), (7, 3), (2, 9), (5, 5), (0, 1)];

fn cap() -> Cap {
    Cap::new(2).expect("in the limit")
}

/// Every way to put the numbers below `n` in order.
fn orders(n: usize) -> Vec<Vec<usize>> {
    if n == 0 {
        return vec![Vec::new()];
    }
    let mut all = Vec::new();
    for shorter in orders(n - 1) {
        for place in 0..n {
            let mut order = shorter.clone();
            order.insert(place, n - 1);
            all.push(order);
        }
    }
    all
}

/// Every bracketing of joins over the reports, in their order.
fn joins(reports: &[BatchReport]) -> Vec<BatchReport> {
    match reports {
        [] => vec![BatchReport::CLEAN],
        [one] => vec![one.clone()],
        _ => {
            let mut all = Vec::new();
            for split in 1..reports.len() {
                for left in joins(&reports[..split]) {
                    for right in joins(&reports[split..]) {
                        all.push(left.clone().join(right).expect("no two positions are one").into_report());
                    }
                }
            }
            all
        }
    }
}

#[test]
fn every_cut_in_every_order_and_bracketing_is_the_whole() {
    let program = program();
    let start = batch(READINGS);
    let mut whole = start.clone();
    let stripe = whole.whole();
    let expected = program.fill(&mut whole, stripe, cap()).expect("filled").raise().expect("in the batch");
    let head = expected.failing().expect("parcels fail");
    assert_eq!((head.position(), head.total()), (BatchPosition::new(2), Violations::new(2)));
    let mut cuts = 0;
    for first in 0..=WIDTH {
        for second in first..=WIDTH {
            cuts += 1;
            let starts = [first, second].map(BatchPosition::new);
            let stripes = start.cut(&starts).expect("within the batch");
            for order in orders(stripes.len()) {
                let mut filled = start.clone();
                let mut reports = Vec::new();
                for &number in &order {
                    let report = program.fill(&mut filled, stripes[number], cap()).expect("filled");
                    reports.push(report.raise().expect("in the batch"));
                }
                assert_eq!(filled, whole);
                for joined in joins(&reports) {
                    assert_eq!(joined.failing(), expected.failing());
                }
                assert_eq!(BatchReport::join_all(reports).expect("joined").failing(), expected.failing());
            }
        }
    }
    assert_eq!(cuts, 21);
}

#[test]
fn every_parcel_ends_as_its_own_run() {
    let program = program();
    let start = batch(READINGS);
    let mut filled = start.clone();
    let stripes = filled.cut(&[BatchPosition::new(1), BatchPosition::new(4)]).expect("within the batch");
    program.fill_all(&mut filled, &stripes, cap()).expect("filled");
    for parcel in (0..WIDTH).map(BatchPosition::new) {
        let column =
            |batch: &Batch| (0..5).map(|row| batch.word(Register::new(row), parcel)).collect::<Option<Vec<_>>>();
        let before = column(&start).expect("a column");
        let mut alone = Batch::from_words(ROWS, Width::new(1), before.clone()).expect("one parcel");
        let stripe = alone.whole();
        program.fill(&mut alone, stripe, cap()).expect("filled");
        assert_ne!(alone.words(), before);
        assert_eq!(column(&filled), Some(alone.into_words()));
    }
}

#[test]
fn a_stripe_writes_its_own_columns_only() {
    let program = program();
    let start = batch(READINGS);
    let mut filled = start.clone();
    let stripe = Stripe::new(BatchPosition::new(1), Columns::new(2));
    program.fill(&mut filled, stripe, cap()).expect("filled");
    for row in (0..5).map(Register::new) {
        for parcel in [0, 3, 4].map(BatchPosition::new) {
            assert_eq!(filled.word(row, parcel), start.word(row, parcel));
        }
    }
    assert_eq!(filled.word(Register::new(3), BatchPosition::new(2)), Some(2u64.wrapping_sub(9)));
}

#[test]
fn a_stripe_of_no_columns_is_clean_and_changes_nothing() {
    let program = program();
    let start = batch(READINGS);
    let mut filled = start.clone();
    for first in 0..=WIDTH {
        let stripe = Stripe::new(BatchPosition::new(first), Columns::new(0));
        let report = program.fill(&mut filled, stripe, cap()).expect("filled");
        assert_eq!(report.failing(), None);
        assert_eq!(report.raise().expect("clean"), BatchReport::CLEAN);
    }
    assert_eq!(filled, start);
}

#[test]
fn totals_go_past_the_cap_and_records_do_not() {
    let program = program();
    let start = batch(READINGS);
    for most in [0, 1, 2, 3] {
        let cap = Cap::new(most).expect("in the limit");
        let report = program.fill(&mut start.clone(), start.whole(), cap).expect("filled");
        let parcel = report.failing().expect("parcel 2 fails");
        assert_eq!(parcel.total(), Violations::new(2));
        let told: Vec<u32> = parcel.failures().iter().map(|failure| failure.path_spec.get()).collect();
        assert_eq!(told, [21, 23][..most.min(2)]);
    }
}

/// The raised report of a parcel that fails at `local` in a stripe that starts at `start`.
fn failing_at(start: usize, local: usize) -> Result<BatchReport, Refusal> {
    stripe_report(local).raise_to(BatchPosition::new(start))
}

fn stripe_report(local: usize) -> StripeReport {
    let code = Instruction::assertion(Opcode::AssertZero, &[0], 1).encode();
    let program = Program::check(code, Rows::new(1)).expect("accepted");
    let mut words = vec![0; local + 1];
    words[local] = 1;
    let mut batch = Batch::from_words(Rows::new(1), Width::new(local + 1), words).expect("populated");
    let stripe = batch.whole();
    program.fill(&mut batch, stripe, cap()).expect("filled")
}

#[test]
fn raising_past_the_widest_batch_is_thirteen() {
    let position =
        |report: Result<BatchReport, Refusal>| report.map(|report| report.failing().expect("failing").position().get());
    assert_eq!(position(failing_at(0, 0)), Ok(0));
    assert_eq!(position(failing_at(4_000, 95)), Ok(4_095));
    assert_eq!(position(failing_at(4_095, 0)), Ok(4_095));
    assert_eq!(position(failing_at(0, 4_095)), Ok(4_095));
    assert_eq!(position(failing_at(4_000, 96)), Err(Refusal::BadPosition));
    assert_eq!(position(failing_at(usize::MAX, 1)), Err(Refusal::BadPosition));
    let clean = program().fill(&mut batch(READINGS), Stripe::new(BatchPosition::new(5), Columns::new(0)), cap());
    let clean = clean.expect("filled").raise_to(BatchPosition::new(usize::MAX));
    assert_eq!(clean, Ok(BatchReport::CLEAN));
}

#[test]
fn one_position_twice_is_twelve() {
    let at = |start, local| failing_at(start, local).expect("in the batch");
    assert_eq!(at(3, 4).join(at(5, 2)), Err(Refusal::SamePosition));
    let lower = at(3, 3).join(at(5, 2)).expect("two positions");
    assert_eq!((lower.side(), lower.report()), (Side::Left, &at(3, 3)));
    assert_eq!(BatchReport::join_all([at(1, 1), at(0, 3), at(2, 0)]), Err(Refusal::SamePosition));
}

#[test]
fn clean_is_the_unit_of_joining() {
    let failing = || failing_at(3, 4).expect("in the batch");
    let both = BatchReport::CLEAN.join(BatchReport::CLEAN).expect("clean");
    assert_eq!((both.side(), both.report()), (Side::Neither, &BatchReport::CLEAN));
    let right = BatchReport::CLEAN.join(failing()).expect("one fails");
    assert_eq!((right.side(), right.report()), (Side::Right, &failing()));
    let left = failing().join(BatchReport::CLEAN).expect("one fails");
    assert_eq!((left.side(), left.report()), (Side::Left, &failing()));
    assert_eq!(BatchReport::join_all([]), Ok(BatchReport::CLEAN));
    assert_eq!(BatchReport::default(), BatchReport::CLEAN);
}
