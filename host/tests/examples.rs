//! The examples of document 01, through the library.

use gussetglen::{
    Assertion, Batch, BatchPosition, ByteOffset, Cap, Columns, Failure, Gates, InstructionNumber, LiveWires,
    LocalPosition, Mark, PathSpec, Policy, Program, Refusal, Register, Rows, Side, Slot, SlotCount, Stripe, Violations,
    Width, Wire,
};
use reading::layout::{encode_all, Instruction, Opcode};

const ONES: u64 = u64::MAX;

/// One instruction over one parcel.
fn column(instruction: Instruction, words: &[u64]) -> Vec<u64> {
    let program = Program::check(instruction.encode(), Rows::new(words.len())).expect("accepted");
    let mut batch = Batch::from_words(program.rows(), Width::new(1), words.to_vec()).expect("a column");
    let whole = batch.whole();
    let report = program.fill(&mut batch, whole, Cap::new(4).expect("in the limit")).expect("filled");
    assert_eq!(report.failing(), None);
    batch.into_words()
}

fn plain(opcode: Opcode, destinations: &[u32], sources: &[u32]) -> Instruction {
    Instruction::plain(opcode, destinations, sources)
}

#[test]
fn add_and_carries() {
    let add = || plain(Opcode::IaddCinCout, &[3, 4], &[0, 1, 2]);
    assert_eq!(column(add(), &[3, 1, 0, 9, 9])[3..], [4, 3]);
    assert_eq!(column(add(), &[ONES, 1, 0, 9, 9])[3..], [0, ONES]);
    assert_eq!(column(plain(Opcode::IaddCarry, &[2], &[0, 1]), &[3, 1, 9])[2..], [3]);
    assert_eq!(column(plain(Opcode::IaddCarry, &[2], &[0, 1]), &[ONES, 1, 9])[2..], [ONES]);
}

#[test]
fn subtract_and_borrows() {
    assert_eq!(column(plain(Opcode::IsubBinBout, &[3, 4], &[0, 1, 2]), &[0, 1, 0, 9, 9])[3..], [ONES, ONES]);
}

#[test]
fn the_product_of_all_ones() {
    assert_eq!(column(plain(Opcode::Imul, &[1, 2], &[0, 0]), &[ONES, 9, 9])[1..], [ONES - 1, 1]);
}

#[test]
fn shifts_and_their_amounts() {
    let shifted = |variant, amount, word| column(Instruction::shift(1, 0, variant, amount), &[word, 9])[1];
    assert_eq!(shifted(2, 63, 1 << 63), ONES);
    assert_eq!(shifted(4, 1, 0x8000_0000_8000_0001), 2);
    assert_eq!(shifted(6, 31, 0x8000_0000_7FFF_FFFF), 0xFFFF_FFFF_0000_0000);
    let refused = |variant, amount| Program::check(Instruction::shift(1, 0, variant, amount).encode(), Rows::new(2));
    assert_eq!(refused(2, 64), Err(Refusal::BadShift(ByteOffset::new(0))));
    assert_eq!(refused(4, 32), Err(Refusal::BadShift(ByteOffset::new(0))));
}

#[test]
fn bytes_of_band_and_of_bxor_multi() {
    let band = [0x01, 5, 0, 0, 0, 1, 0, 0, 0, 2, 0, 0, 0];
    let program = Program::check(band, Rows::new(6)).expect("accepted");
    let mut batch = Batch::from_words(Rows::new(6), Width::new(1), vec![9, 12, 10, 9, 9, 9]).expect("a column");
    let whole = batch.whole();
    program.fill(&mut batch, whole, Cap::new(0).expect("in the limit")).expect("filled");
    assert_eq!(batch.word(Register::new(5), BatchPosition::new(0)), Some(8));
    let many = [0x06, 7, 0, 0, 0, 0, 0, 0, 0];
    assert!(Program::check(many, Rows::new(8)).is_ok());
    assert_eq!(Program::check(&many[..8], Rows::new(8)), Err(Refusal::Truncated(ByteOffset::new(0))));
}

#[test]
fn the_batch_of_two_zero_assertions_and_its_cut() {
    let code = encode_all(&[
        Instruction::assertion(Opcode::AssertZero, &[0], 11),
        Instruction::assertion(Opcode::AssertZero, &[1], 12),
    ]);
    let program = Program::check(code, Rows::new(2)).expect("accepted");
    let words = vec![0, 0, 9, 0, 0, 4, 0, 0];
    let mut batch = Batch::from_words(Rows::new(2), Width::new(4), words).expect("populated");
    let cap = Cap::new(1).expect("in the limit");

    let whole = batch.whole();
    let report = program.fill(&mut batch, whole, cap).expect("filled");
    let parcel = report.failing().expect("column 1 fails");
    assert_eq!(parcel.position(), LocalPosition::new(1));
    assert_eq!(parcel.total(), Violations::new(1));
    // the record 0x620000010000000C, 4, 0
    let record = Failure {
        instruction: InstructionNumber::new(1),
        assertion: Assertion::AssertZero,
        path_spec: PathSpec::new(12),
        words: [4, 0],
    };
    assert_eq!(parcel.failures(), [record]);

    let stripes = batch.cut(&[BatchPosition::new(2)]).expect("within the batch");
    assert_eq!(stripes[1], Stripe::new(BatchPosition::new(2), Columns::new(2)));
    let left = program.fill(&mut batch, stripes[0], cap).expect("filled");
    let right = program.fill(&mut batch, stripes[1], cap).expect("filled");
    assert_eq!(right.failing().expect("column 2 fails").position(), LocalPosition::new(0));
    let (left, right) = (left.raise().expect("in the batch"), right.raise().expect("in the batch"));
    assert_eq!(right.failing().expect("column 2 fails").position(), BatchPosition::new(2));
    assert_eq!(right.in_stripe(), Some((BatchPosition::new(2), LocalPosition::new(0))));
    for (one, other, side) in [(&left, &right, Side::Left), (&right, &left, Side::Right)] {
        let joined = one.clone().join(other.clone()).expect("two positions");
        assert_eq!(joined.side(), side);
        assert_eq!(joined.report(), &left);
        assert_eq!(joined.report().failing().expect("column 1 fails").position(), BatchPosition::new(1));
        assert_eq!(joined.report().failing().expect("column 1 fails").failures(), [record]);
    }
}

#[test]
fn pooled_slots() {
    let assigned = |gates: &[&[u32]]| {
        let mut list = Gates::new([Mark::Scratch; 3]);
        for gate in gates {
            list.push(gate.iter().copied().map(Wire::new));
        }
        let slots = list.assign(Policy::Pooled).expect("accepted");
        let of = |wire| slots.of(Wire::new(wire)).map(Slot::get);
        ([of(0), of(1), of(2)], slots.length(), slots.peak())
    };
    let (two, alive) = (SlotCount::new(2), LiveWires::new(2));
    assert_eq!(assigned(&[&[0], &[0, 1], &[1, 2], &[2]]), ([Some(0), Some(1), Some(0)], two, alive));
    assert_eq!(assigned(&[&[1, 0], &[2]]), ([Some(1), Some(0), Some(0)], two, alive));
    // "Sampling the peak after giving slots back: gate {0} alone would peak at 0."
    assert_eq!(assigned(&[&[0]]), ([Some(0), None, None], SlotCount::new(1), LiveWires::new(1)));
}
