//! Two readings to the word (document 02, E1): a batch filled by both instructions, whole and in stripes.

use gussetglen::{
    Assertion, Batch, BatchPosition, Cap, Failure, InstructionNumber, PathSpec, Program, Register, Rows, Violations,
    Width,
};
use reading::layout::{encode_all, Instruction, Opcode};

const ROWS: Rows = Rows::new(7);

const LOW: u64 = 0xFFFF_FFFF;
const HIGH: u64 = LOW << 32;
const BOTH: u64 = u64::MAX;

/// What a parcel starts with (two operands and the carries in) and ends with (sum and carries of each instruction).
const PARCELS: [([u64; 3], [u64; 4]); 7] = [
    // each half on its own
    ([0x5_0000_0003, 0x1_0000_0001, 0], [0x6_0000_0004, 0x1_0000_0003, 0x6_0000_0004, 0x1_0000_0003]),
    // no carry from the low half into the high one
    ([LOW, 1, 0], [0, LOW, 0, LOW]),
    ([BOTH, 1, 0], [HIGH, LOW, HIGH, LOW]),
    // the carries in: bit 31 of the word for the low half, bit 63 for the high one, and no other bit
    ([BOTH, 0, 1 << 31], [HIGH, LOW, BOTH, 0]),
    ([BOTH, 0, 1 << 63], [LOW, HIGH, BOTH, 0]),
    ([BOTH, 0, 0x8000_0000_8000_0000], [0, BOTH, BOTH, 0]),
    ([BOTH, 0, 0x7FFF_FFFF_7FFF_FFFF], [BOTH, 0, BOTH, 0]),
];

/// Both sums, and assertions that a carry out of the high half violates.
fn program() -> Program {
    let code = encode_all(&[
        Instruction::plain(Opcode::Iadd32CinCout, &[3, 4], &[0, 1, 2]),
        Instruction::plain(Opcode::Iadd32Cout, &[5, 6], &[0, 1]),
        Instruction::assertion(Opcode::AssertFalse, &[4], 41),
        Instruction::assertion(Opcode::AssertFalse, &[6], 42),
    ]);
    Program::check(code, ROWS).expect("accepted")
}

fn batch() -> Batch {
    let mut batch = Batch::from_words(ROWS, Width::new(PARCELS.len()), vec![9; 7 * PARCELS.len()]).expect("populated");
    for (parcel, (before, _)) in PARCELS.iter().enumerate() {
        for (row, &word) in (0..).zip(before) {
            *batch.word_mut(Register::new(row), BatchPosition::new(parcel)).expect("there") = word;
        }
    }
    batch
}

#[test]
fn every_cut_fills_both_sums_and_reports_the_first_carry_out() {
    let program = program();
    for cut in 0..=PARCELS.len() {
        let mut filled = batch();
        let stripes = filled.cut(&[BatchPosition::new(cut)]).expect("within the batch");
        let report = program.fill_all(&mut filled, &stripes, Cap::new(2).expect("in the limit")).expect("filled");
        for (parcel, (before, after)) in PARCELS.iter().enumerate() {
            for (row, &word) in (0..).zip(before.iter().chain(after)) {
                let found = filled.word(Register::new(row), BatchPosition::new(parcel));
                assert_eq!(found, Some(word), "row {row} of parcel {parcel}, cut at {cut}");
            }
        }
        let parcel = report.failing().expect("the high half of parcel 4 carries out");
        assert_eq!((parcel.position(), parcel.total()), (BatchPosition::new(4), Violations::new(1)));
        let failure = Failure {
            instruction: InstructionNumber::new(2),
            assertion: Assertion::AssertFalse,
            path_spec: PathSpec::new(41),
            words: [HIGH, 0],
        };
        assert_eq!(parcel.failures(), [failure]);
    }
}
