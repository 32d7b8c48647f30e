//! Every refusal that the crate's functions answer, with its number and offset, and nothing changed by it.

use gussetglen::{
    Batch, BatchPosition, ByteOffset, Cap, Columns, Gates, Mark, Policy, Program, Refusal, Rows, Stripe, Width, Wire,
};
use reading::layout::{Instruction, Opcode};

fn good() -> Vec<u8> {
    Instruction::assertion(Opcode::AssertZero, &[0], 0).encode()
}

fn check(code: &[u8], rows: usize) -> Result<(), Refusal> {
    Program::check(code, Rows::new(rows)).map(drop)
}

#[test]
fn the_program_check() {
    let at = ByteOffset::new(9);
    let behind_a_good_one = |bytes: Vec<u8>| check(&[good(), bytes].concat(), 2);
    assert_eq!(check(&[], 8_193), Err(Refusal::BadShape));
    assert_eq!(check(&[0; 65_537], 2), Err(Refusal::TooLong));
    assert_eq!(check(&[0; 65_537], 8_193), Err(Refusal::BadShape));
    assert_eq!(behind_a_good_one(vec![0x00]), Err(Refusal::UnknownOpcode(at)));
    assert_eq!(behind_a_good_one(vec![0x31]), Err(Refusal::NotCarried(at)));
    assert_eq!(behind_a_good_one(vec![0x01]), Err(Refusal::Truncated(at)));
    assert_eq!(behind_a_good_one(Instruction::shift(0, 1, 8, 0).encode()), Err(Refusal::BadShift(at)));
    assert_eq!(behind_a_good_one(Instruction::hint(1, &[], &[0], &[1]).encode()), Err(Refusal::BadHint(at)));
    assert_eq!(behind_a_good_one(Instruction::shift(0, 2, 0, 0).encode()), Err(Refusal::BadRegister(at)));
    assert_eq!(behind_a_good_one(Instruction::shift(0, 0, 0, 0).encode()), Err(Refusal::Overlap(at)));
    assert_eq!(behind_a_good_one(Vec::new()), Ok(()));
    assert_eq!(check(&[], 8_192), Ok(()));
}

/// What document 02 adds is judged as the rest is: it is carried, and refused where its fields are wrong.
#[test]
fn sums_of_halves_are_carried() {
    let carried =
        |sum, carries, a, b, c| Instruction::plain(Opcode::Iadd32CinCout, &[sum, carries], &[a, b, c]).encode();
    let bare = |sum, carries, a, b| Instruction::plain(Opcode::Iadd32Cout, &[sum, carries], &[a, b]).encode();
    let at = ByteOffset::new(0);
    for (length, code) in [(21, carried(3, 4, 0, 1, 2)), (17, bare(3, 4, 0, 1))] {
        assert_eq!(code.len(), length);
        assert_eq!(check(&code, 5), Ok(()));
        assert_eq!(check(&code, 4), Err(Refusal::BadRegister(at)));
        for end in 1..length {
            assert_eq!(check(&code[..end], 5), Err(Refusal::Truncated(at)), "{end} of {length} bytes");
        }
    }
    // a source may stand twice, a destination only once
    assert_eq!(check(&carried(1, 2, 0, 0, 0), 3), Ok(()));
    assert_eq!(check(&bare(1, 2, 0, 0), 3), Ok(()));
    let overlapping = [
        carried(3, 3, 0, 1, 2),
        carried(0, 4, 0, 1, 2),
        carried(3, 1, 0, 1, 2),
        carried(3, 2, 0, 1, 2),
        bare(3, 3, 0, 1),
        bare(0, 3, 0, 1),
        bare(3, 1, 0, 1),
    ];
    for code in overlapping {
        assert_eq!(check(&code, 5), Err(Refusal::Overlap(at)), "{code:02x?}");
    }
}

#[test]
fn shapes() {
    let from_words = |rows, width, count| {
        Batch::from_words(Rows::new(rows), Width::new(width), vec![7; count]).map(|batch| batch.into_words().len())
    };
    assert_eq!(from_words(2, 3, 6), Ok(6));
    assert_eq!(from_words(2, 3, 5), Err(Refusal::BadShape));
    assert_eq!(from_words(2, 3, 7), Err(Refusal::BadShape));
    assert_eq!(from_words(8_192, 0, 0), Ok(0));
    assert_eq!(from_words(8_193, 0, 0), Err(Refusal::BadShape));
    assert_eq!(from_words(0, 4_096, 0), Ok(0));
    assert_eq!(from_words(0, 4_097, 0), Err(Refusal::BadShape));
    // 2^32 x 2^32 is 0 only where the product wraps
    assert_eq!(from_words(1 << 32, 1 << 32, 0), Err(Refusal::BadShape));
    let zeroed = |rows, width| Batch::zeroed(Rows::new(rows), Width::new(width)).map(|batch| batch.words().len());
    assert_eq!(zeroed(3, 4), Ok(12));
    assert_eq!(zeroed(8_193, 4), Err(Refusal::BadShape));
    assert_eq!(zeroed(3, 4_097), Err(Refusal::BadShape));
    assert_eq!(zeroed(usize::MAX, usize::MAX), Err(Refusal::BadShape));
}

#[test]
fn stripes_and_foreign_batches() {
    let program = Program::check(Instruction::shift(0, 1, 0, 1).encode(), Rows::new(2)).expect("accepted");
    let start = Batch::from_words(Rows::new(2), Width::new(3), vec![9; 6]).expect("populated");
    let cap = Cap::new(1).expect("in the limit");
    let fill = |first, columns, batch: &mut Batch| {
        let stripe = Stripe::new(BatchPosition::new(first), Columns::new(columns));
        program.fill(batch, stripe, cap).map(drop)
    };
    let mut batch = start.clone();
    for (first, columns) in [(0, 4), (1, 3), (3, 1), (4, 0), (usize::MAX, 1), (1, usize::MAX), (usize::MAX, usize::MAX)]
    {
        assert_eq!(fill(first, columns, &mut batch), Err(Refusal::BadShape), "{first}, {columns}");
        assert_eq!(batch, start);
    }
    assert_eq!(fill(3, 0, &mut batch), Ok(()));
    assert_eq!(batch, start);
    assert_eq!(fill(2, 1, &mut batch), Ok(()));
    assert_eq!(batch.words(), [9, 9, 18, 9, 9, 9]);
    let mut foreign = Batch::from_words(Rows::new(3), Width::new(3), vec![9; 9]).expect("populated");
    assert_eq!(fill(0, 3, &mut foreign), Err(Refusal::BadShape));
    assert_eq!(foreign.words(), [9; 9]);
}

#[test]
fn caps() {
    for most in [0, 1, 255, 256] {
        assert_eq!(Cap::new(most).map(Cap::get), Ok(most));
    }
    for most in [257, 300, 65_536, 65_537, usize::MAX / 3 + 1, usize::MAX] {
        assert_eq!(Cap::new(most), Err(Refusal::BadCap));
    }
}

#[test]
fn gates() {
    let assign = |wires: usize, gates: usize, mentions: &[u32]| {
        let mut list = Gates::new(vec![Mark::Scratch; wires]);
        for _ in 0..gates {
            list.push(mentions.iter().copied().map(Wire::new));
        }
        list.assign(Policy::Pooled).map(|slots| slots.length().get())
    };
    assert_eq!(assign(3, 2, &[0, 2]), Ok(2));
    assert_eq!(assign(3, 2, &[0, 3]), Err(Refusal::BadGates));
    assert_eq!(assign(8_192, 8_192, &[8_191]), Ok(1));
    assert_eq!(assign(8_193, 0, &[]), Err(Refusal::BadGates));
    assert_eq!(assign(1, 8_193, &[]), Err(Refusal::BadGates));
    assert_eq!(assign(2, 8_192, &[0, 1]), Ok(2));
    assert_eq!(assign(1, 1, &[0; 16_385]), Err(Refusal::BadGates));
    assert_eq!(assign(0, 0, &[]), Ok(0));
}

#[test]
fn slots_by_either_policy() {
    let mut list = Gates::new([Mark::Scratch, Mark::Fixed, Mark::Scratch, Mark::Scratch]);
    list.push([0, 1].map(Wire::new));
    list.push([1, 3].map(Wire::new));
    let slot = |slots: &gussetglen::Slots, wire| slots.of(Wire::new(wire)).map(gussetglen::Slot::get);
    let pooled = list.assign(Policy::Pooled).expect("accepted");
    assert_eq!([0, 1, 2, 3, 4].map(|wire| slot(&pooled, wire)), [Some(0), None, None, Some(0), None]);
    assert_eq!((pooled.length().get(), pooled.peak().get()), (1, 1));
    let per_wire = list.assign(Policy::PerWire).expect("accepted");
    assert_eq!([0, 1, 2, 3, 4].map(|wire| slot(&per_wire, wire)), [Some(0), None, Some(1), Some(2), None]);
    assert_eq!((per_wire.length().get(), per_wire.peak().get()), (3, 1));
}
