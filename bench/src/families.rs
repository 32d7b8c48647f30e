//! The programs that are run: each kind of instruction alone, a mixed one, and the empty one.

use oracle::numbers::Numbers;
use reading::layout::{encode_all, Instruction, Opcode};

pub const ROWS: usize = 256;
pub const WIDTH: usize = 4_096;

/// Instructions of a program of one kind, and of the mixed one.
const ALONE: usize = 200;
const MIXED: usize = 3_000;

// Rows that no instruction writes, for assertions that hold.
const ZERO: u32 = 0;
const ONES: u32 = 1;
const TWINS: [u32; 2] = [2, 3];
const FIRST_FREE: u32 = 4;

pub struct Family {
    pub name: &'static str,
    pub code: Vec<u8>,
}

/// The kinds that write, by what they write and read.
const WRITING: [(&str, Kind); 26] = [
    ("Band", Kind::Plain(Opcode::Band, 1, 2)),
    ("Bor", Kind::Plain(Opcode::Bor, 1, 2)),
    ("Bxor", Kind::Plain(Opcode::Bxor, 1, 2)),
    ("Select", Kind::Plain(Opcode::Select, 1, 3)),
    ("BxorMulti-1", Kind::Plain(Opcode::BxorMulti, 1, 1)),
    ("BxorMulti-4", Kind::Plain(Opcode::BxorMulti, 1, 4)),
    ("BxorMulti-12", Kind::Plain(Opcode::BxorMulti, 1, 12)),
    ("Fax", Kind::Plain(Opcode::Fax, 1, 3)),
    ("Shift-Sll", Kind::Shift(0)),
    ("Shift-Slr", Kind::Shift(1)),
    ("Shift-Sar", Kind::Shift(2)),
    ("Shift-Rotr", Kind::Shift(3)),
    ("Shift-Sll32", Kind::Shift(4)),
    ("Shift-Srl32", Kind::Shift(5)),
    ("Shift-Sra32", Kind::Shift(6)),
    ("Shift-Rotr32", Kind::Shift(7)),
    ("IaddCinCout", Kind::Plain(Opcode::IaddCinCout, 2, 3)),
    ("IaddCarry", Kind::Plain(Opcode::IaddCarry, 1, 2)),
    ("IsubBinBout", Kind::Plain(Opcode::IsubBinBout, 2, 3)),
    ("Imul", Kind::Plain(Opcode::Imul, 2, 2)),
    ("Iadd32CinCout", Kind::Plain(Opcode::Iadd32CinCout, 2, 3)),
    ("Iadd32Cout", Kind::Plain(Opcode::Iadd32Cout, 2, 2)),
    ("Hint-1", Kind::Hint(1, 2)),
    ("Hint-2", Kind::Hint(2, 1)),
    ("Hint-3-2", Kind::Hint(3, 2)),
    ("Hint-3-8", Kind::Hint(3, 8)),
];

/// The assertions, with registers for which they hold.
const HOLDING: [(&str, Opcode, &[u32]); 6] = [
    ("AssertEq", Opcode::AssertEq, &TWINS),
    ("AssertEqCond", Opcode::AssertEqCond, &[ONES, TWINS[0], TWINS[1]]),
    ("AssertZero", Opcode::AssertZero, &[ZERO]),
    ("AssertNonZero", Opcode::AssertNonZero, &[ONES]),
    ("AssertFalse", Opcode::AssertFalse, &[ZERO]),
    ("AssertTrue", Opcode::AssertTrue, &[ONES]),
];

#[derive(Clone, Copy)]
enum Kind {
    Plain(Opcode, usize, usize),
    Shift(u8),
    /// The id, and how many are read and written.
    Hint(u32, usize),
}

fn writing(numbers: &mut Numbers, kind: Kind) -> Instruction {
    let (written, read) = match kind {
        Kind::Plain(_, written, read) => (written, read),
        Kind::Shift(_) => (1, 1),
        Kind::Hint(_, both) => (both, both),
    };
    // distinct, so that nothing overlaps
    let mut registers: Vec<u32> = Vec::new();
    while registers.len() < written + read {
        let register = FIRST_FREE + numbers.below((ROWS as u32 - FIRST_FREE).into()) as u32;
        if !registers.contains(&register) {
            registers.push(register);
        }
    }
    let (destinations, sources) = registers.split_at(written);
    match kind {
        Kind::Plain(opcode, ..) => Instruction::plain(opcode, destinations, sources),
        Kind::Shift(variant) => {
            let width = if variant < 4 { 64 } else { 32 };
            Instruction::shift(destinations[0], sources[0], variant, 1 + numbers.below(width - 1) as u8)
        }
        Kind::Hint(id, both) => {
            let dimensions: &[u32] = if id == 3 { &[both as u32] } else { &[] };
            Instruction::hint(id, dimensions, sources, destinations)
        }
    }
}

/// Mostly what writes, of the kinds that are let by, and one assertion in eight.
fn mixed(numbers: &mut Numbers, lets_by: fn(&Kind) -> bool) -> Vec<u8> {
    let kinds: Vec<Kind> = WRITING.iter().map(|(_, kind)| *kind).filter(lets_by).collect();
    let instructions: Vec<Instruction> = (0..MIXED)
        .map(|number| {
            if number % 8 == 7 {
                let (_, opcode, sources) = numbers.pick(&HOLDING);
                Instruction::assertion(opcode, sources, number as u32)
            } else {
                let kind = numbers.pick(&kinds);
                writing(numbers, kind)
            }
        })
        .collect();
    encode_all(&instructions)
}

pub fn all() -> Vec<Family> {
    let mut numbers = Numbers::new(4_096);
    let mut all = vec![Family { name: "empty", code: Vec::new() }];
    all.push(Family { name: "mixed", code: mixed(&mut numbers, |_| true) });
    // A hint's time in the Rust is mostly its handler's, which is the harness's own.
    all.push(Family { name: "mixed-without-hints", code: mixed(&mut numbers, |kind| !matches!(kind, Kind::Hint(..))) });
    for (name, kind) in WRITING {
        let alone: Vec<Instruction> = (0..ALONE).map(|_| writing(&mut numbers, kind)).collect();
        all.push(Family { name, code: encode_all(&alone) });
    }
    for (name, opcode, sources) in HOLDING {
        let alone: Vec<Instruction> =
            (0..ALONE).map(|number| Instruction::assertion(opcode, sources, number as u32)).collect();
        all.push(Family { name, code: encode_all(&alone) });
    }
    all
}

/// The batch, row after row: what assertions need, and words of every kind.
pub fn values() -> Vec<u64> {
    let mut numbers = Numbers::new(8_192);
    let mut values: Vec<u64> = (0..ROWS * WIDTH).map(|_| numbers.any_word()).collect();
    let row = |register: u32| register as usize * WIDTH..(register as usize + 1) * WIDTH;
    values[row(ZERO)].fill(0);
    values[row(ONES)].fill(u64::MAX);
    values.copy_within(row(TWINS[0]), row(TWINS[1]).start);
    values
}
