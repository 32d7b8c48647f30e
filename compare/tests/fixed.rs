//! The cases of the gate: a fixed seed and fixed numbers of cases, the same on every machine.

use compare::cases::{cases, every_damage, Kind, Tally};
use compare::damage::Anatomy;
use compare::limits::every_instruction;
use compare::programs::{call, program, Wish};
use compare::{Judge, Library};
use oracle::numbers::Numbers;
use reading::layout::{encode_all, Instruction, Opcode};
use std::io::Write;
use std::sync::Once;

const SEED: u64 = 19_860_126;

/// The library beside both judges; where the given Rust is absent, a line says so past the test harness.
fn judge() -> Judge<'static> {
    static SAID: Once = Once::new();
    let rust = oracle::rust();
    if rust.is_none() {
        SAID.call_once(|| drop(writeln!(std::io::stderr(), "{}", oracle::SKIPPED)));
    }
    Judge { subject: &Library, rust }
}

#[track_caller]
fn compared(kind: Kind, count: u64) -> Tally {
    let tally = cases(&judge(), kind, SEED, count).unwrap_or_else(|difference| panic!("{difference}"));
    assert_eq!(tally.cases, count);
    println!("{tally:?}");
    tally
}

#[test]
fn filled() {
    let tally = compared(Kind::Filled, 30_000);
    // not all of one sort
    assert!(tally.clean > 5_000 && tally.failing > 5_000, "{tally:?}");
    assert!(tally.failing_later > 1_000 && tally.over_the_cap > 1_000, "{tally:?}");
    assert!(tally.over_the_rusts_cap > 100, "{tally:?}");
}

#[test]
fn striped() {
    let tally = compared(Kind::Striped, 10_000);
    assert!(tally.clean > 2_000 && tally.failing > 2_000, "{tally:?}");
    assert!(tally.failing_later > 400 && tally.over_the_cap > 400, "{tally:?}");
    assert!(tally.over_the_rusts_cap > 40, "{tally:?}");
}

#[test]
fn damaged() {
    let tally = compared(Kind::Damaged, 60_000);
    assert!(tally.refusals[0] > 3_000, "{tally:?}");
    for number in 4..=10 {
        assert!(tally.refusals[number] > 200, "refusal {number}: {tally:?}");
    }
}

#[test]
fn shaped() {
    let tally = compared(Kind::Shaped, 40_000);
    for number in [0, 1, 2, 3, 5] {
        assert!(tally.refusals[number] > 50, "refusal {number}: {tally:?}");
    }
}

#[test]
fn joined() {
    let tally = compared(Kind::Joined, 30_000);
    for number in [0, 12, 13] {
        assert!(tally.refusals[number] > 1_000, "refusal {number}: {tally:?}");
    }
}

#[test]
fn slotted() {
    let tally = compared(Kind::Slotted, 5_000);
    assert_eq!(tally.refusals[0], 10_000);
}

#[test]
fn gated() {
    let tally = compared(Kind::Gated, 15_000);
    assert!(tally.refusals[0] > 2_000 && tally.refusals[14] > 2_000, "{tally:?}");
}

#[test]
fn every_instruction_over_the_limit_words() {
    let columns = every_instruction(&judge()).unwrap_or_else(|difference| panic!("{difference}"));
    assert!(columns > 17_000, "{columns}");
}

/// Every truncation, opcode byte, bit flip, count, register and overlap: of each instruction behind a good one, and of
/// mixed programs.
#[test]
fn every_damage_of_every_kind() {
    let first = Instruction::assertion(Opcode::AssertNonZero, &[1], 5);
    let each = [
        Instruction::plain(Opcode::Band, &[0], &[1, 2]),
        Instruction::plain(Opcode::Select, &[0], &[1, 2, 3]),
        Instruction::plain(Opcode::BxorMulti, &[0], &[]),
        Instruction::plain(Opcode::BxorMulti, &[0], &[1, 2, 1, 3]),
        Instruction::plain(Opcode::Fax, &[0], &[1, 2, 3]),
        Instruction::shift(0, 1, 3, 63),
        Instruction::shift(0, 1, 7, 31),
        Instruction::plain(Opcode::IaddCinCout, &[0, 1], &[2, 3, 4]),
        Instruction::plain(Opcode::IaddCarry, &[0], &[1, 1]),
        Instruction::plain(Opcode::IsubBinBout, &[0, 1], &[2, 3, 4]),
        Instruction::plain(Opcode::Imul, &[0, 1], &[2, 3]),
        Instruction::plain(Opcode::Iadd32CinCout, &[0, 1], &[2, 3, 4]),
        Instruction::plain(Opcode::Iadd32Cout, &[0, 1], &[2, 3]),
        Instruction::assertion(Opcode::AssertEq, &[0, 1], 1),
        Instruction::assertion(Opcode::AssertEqCond, &[0, 1, 2], 2),
        Instruction::assertion(Opcode::AssertZero, &[0], 3),
        Instruction::assertion(Opcode::AssertFalse, &[0], 4),
        Instruction::assertion(Opcode::AssertTrue, &[0], u32::MAX),
        Instruction::hint(1, &[], &[0, 1], &[2, 3]),
        Instruction::hint(2, &[], &[0], &[1]),
        Instruction::hint(3, &[1], &[0], &[1]),
        Instruction::hint(3, &[3], &[0, 1, 2], &[3, 4, 5]),
    ];
    let mut programs: Vec<(usize, Vec<Instruction>)> = Vec::new();
    for instruction in each {
        let rows = 1 + instruction.destinations.iter().chain(&instruction.sources).max().copied().unwrap_or(0).max(1);
        programs.push((rows as usize, vec![first.clone(), instruction.clone(), first.clone()]));
        programs.push((6, vec![instruction]));
    }
    let mut numbers = Numbers::new(SEED);
    for _ in 0..10 {
        let rows = 6 + numbers.below(6) as usize;
        programs.push((rows, program(&mut numbers, Wish { rows, instructions: 6, assertions: 4 })));
    }
    let judge = judge();
    let mut tally = Tally::default();
    let mut count = 0;
    for (rows, instructions) in &programs {
        let anatomy = Anatomy::of(instructions);
        assert_eq!(anatomy.code, encode_all(instructions));
        assert!(reading::check::check(&anatomy.code, *rows).is_ok(), "{instructions:?} with {rows} rows");
        count += every_damage(&judge, *rows, &anatomy, &mut tally).unwrap_or_else(|difference| panic!("{difference}"));
    }
    println!("{count} damaged programs, {tally:?}");
    assert!(count > 60_000, "{count}");
    for number in [0, 4, 6, 7, 8, 9, 10] {
        assert!(tally.refusals[number] > 300, "refusal {number}: {tally:?}");
    }
    // One byte alone is 5, and each opcode byte was made that one.
    let opcodes: usize = programs.iter().map(|(_, instructions)| instructions.len()).sum();
    assert!(tally.refusals[5] >= opcodes as u64, "{opcodes} opcodes, {tally:?}");
}

/// The second reading writes the bytes that the given Rust's emitters write.
#[test]
fn the_readings_bytes_are_the_emitters() {
    let Some(rust) = judge().rust else { return };
    let mut numbers = Numbers::new(SEED);
    for _ in 0..2_000 {
        let rows = 1 + numbers.below(40) as usize;
        let instructions = numbers.below(20) as usize;
        let made = program(&mut numbers, Wish { rows, instructions, assertions: 5 });
        let calls: Vec<_> = made.iter().map(call).collect();
        assert_eq!(rust.emit(&calls), (encode_all(&made), made.len()));
    }
}

/// At the limits of the sizes: the longest program, the most rows, the widest batch.
#[test]
fn the_largest() {
    use compare::subject::Shape;
    let judge = judge();
    // 7,281 assertions, all violated: the largest total
    let most = 7_281;
    let code: Vec<u8> =
        (0..most).flat_map(|path| Instruction::assertion(Opcode::AssertTrue, &[0], path).encode()).collect();
    assert_eq!(code.len(), 65_529);
    let shape = Shape { rows: 1, width: 3, first: 0, count: 3, cap: 256 };
    let ran = judge.run(&code, shape, &[1 << 63, 0, 0], &[9; 768]).unwrap_or_else(|difference| panic!("{difference}"));
    assert_eq!(ran.answer, 256 + 512 + (256 << 21) + (7_281 << 30));
    // one instruction over the whole of the largest shape that fits in little memory, at its last row and column
    for (rows, width) in [(8_192, 4), (4, 4_096)] {
        let last = rows as u32 - 1;
        let code = encode_all(&[
            Instruction::plain(Opcode::Imul, &[last, 0], &[1, 2]),
            Instruction::assertion(Opcode::AssertZero, &[last], 77),
        ]);
        let mut values = vec![3; rows * width];
        values[width + width - 1] = 1 << 40;
        values[2 * width + width - 1] = 1 << 40;
        let shape = Shape { rows, width, first: 0, count: width, cap: 2 };
        let ran = judge.run(&code, shape, &values, &[9; 6]).unwrap_or_else(|difference| panic!("{difference}"));
        assert_eq!(ran.answer, 256 + 512 * (width as u64 - 1) + (1 << 21) + (1 << 30));
        assert_eq!(ran.values[rows * width - 1], 1 << 16);
    }
}
