//! Every instruction alone, over every choice of the words at the limits.

use crate::judge::{Difference, Judge};
use crate::subject::Shape;
use oracle::numbers::LIMITS;
use reading::layout::{Instruction, Opcode};

/// Each kind of instruction, sources first: registers 0, 1, .. are read, the ones behind them written.
fn instructions() -> Vec<Instruction> {
    let plain = [
        (Opcode::Band, 1, 2),
        (Opcode::Bor, 1, 2),
        (Opcode::Bxor, 1, 2),
        (Opcode::Select, 1, 3),
        (Opcode::Fax, 1, 3),
        (Opcode::IaddCinCout, 2, 3),
        (Opcode::IaddCarry, 1, 2),
        (Opcode::IsubBinBout, 2, 3),
        (Opcode::Imul, 2, 2),
        (Opcode::Iadd32CinCout, 2, 3),
        (Opcode::Iadd32Cout, 2, 2),
        (Opcode::BxorMulti, 1, 0),
        (Opcode::BxorMulti, 1, 1),
        (Opcode::BxorMulti, 1, 2),
        (Opcode::BxorMulti, 1, 3),
    ];
    let assertions = [
        (Opcode::AssertEq, 2),
        (Opcode::AssertEqCond, 3),
        (Opcode::AssertZero, 1),
        (Opcode::AssertNonZero, 1),
        (Opcode::AssertFalse, 1),
        (Opcode::AssertTrue, 1),
    ];
    let registers = |from: u32, count: u32| (from..from + count).collect::<Vec<u32>>();
    let mut all = Vec::new();
    for (opcode, written, read) in plain {
        all.push(Instruction::plain(opcode, &registers(read, written), &registers(0, read)));
    }
    for (opcode, read) in assertions {
        all.push(Instruction::assertion(opcode, &registers(0, read), 0xFFFF_FFFF));
    }
    for variant in 0..8 {
        for amount in 0..if variant < 4 { 64 } else { 32 } {
            all.push(Instruction::shift(1, 0, variant, amount));
        }
    }
    all.push(Instruction::hint(1, &[], &[0, 1], &[2, 3]));
    all.push(Instruction::hint(2, &[], &[0], &[1]));
    for k in 1..=8 {
        all.push(Instruction::hint(3, &[k], &registers(0, k), &registers(k, k)));
    }
    all
}

/// Runs each over a batch whose columns are all choices of limit words for its first three sources (later ones rise with
/// the column), and then each column that fails alone; the answer is how many columns they were.
pub fn every_instruction(judge: &Judge) -> Result<usize, Difference> {
    let mut columns = 0;
    for instruction in instructions() {
        let code = instruction.encode();
        let read = instruction.sources.len();
        let rows = read + instruction.destinations.len();
        let width = LIMITS.len().pow(read.min(3) as u32);
        let mut values = vec![0xA5A5; rows * width];
        for column in 0..width {
            for row in 0..read {
                let choice = column / LIMITS.len().pow(row.min(2) as u32);
                values[row * width + column] = if row < 3 { LIMITS[choice % LIMITS.len()] } else { choice as u64 };
            }
        }
        let mut first = 0;
        loop {
            let shape = Shape { rows, width, first, count: width - first, cap: 1 };
            let ran = judge.run(&code, shape, &values, &[7; 3])?;
            // behind the column that was reported, until none fails
            if ran.answer == 0 {
                break;
            }
            first += (ran.answer >> 9 & 0xFFF) as usize + 1;
        }
        columns += width;
    }
    Ok(columns)
}
