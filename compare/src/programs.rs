//! Random programs that document 01 accepts, and words to run them on.

use oracle::numbers::Numbers;
use reading::layout::{Instruction, Numbers as Beside, Opcode};

/// How a random program is to look.
#[derive(Clone, Copy, Debug)]
pub struct Wish {
    pub rows: usize,
    pub instructions: usize,
    /// Of 16 instructions, how many are assertions.
    pub assertions: u64,
}

/// Whether something happens, so many times in 16.
fn in_sixteen(numbers: &mut Numbers, times: u64) -> bool {
    numbers.below(16) < times
}

/// A random program. Each assertion has a path spec of its own, so that a failure is known by it.
pub fn program(numbers: &mut Numbers, wish: Wish) -> Vec<Instruction> {
    if wish.rows == 0 {
        return Vec::new();
    }
    let salt = numbers.word() as u32;
    // An odd factor: no two of a program's numbers give one path spec.
    let path = |number: usize| (number as u32).wrapping_mul(0x9E37_79B1).wrapping_add(salt);
    (0..wish.instructions)
        .map(|number| loop {
            let made = if in_sixteen(numbers, wish.assertions) {
                Some(assertion(numbers, wish.rows, path(number)))
            } else {
                writing(numbers, wish.rows)
            };
            if let Some(instruction) = made {
                break instruction;
            }
        })
        .collect()
}

const ASSERTIONS: [(Opcode, usize); 6] = [
    (Opcode::AssertEq, 2),
    (Opcode::AssertEqCond, 3),
    (Opcode::AssertZero, 1),
    (Opcode::AssertNonZero, 1),
    (Opcode::AssertFalse, 1),
    (Opcode::AssertTrue, 1),
];

fn assertion(numbers: &mut Numbers, rows: usize, path: u32) -> Instruction {
    let (opcode, sources) = numbers.pick(&ASSERTIONS);
    let mut sources: Vec<u32> = (0..sources).map(|_| numbers.below(rows as u64) as u32).collect();
    // Two random words are seldom equal: half of the comparisons are of a register with itself.
    if sources.len() > 1 && numbers.once_in(2) {
        let last = sources.len() - 1;
        sources[last] = sources[last - 1];
    }
    Instruction::assertion(opcode, &sources, path)
}

/// An instruction that writes; nothing where it needs more rows.
fn writing(numbers: &mut Numbers, rows: usize) -> Option<Instruction> {
    let kind = numbers.below(16);
    let (written, read) = match kind {
        0..=2 | 6 => (1, 2),
        3 | 5 => (1, 3),
        4 => (1, numbers.pick(&[0, 1, 2, 3, 7, 8, 9, 20])),
        7 | 8 => (1, 1),
        9..=11 => (2, 3),
        12 | 13 => (2, 2),
        14 => match numbers.below(2) {
            0 => (2, 2),
            _ => (1, 1),
        },
        _ => {
            let k = 1 + numbers.below(8) as usize;
            (k, k)
        }
    };
    if rows < written + usize::from(read > 0) {
        return None;
    }
    let mut destinations: Vec<u32> = Vec::new();
    while destinations.len() < written {
        let register = numbers.below(rows as u64) as u32;
        if !destinations.contains(&register) {
            destinations.push(register);
        }
    }
    let mut sources: Vec<u32> = Vec::new();
    while sources.len() < read {
        let register = numbers.below(rows as u64) as u32;
        if !destinations.contains(&register) {
            sources.push(register);
        }
    }
    Some(match kind {
        0 => Instruction::plain(Opcode::Band, &destinations, &sources),
        1 => Instruction::plain(Opcode::Bor, &destinations, &sources),
        2 => Instruction::plain(Opcode::Bxor, &destinations, &sources),
        3 => Instruction::plain(Opcode::Select, &destinations, &sources),
        4 => Instruction::plain(Opcode::BxorMulti, &destinations, &sources),
        5 => Instruction::plain(Opcode::Fax, &destinations, &sources),
        6 => Instruction::plain(Opcode::IaddCarry, &destinations, &sources),
        7 | 8 => {
            let variant = numbers.below(8) as u8;
            let most = if variant < 4 { 63 } else { 31 };
            let amount = if numbers.once_in(4) {
                numbers.pick(&[0, 1, most - 1, most])
            } else {
                numbers.below(u64::from(most) + 1) as u8
            };
            Instruction::shift(destinations[0], sources[0], variant, amount)
        }
        9 => Instruction::plain(Opcode::IaddCinCout, &destinations, &sources),
        10 => Instruction::plain(Opcode::IsubBinBout, &destinations, &sources),
        11 => Instruction::plain(Opcode::Iadd32CinCout, &destinations, &sources),
        12 => Instruction::plain(Opcode::Iadd32Cout, &destinations, &sources),
        13 => Instruction::plain(Opcode::Imul, &destinations, &sources),
        14 => Instruction::hint(if written == 2 { 1 } else { 2 }, &[], &sources, &destinations),
        _ => Instruction::hint(3, &[written as u32], &sources, &destinations),
    })
}

/// A populated array. A column is calm (one word throughout, so that comparisons hold) or wild.
pub fn values(numbers: &mut Numbers, rows: usize, width: usize) -> Vec<u64> {
    let mut values = vec![0; rows * width];
    for column in 0..width {
        let mood = numbers.below(6);
        let word = numbers.any_word();
        for row in 0..rows {
            values[row * width + column] = match mood {
                0 | 1 => 0,
                2 => word,
                3 => numbers.below(4),
                _ => numbers.any_word(),
            };
        }
    }
    values
}

/// The same instruction as a call of the given Rust's emitters.
pub fn call(instruction: &Instruction) -> oracle::Call {
    use oracle::Call;
    let mut fields = [instruction.destinations.clone(), instruction.sources.clone()].concat();
    if let Beside::Path(path) = instruction.numbers {
        fields.push(path);
    }
    fn exactly<const N: usize>(fields: Vec<u32>) -> [u32; N] {
        fields.try_into().expect("as many fields as the emitter has parameters")
    }
    match (instruction.opcode, &instruction.numbers) {
        (Opcode::Band, _) => Call::Band(exactly(fields)),
        (Opcode::Bor, _) => Call::Bor(exactly(fields)),
        (Opcode::Bxor, _) => Call::Bxor(exactly(fields)),
        (Opcode::Select, _) => Call::Select(exactly(fields)),
        (Opcode::BxorMulti, _) => Call::BxorMulti(fields[0], fields[1..].to_vec()),
        (Opcode::Fax, _) => Call::Fax(exactly(fields)),
        (Opcode::Shift, &Beside::Shift { variant, amount }) => Call::Shift(exactly(fields), variant, amount),
        (Opcode::IaddCinCout, _) => Call::IaddCinCout(exactly(fields)),
        (Opcode::IaddCarry, _) => Call::IaddCarry(exactly(fields)),
        (Opcode::IsubBinBout, _) => Call::IsubBinBout(exactly(fields)),
        (Opcode::Imul, _) => Call::Imul(exactly(fields)),
        (Opcode::Iadd32CinCout, _) => Call::Iadd32CinCout(exactly(fields)),
        (Opcode::Iadd32Cout, _) => Call::Iadd32Cout(exactly(fields)),
        (Opcode::AssertEq, _) => Call::AssertEq(exactly(fields)),
        (Opcode::AssertEqCond, _) => Call::AssertEqCond(exactly(fields)),
        (Opcode::AssertZero, _) => Call::AssertZero(exactly(fields)),
        (Opcode::AssertNonZero, _) => Call::AssertNonZero(exactly(fields)),
        (Opcode::AssertFalse, _) => Call::AssertFalse(exactly(fields)),
        (Opcode::AssertTrue, _) => Call::AssertTrue(exactly(fields)),
        (Opcode::Hint, Beside::Hint { id, dimensions }) => Call::Hint {
            id: *id,
            dimensions: dimensions.iter().copied().map(u64::from).collect(),
            inputs: instruction.sources.clone(),
            outputs: instruction.destinations.clone(),
        },
        (opcode, numbers) => panic!("{opcode:?} does not go with {numbers:?}"),
    }
}
