//! One column, one instruction after the other: what a program means, with no batch in it.

use crate::layout::{Instruction, Numbers, Opcode};
use crate::words::{add, add_halves, divide, leading_zeros, multiply, shift, subtract, top_bit, top_bits};

/// A violation, as its three words.
pub type Record = [u64; 3];

/// Runs a checked program over one column, register by register, and answers every violation in program order.
pub fn run_column(program: &[Instruction], column: &mut [u64]) -> Vec<Record> {
    let mut violations = Vec::new();
    for (number, instruction) in program.iter().enumerate() {
        let read: Vec<u64> = instruction.sources.iter().map(|&register| column[register as usize]).collect();
        match fails(instruction, &read) {
            Some([a, b]) => violations.push([head(number, instruction), a, b]),
            None => {
                let words = apply(instruction, &read);
                assert_eq!(words.len(), instruction.destinations.len(), "a word for each destination");
                for (&register, word) in instruction.destinations.iter().zip(words) {
                    column[register as usize] = word;
                }
            }
        }
    }
    violations
}

/// "The first is packed most significant first: opcode 8 bits, instruction number from 0 in 24, path spec in 32."
fn head(number: usize, instruction: &Instruction) -> u64 {
    let Numbers::Path(path) = instruction.numbers else { panic!("only an assertion has a path spec") };
    u64::from(instruction.opcode.byte()) * (1 << 56) + number as u64 * (1 << 32) + u64::from(path)
}

/// "the two words of the message: a and b, or v and 0", where the assertion fails.
fn fails(instruction: &Instruction, read: &[u64]) -> Option<[u64; 2]> {
    let (failing, message) = match (instruction.opcode, read) {
        (Opcode::AssertEq, &[a, b]) => (a != b, [a, b]),
        (Opcode::AssertEqCond, &[condition, a, b]) => (a != b && top_bit(condition), [a, b]),
        (Opcode::AssertZero, &[v]) => (v != 0, [v, 0]),
        (Opcode::AssertNonZero, &[v]) => (v == 0, [v, 0]),
        (Opcode::AssertFalse, &[v]) => (top_bit(v), [v, 0]),
        (Opcode::AssertTrue, &[v]) => (!top_bit(v), [v, 0]),
        _ => return None,
    };
    failing.then_some(message)
}

/// The words that an instruction stores, in the order of its destinations; none for an assertion.
fn apply(instruction: &Instruction, read: &[u64]) -> Vec<u64> {
    match (instruction.opcode, read, &instruction.numbers) {
        (Opcode::Band, &[a, b], _) => vec![a & b],
        (Opcode::Bor, &[a, b], _) => vec![a | b],
        (Opcode::Bxor, &[a, b], _) => vec![a ^ b],
        (Opcode::Select, &[condition, t, f], _) => vec![if top_bit(condition) { t } else { f }],
        (Opcode::Fax, &[a, b, c], _) => vec![(a & b) ^ c],
        (Opcode::BxorMulti, words, _) => vec![words.iter().fold(0, |sum, word| sum ^ word)],
        (Opcode::Shift, &[word], &Numbers::Shift { variant, amount }) => vec![shift(variant, word, amount)],
        (Opcode::IaddCinCout, &[a, b, c], _) => {
            let (sum, carries) = add(a, b, top_bit(c));
            vec![sum, carries]
        }
        (Opcode::IaddCarry, &[a, b], _) => vec![add(a, b, false).1],
        (Opcode::IsubBinBout, &[a, b, c], _) => {
            let (difference, borrows) = subtract(a, b, top_bit(c));
            vec![difference, borrows]
        }
        (Opcode::Imul, &[a, b], _) => {
            let (high, low) = multiply(a, b);
            vec![high, low]
        }
        (Opcode::Iadd32CinCout, &[a, b, c], _) => {
            let (sums, carries) = add_halves(a, b, top_bits(c));
            vec![sums, carries]
        }
        (Opcode::Iadd32Cout, &[a, b], _) => {
            let (sums, carries) = add_halves(a, b, [false; 2]);
            vec![sums, carries]
        }
        (Opcode::Hint, words, Numbers::Hint { id, .. }) => match (id, words) {
            (1, &[a, b]) => {
                let (quotient, remainder) = divide(a, b);
                vec![quotient, remainder]
            }
            (2, &[word]) => vec![leading_zeros(word)],
            (3, words) => words.iter().rev().copied().collect(),
            _ => panic!("the check lets only listed hints through"),
        },
        (opcode, ..) if opcode.is_assertion() => Vec::new(),
        (opcode, ..) => panic!("{opcode:?} with {} sources is not an instruction", read.len()),
    }
}

#[cfg(test)]
mod tests {
    use super::*;

    const TOP: u64 = 1 << 63;

    #[test]
    fn operands_stand_where_the_emitters_put_them() {
        let run = |instruction: Instruction, mut column: Vec<u64>| {
            assert_eq!(run_column(&[instruction], &mut column), Vec::<Record>::new());
            column
        };
        let plain = Instruction::plain;
        assert_eq!(run(plain(Opcode::Select, &[0], &[1, 2, 3]), vec![0, TOP, 5, 6])[0], 5);
        assert_eq!(run(plain(Opcode::Select, &[0], &[1, 2, 3]), vec![0, TOP - 1, 5, 6])[0], 6);
        assert_eq!(run(plain(Opcode::Fax, &[0], &[1, 2, 3]), vec![0, 12, 10, 1])[0], 9);
        assert_eq!(run(plain(Opcode::BxorMulti, &[0], &[]), vec![7])[0], 0);
        assert_eq!(run(plain(Opcode::BxorMulti, &[0], &[1, 2, 1]), vec![7, 3, 4])[0], 4);
        assert_eq!(run(plain(Opcode::IaddCinCout, &[0, 1], &[2, 3, 4]), vec![0, 0, 3, 1, TOP])[..2], [5, 3]);
        assert_eq!(run(plain(Opcode::IaddCarry, &[0], &[1, 2]), vec![0, 3, 1])[0], 3);
        assert_eq!(run(plain(Opcode::IsubBinBout, &[0, 1], &[2, 3, 4]), vec![0, 0, 5, 3, TOP])[..2], [1, 3]);
        assert_eq!(run(plain(Opcode::Imul, &[0, 1], &[2, 3]), vec![9, 9, 1 << 40, 1 << 40])[..2], [1 << 16, 0]);
        let halves = |high: u64, low: u64| (high << 32) + low;
        let [a, b, tops] = [halves(3, u32::MAX.into()), halves(1, 0), halves(1 << 31, 1 << 31)];
        let carried = plain(Opcode::Iadd32CinCout, &[0, 1], &[2, 3, 4]);
        assert_eq!(run(carried, vec![9, 9, a, b, tops])[..2], [halves(5, 0), halves(3, u32::MAX.into())]);
        let bare = plain(Opcode::Iadd32Cout, &[0, 1], &[2, 3]);
        assert_eq!(run(bare, vec![9, 9, a, b])[..2], [halves(4, u32::MAX.into()), halves(3, 0)]);
        assert_eq!(run(Instruction::hint(1, &[], &[0, 1], &[2, 3]), vec![17, 5, 0, 0])[2..], [3, 2]);
        assert_eq!(run(Instruction::hint(2, &[], &[0], &[1]), vec![1, 0])[1], 63);
        assert_eq!(run(Instruction::hint(3, &[3], &[0, 1, 2], &[3, 4, 5]), vec![1, 2, 3, 0, 0, 0])[3..], [3, 2, 1]);
    }

    #[test]
    fn assertions_fail_where_the_document_says() {
        let told = |opcode, column: &[u64]| {
            let sources: Vec<u32> = (0..column.len() as u32).collect();
            run_column(&[Instruction::assertion(opcode, &sources, 9)], &mut column.to_vec())
        };
        assert!(told(Opcode::AssertEq, &[4, 4]).is_empty());
        assert_eq!(told(Opcode::AssertEq, &[4, 5]), [[0x6000_0000_0000_0009, 4, 5]]);
        assert!(told(Opcode::AssertEqCond, &[TOP - 1, 4, 5]).is_empty());
        assert!(told(Opcode::AssertEqCond, &[TOP, 4, 4]).is_empty());
        assert_eq!(told(Opcode::AssertEqCond, &[TOP, 4, 5]), [[0x6100_0000_0000_0009, 4, 5]]);
        assert_eq!(told(Opcode::AssertZero, &[4]), [[0x6200_0000_0000_0009, 4, 0]]);
        assert!(told(Opcode::AssertZero, &[0]).is_empty());
        assert_eq!(told(Opcode::AssertNonZero, &[0]), [[0x6300_0000_0000_0009, 0, 0]]);
        assert!(told(Opcode::AssertNonZero, &[1]).is_empty());
        assert_eq!(told(Opcode::AssertFalse, &[TOP]), [[0x6400_0000_0000_0009, TOP, 0]]);
        assert!(told(Opcode::AssertFalse, &[TOP - 1]).is_empty());
        assert_eq!(told(Opcode::AssertTrue, &[TOP - 1]), [[0x6500_0000_0000_0009, TOP - 1, 0]]);
        assert!(told(Opcode::AssertTrue, &[TOP]).is_empty());
    }
}
