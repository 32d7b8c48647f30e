//! The program check: bytes and rows, refusals 1 and 3 to 10.

use crate::layout::{decode, Instruction, Numbers};
use crate::refusals::{Name, Refused};
use crate::sizes::{MOST_BYTES, MOST_ROWS};

/// "The program check alone takes bytes and rows and gives 1 (rows over 8,192) and 3 to 10."
pub fn check(code: &[u8], rows: usize) -> Result<Vec<Instruction>, Refused> {
    if rows > MOST_ROWS {
        return Err(Refused::bare(Name::BadShape));
    }
    instructions(code, rows)
}

/// 3, "then instructions in order; the first bad instruction decides, and within it 4 to 10 in number order".
pub fn instructions(code: &[u8], rows: usize) -> Result<Vec<Instruction>, Refused> {
    if code.len() > MOST_BYTES {
        return Err(Refused::bare(Name::TooLong));
    }
    let mut program = Vec::new();
    let mut start = 0;
    while start < code.len() {
        let here = |refused: Refused| Refused::at(refused.name, start + refused.offset);
        let (instruction, length) = decode(&code[start..]).map_err(here)?;
        if let Some(name) = judge(&instruction, rows) {
            return Err(Refused::at(name, start));
        }
        program.push(instruction);
        start += length;
    }
    Ok(program)
}

/// 7 to 10 of an instruction that was decoded.
fn judge(instruction: &Instruction, rows: usize) -> Option<Name> {
    match &instruction.numbers {
        Numbers::Shift { variant, amount } => {
            // "variant over 7; amount over 63 (variants 0 to 3) or over 31 (4 to 7)"
            let most = if *variant <= 3 { 63 } else { 31 };
            if *variant > 7 || *amount > most {
                return Some(Name::BadShift);
            }
        }
        Numbers::Hint { id, dimensions } => {
            if !listed(*id, dimensions, instruction.sources.len(), instruction.destinations.len()) {
                return Some(Name::BadHint);
            }
        }
        Numbers::None | Numbers::Path(_) => {}
    }
    let mut registers = instruction.destinations.iter().chain(&instruction.sources);
    if registers.any(|&register| register as usize >= rows) {
        return Some(Name::BadRegister);
    }
    for (place, destination) in instruction.destinations.iter().enumerate() {
        let another = instruction.destinations[place + 1..].contains(destination);
        if another || instruction.sources.contains(destination) {
            return Some(Name::Overlap);
        }
    }
    None
}

/// The hints of "Word rules", by id, dimensions, and counts of inputs and outputs.
fn listed(id: u32, dimensions: &[u32], inputs: usize, outputs: usize) -> bool {
    match (id, dimensions) {
        (1, []) => (inputs, outputs) == (2, 2),
        (2, []) => (inputs, outputs) == (1, 1),
        (3, &[k]) => (1..=8).contains(&k) && (inputs, outputs) == (k as usize, k as usize),
        _ => false,
    }
}

#[cfg(test)]
mod tests {
    use super::*;
    use crate::layout::{encode_all, Opcode};

    fn refused(code: &[u8], rows: usize) -> (u8, usize) {
        let refused = check(code, rows).expect_err("refused");
        (refused.name.number(), refused.offset)
    }

    #[test]
    fn the_empty_program_is_accepted_at_every_row_count_up_to_the_limit() {
        assert_eq!(check(&[], 0), Ok(Vec::new()));
        assert_eq!(check(&[], MOST_ROWS), Ok(Vec::new()));
        assert_eq!(refused(&[], MOST_ROWS + 1), (1, 0));
    }

    #[test]
    fn shift_amounts() {
        for variant in 0..=7 {
            let most = if variant < 4 { 63 } else { 31 };
            assert!(check(&Instruction::shift(0, 1, variant, most).encode(), 2).is_ok());
            assert_eq!(refused(&Instruction::shift(0, 1, variant, most + 1).encode(), 2), (7, 0));
        }
        assert_eq!(refused(&Instruction::shift(0, 1, 8, 0).encode(), 2), (7, 0));
    }

    #[test]
    fn numbers_come_in_order_and_the_first_bad_instruction_decides() {
        // amount 64, a register past the rows, and an overlap at once: the lowest number
        let worst = Instruction::shift(9, 9, 0, 64);
        assert_eq!(refused(&worst.encode(), 2), (7, 0));
        let past = Instruction::shift(9, 9, 0, 63);
        assert_eq!(refused(&past.encode(), 2), (9, 0));
        let same = Instruction::shift(1, 1, 0, 63);
        assert_eq!(refused(&same.encode(), 2), (10, 0));
        // behind a good instruction of 9 bytes the offset is 9, whatever stands further on
        let good = Instruction::assertion(Opcode::AssertZero, &[0], 0);
        assert_eq!(refused(&encode_all(&[good.clone(), same.clone(), worst]), 2), (10, 9));
        assert_eq!(refused(&[good.encode(), vec![0x31], same.encode()].concat(), 2), (5, 9));
        assert_eq!(refused(&[good.encode(), vec![0x04], same.encode()].concat(), 2), (4, 9));
        assert_eq!(refused(&[good.encode(), vec![0x01, 0]].concat(), 2), (6, 9));
    }

    #[test]
    fn two_equal_destinations_overlap_and_two_equal_sources_do_not() {
        for opcode in [Opcode::Imul, Opcode::Iadd32Cout] {
            let code = |high, low, a, b| Instruction::plain(opcode, &[high, low], &[a, b]).encode();
            assert!(check(&code(0, 1, 2, 2), 3).is_ok());
            assert_eq!(refused(&code(0, 0, 1, 2), 3), (10, 0));
            assert_eq!(refused(&code(0, 1, 2, 1), 3), (10, 0));
        }
        let sums =
            |sum, carries, a, b, c| Instruction::plain(Opcode::Iadd32CinCout, &[sum, carries], &[a, b, c]).encode();
        assert!(check(&sums(0, 1, 2, 2, 2), 3).is_ok());
        assert_eq!(refused(&sums(0, 0, 2, 2, 2), 3), (10, 0));
        assert_eq!(refused(&sums(0, 1, 2, 2, 1), 3), (10, 0));
        assert_eq!(refused(&sums(0, 1, 2, 2, 3), 3), (9, 0));
    }

    #[test]
    fn hints_by_id_and_shape() {
        let inputs = [0, 1, 2, 3, 4, 5, 6, 7, 8];
        let outputs = [10, 11, 12, 13, 14, 15, 16, 17, 18];
        for id in 0..=4u32 {
            for k in 0..=9u32 {
                for i in 0..=9usize {
                    for o in 0..=9usize {
                        let plain = check(&Instruction::hint(id, &[], &inputs[..i], &outputs[..o]).encode(), 19);
                        assert_eq!(plain.is_ok(), (id, i, o) == (1, 2, 2) || (id, i, o) == (2, 1, 1));
                        let sized = check(&Instruction::hint(id, &[k], &inputs[..i], &outputs[..o]).encode(), 19);
                        assert_eq!(sized.is_ok(), id == 3 && i == o && i == k as usize && i > 0 && i < 9);
                    }
                }
            }
        }
        assert_eq!(refused(&Instruction::hint(3, &[1, 1], &[0], &[1]).encode(), 19), (8, 0));
    }

    #[test]
    fn too_long_is_one_byte_over() {
        let filler = Instruction::assertion(Opcode::AssertZero, &[0], 0).encode();
        // 7,281 times 9 is 65,529; a BxorMulti cannot be 7 bytes, so the last fills 65,536 by 16 = 9 + 7 is no length:
        // 7,279 assertions (65,511) and one of 25 bytes, 9 + 4 * 4.
        let last = Instruction::plain(Opcode::BxorMulti, &[1], &[0, 0, 0, 0]).encode();
        let mut code = filler.repeat(7_279);
        code.extend_from_slice(&last);
        assert_eq!(code.len(), MOST_BYTES);
        assert!(check(&code, 2).is_ok());
        code.push(0xFF);
        assert_eq!(refused(&code, 2), (3, 0));
        assert_eq!(refused(&code, MOST_ROWS + 1), (1, 0));
    }
}
