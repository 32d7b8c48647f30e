//! Programs damaged in every way of a kind: cut short, other opcodes, other counts, flipped bits, other registers.

use reading::layout::{Instruction, Numbers, Opcode};

/// A program with the places that damage goes to.
pub struct Anatomy {
    pub code: Vec<u8>,
    /// Where each opcode byte stands.
    pub opcodes: Vec<usize>,
    /// Where each count of a BxorMulti or a hint stands.
    pub counts: Vec<usize>,
    /// Where each register stands.
    pub registers: Vec<usize>,
    /// Where each other u32 stands: hint ids, dimensions, path specs.
    pub others: Vec<usize>,
    /// Where each shift's variant stands; its amount is the next byte.
    pub variants: Vec<usize>,
}

impl Anatomy {
    pub fn of(program: &[Instruction]) -> Anatomy {
        let mut anatomy = Anatomy {
            code: Vec::new(),
            opcodes: Vec::new(),
            counts: Vec::new(),
            registers: Vec::new(),
            others: Vec::new(),
            variants: Vec::new(),
        };
        for instruction in program {
            let start = anatomy.code.len();
            anatomy.opcodes.push(start);
            let mut at = start + 1;
            let mut fields = |list: &mut Vec<usize>, count: usize| {
                list.extend((0..count).map(|field| at + 4 * field));
                at += 4 * count;
            };
            let (written, read) = (instruction.destinations.len(), instruction.sources.len());
            match (&instruction.numbers, instruction.opcode) {
                (Numbers::Hint { dimensions, .. }, _) => {
                    fields(&mut anatomy.others, 1);
                    fields(&mut anatomy.counts, 1);
                    fields(&mut anatomy.others, dimensions.len());
                    fields(&mut anatomy.counts, 2);
                    fields(&mut anatomy.registers, read + written);
                }
                (_, Opcode::BxorMulti) => {
                    fields(&mut anatomy.registers, 1);
                    fields(&mut anatomy.counts, 1);
                    fields(&mut anatomy.registers, read);
                }
                (Numbers::Path(_), _) => {
                    fields(&mut anatomy.registers, read);
                    fields(&mut anatomy.others, 1);
                }
                (Numbers::Shift { .. }, _) => {
                    fields(&mut anatomy.registers, 2);
                    anatomy.variants.push(at);
                }
                (Numbers::None, _) => fields(&mut anatomy.registers, written + read),
            }
            anatomy.code.extend(instruction.encode());
        }
        anatomy
    }

    /// Hands every damaged program of every kind to `each`, and answers how many they were.
    pub fn every_damage(&self, rows: usize, mut each: impl FnMut(&[u8])) -> usize {
        let mut count = 0;
        let mut hand = |code: &[u8]| {
            count += 1;
            each(code);
        };
        for end in 0..self.code.len() {
            hand(&self.code[..end]);
        }
        let mut damaged = self.code.clone();
        for &at in &self.opcodes {
            for byte in 0..=255 {
                damaged[at] = byte;
                hand(&damaged);
            }
            damaged[at] = self.code[at];
        }
        for at in 0..damaged.len() {
            for bit in 0..8 {
                damaged[at] ^= 1 << bit;
                hand(&damaged);
                damaged[at] ^= 1 << bit;
            }
        }
        for &at in &self.variants {
            for byte in 0..=255 {
                damaged[at] = byte;
                hand(&damaged);
                damaged[at] = self.code[at];
                damaged[at + 1] = byte;
                hand(&damaged);
                damaged[at + 1] = self.code[at + 1];
            }
        }
        let rows = rows as u32;
        let registers = [0, rows.wrapping_sub(1), rows, rows + 1, u32::MAX];
        let counts = [0, 1, 2, 3, 8, 9, 1 << 30, u32::MAX - 1, u32::MAX];
        let lists: [(&[usize], &[u32]); 4] = [
            (&self.registers, &registers),
            (&self.counts, &counts),
            (&self.others, &counts),
            (&self.counts, &registers),
        ];
        for (places, fields) in lists {
            for &at in places {
                for field in fields {
                    damaged[at..at + 4].copy_from_slice(&field.to_le_bytes());
                    hand(&damaged);
                }
                damaged[at..at + 4].copy_from_slice(&self.code[at..at + 4]);
            }
        }
        // every pair of registers of one instruction made equal: overlaps, wherever they are
        for (place, &start) in self.opcodes.iter().enumerate() {
            let end = self.opcodes.get(place + 1).copied().unwrap_or(self.code.len());
            let own: Vec<usize> = self.registers.iter().copied().filter(|at| (start..end).contains(at)).collect();
            for &from in &own {
                for &to in &own {
                    damaged.copy_within(from..from + 4, to);
                    hand(&damaged);
                    damaged[to..to + 4].copy_from_slice(&self.code[to..to + 4]);
                }
            }
        }
        count
    }
}
