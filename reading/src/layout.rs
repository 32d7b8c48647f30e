//! "Instruction layout": one opcode byte, then little-endian u32 fields in the order of the matching `emit_` function.

use crate::refusals::{Name, Refused};

/// The opcodes that the port carries, by the source's names and values.
#[derive(Clone, Copy, Debug, PartialEq, Eq, Hash)]
#[repr(u8)]
pub enum Opcode {
    Band = 0x01,
    Bor = 0x02,
    Bxor = 0x03,
    Select = 0x05,
    BxorMulti = 0x06,
    Fax = 0x07,
    Shift = 0x10,
    IaddCinCout = 0x21,
    IaddCarry = 0x22,
    IsubBinBout = 0x23,
    Imul = 0x30,
    Iadd32CinCout = 0x40,
    Iadd32Cout = 0x46,
    AssertEq = 0x60,
    AssertEqCond = 0x61,
    AssertZero = 0x62,
    AssertNonZero = 0x63,
    AssertFalse = 0x64,
    AssertTrue = 0x65,
    Hint = 0x80,
}

impl Opcode {
    pub const ALL: [Opcode; 20] = [
        Opcode::Band,
        Opcode::Bor,
        Opcode::Bxor,
        Opcode::Select,
        Opcode::BxorMulti,
        Opcode::Fax,
        Opcode::Shift,
        Opcode::IaddCinCout,
        Opcode::IaddCarry,
        Opcode::IsubBinBout,
        Opcode::Imul,
        Opcode::Iadd32CinCout,
        Opcode::Iadd32Cout,
        Opcode::AssertEq,
        Opcode::AssertEqCond,
        Opcode::AssertZero,
        Opcode::AssertNonZero,
        Opcode::AssertFalse,
        Opcode::AssertTrue,
        Opcode::Hint,
    ];

    pub fn byte(self) -> u8 {
        self as u8
    }

    pub fn of_byte(byte: u8) -> Option<Opcode> {
        Opcode::ALL.into_iter().find(|op| op.byte() == byte)
    }

    /// How many registers an instruction writes and then reads, in field order, where no count of its own says so.
    fn registers(self) -> (usize, usize) {
        match self {
            Opcode::Band | Opcode::Bor | Opcode::Bxor | Opcode::IaddCarry => (1, 2),
            Opcode::Select | Opcode::Fax => (1, 3),
            Opcode::Shift => (1, 1),
            Opcode::IaddCinCout | Opcode::IsubBinBout | Opcode::Iadd32CinCout => (2, 3),
            Opcode::Imul | Opcode::Iadd32Cout => (2, 2),
            Opcode::AssertEq => (0, 2),
            Opcode::AssertEqCond => (0, 3),
            Opcode::AssertZero | Opcode::AssertNonZero | Opcode::AssertFalse | Opcode::AssertTrue => (0, 1),
            Opcode::BxorMulti | Opcode::Hint => panic!("{self:?} has counts of its own"),
        }
    }

    pub fn is_assertion(self) -> bool {
        (Opcode::AssertEq.byte()..=Opcode::AssertTrue.byte()).contains(&self.byte())
    }
}

/// "5 NotCarried is left to 0x31 alone" (document 02, E1).
pub const NOT_CARRIED: [u8; 1] = [0x31];

/// What stands in an instruction beside its opcode and its registers.
#[derive(Clone, Debug, PartialEq, Eq, Hash)]
pub enum Numbers {
    /// Nothing.
    None,
    /// An assertion's path spec.
    Path(u32),
    /// A shift's last two bytes.
    Shift { variant: u8, amount: u8 },
    /// A hint's id and dimensions.
    Hint { id: u32, dimensions: Vec<u32> },
}

/// An instruction: destinations and sources are registers in field order.
#[derive(Clone, Debug, PartialEq, Eq, Hash)]
pub struct Instruction {
    pub opcode: Opcode,
    pub destinations: Vec<u32>,
    pub sources: Vec<u32>,
    pub numbers: Numbers,
}

impl Instruction {
    /// An instruction with no number in it.
    pub fn plain(opcode: Opcode, destinations: &[u32], sources: &[u32]) -> Instruction {
        Instruction { opcode, destinations: destinations.to_vec(), sources: sources.to_vec(), numbers: Numbers::None }
    }

    pub fn assertion(opcode: Opcode, sources: &[u32], path: u32) -> Instruction {
        Instruction { opcode, destinations: Vec::new(), sources: sources.to_vec(), numbers: Numbers::Path(path) }
    }

    pub fn shift(destination: u32, source: u32, variant: u8, amount: u8) -> Instruction {
        Instruction {
            opcode: Opcode::Shift,
            destinations: vec![destination],
            sources: vec![source],
            numbers: Numbers::Shift { variant, amount },
        }
    }

    pub fn hint(id: u32, dimensions: &[u32], inputs: &[u32], outputs: &[u32]) -> Instruction {
        Instruction {
            opcode: Opcode::Hint,
            destinations: outputs.to_vec(),
            sources: inputs.to_vec(),
            numbers: Numbers::Hint { id, dimensions: dimensions.to_vec() },
        }
    }

    /// Its bytes.
    pub fn encode(&self) -> Vec<u8> {
        let mut bytes = vec![self.opcode.byte()];
        let mut field = |number: u32| bytes.extend_from_slice(&number.to_le_bytes());
        let length_field = |list: &[u32]| u32::try_from(list.len()).expect("a count is a u32");
        match (&self.numbers, self.opcode) {
            (Numbers::Hint { id, dimensions }, _) => {
                field(*id);
                field(length_field(dimensions));
                dimensions.iter().copied().for_each(&mut field);
                field(length_field(&self.sources));
                field(length_field(&self.destinations));
                self.sources.iter().chain(&self.destinations).copied().for_each(&mut field);
            }
            (_, Opcode::BxorMulti) => {
                field(self.destinations[0]);
                field(length_field(&self.sources));
                self.sources.iter().copied().for_each(&mut field);
            }
            _ => self.destinations.iter().chain(&self.sources).copied().for_each(&mut field),
        }
        match self.numbers {
            Numbers::Path(path) => field(path),
            Numbers::Shift { variant, amount } => bytes.extend_from_slice(&[variant, amount]),
            _ => {}
        }
        bytes
    }
}

/// The bytes of a program, one instruction after the other.
pub fn encode_all(program: &[Instruction]) -> Vec<u8> {
    program.iter().flat_map(Instruction::encode).collect()
}

/// A part of the bytes, read from its start; every position is wider than any count can make it.
struct Fields<'a> {
    part: &'a [u8],
    next: u128,
}

impl Fields<'_> {
    fn byte(&mut self) -> Option<u8> {
        let byte = *self.part.get(usize::try_from(self.next).ok()?)?;
        self.next += 1;
        Some(byte)
    }

    fn number(&mut self) -> Option<u32> {
        let bytes = [self.byte()?, self.byte()?, self.byte()?, self.byte()?];
        Some(u32::from_le_bytes(bytes))
    }

    /// `count` fields, where the part is that long.
    fn list(&mut self, count: u32) -> Option<Vec<u32>> {
        if self.next + 4 * u128::from(count) > self.part.len() as u128 {
            return None;
        }
        (0..count).map(|_| self.number()).collect()
    }
}

/// The decoder: the instruction at the start of `part` and its length, or one of 4, 5, 6, and 7 for a variant over 7.
/// Offsets are counted from the start of the part, where the opcode byte is: 0.
pub fn decode(part: &[u8]) -> Result<(Instruction, usize), Refused> {
    let &byte = part.first().ok_or(Refused::bare(Name::Truncated))?;
    if NOT_CARRIED.contains(&byte) {
        return Err(Refused::bare(Name::NotCarried));
    }
    let opcode = Opcode::of_byte(byte).ok_or(Refused::bare(Name::UnknownOpcode))?;
    let mut fields = Fields { part, next: 1 };
    let instruction = read(opcode, &mut fields).ok_or(Refused::bare(Name::Truncated))?;
    match instruction.numbers {
        Numbers::Shift { variant, .. } if variant > 7 => Err(Refused::bare(Name::BadShift)),
        _ => Ok((instruction, usize::try_from(fields.next).expect("within the part"))),
    }
}

/// The fields after the opcode byte; nothing where they pass the end.
fn read(opcode: Opcode, fields: &mut Fields) -> Option<Instruction> {
    match opcode {
        Opcode::BxorMulti => {
            let destinations = fields.list(1)?;
            let count = fields.number()?;
            let sources = fields.list(count)?;
            Some(Instruction { opcode, destinations, sources, numbers: Numbers::None })
        }
        Opcode::Hint => {
            let id = fields.number()?;
            let dimension_count = fields.number()?;
            let dimensions = fields.list(dimension_count)?;
            let input_count = fields.number()?;
            let output_count = fields.number()?;
            let sources = fields.list(input_count)?;
            let destinations = fields.list(output_count)?;
            Some(Instruction { opcode, destinations, sources, numbers: Numbers::Hint { id, dimensions } })
        }
        _ => {
            let (written, read) = opcode.registers();
            let destinations = fields.list(written as u32)?;
            let sources = fields.list(read as u32)?;
            let numbers = match opcode {
                Opcode::Shift => Numbers::Shift { variant: fields.byte()?, amount: fields.byte()? },
                _ if opcode.is_assertion() => Numbers::Path(fields.number()?),
                _ => Numbers::None,
            };
            Some(Instruction { opcode, destinations, sources, numbers })
        }
    }
}

#[cfg(test)]
mod tests {
    use super::*;

    /// "Total lengths: Band, Bor, Bxor, IaddCarry 13; Select, Fax 17; Shift 11 ..", by counts of registers and numbers; and
    /// "Iadd32CinCout (0x40, 21 bytes) and Iadd32Cout (0x46, 17 bytes)".
    #[test]
    fn total_lengths_are_the_documents() {
        let three = [0, 1, 2];
        let lengths = [
            (Opcode::Band, 13),
            (Opcode::Bor, 13),
            (Opcode::Bxor, 13),
            (Opcode::IaddCarry, 13),
            (Opcode::Select, 17),
            (Opcode::Fax, 17),
            (Opcode::Shift, 11),
            (Opcode::IaddCinCout, 21),
            (Opcode::IsubBinBout, 21),
            (Opcode::Imul, 17),
            (Opcode::Iadd32CinCout, 21),
            (Opcode::Iadd32Cout, 17),
            (Opcode::AssertEq, 13),
            (Opcode::AssertEqCond, 17),
            (Opcode::AssertZero, 9),
            (Opcode::AssertNonZero, 9),
            (Opcode::AssertFalse, 9),
            (Opcode::AssertTrue, 9),
        ];
        for (opcode, length) in lengths {
            let zeros = vec![0; 100];
            let part = [vec![opcode.byte()], zeros].concat();
            let (instruction, read) = decode(&part).expect("zeros are fields");
            assert_eq!(read, length, "{opcode:?}");
            assert_eq!(instruction.encode(), part[..length]);
            // one byte less is Truncated, one byte more is not read
            assert_eq!(decode(&part[..length - 1]), Err(Refused::bare(Name::Truncated)), "{opcode:?}");
            assert_eq!(decode(&part[..length]).map(|(_, n)| n), Ok(length), "{opcode:?}");
        }
        for n in 0..=3usize {
            let many = Instruction::plain(Opcode::BxorMulti, &[9], &three[..n]);
            assert_eq!(many.encode().len(), 9 + 4 * n);
            for d in 0..=3usize {
                for o in 0..=3usize {
                    let hint = Instruction::hint(7, &three[..d], &three[..n], &three[..o]);
                    assert_eq!(hint.encode().len(), 17 + 4 * (d + n + o));
                    assert_eq!(decode(&hint.encode()), Ok((hint, 17 + 4 * (d + n + o))));
                }
            }
        }
    }

    #[test]
    fn the_documents_bytes() {
        let band = Instruction::plain(Opcode::Band, &[5], &[1, 2]);
        assert_eq!(band.encode(), [1, 5, 0, 0, 0, 1, 0, 0, 0, 2, 0, 0, 0]);
        let many = Instruction::plain(Opcode::BxorMulti, &[7], &[]);
        assert_eq!(many.encode(), [6, 7, 0, 0, 0, 0, 0, 0, 0]);
        assert_eq!(decode(&many.encode()[..8]), Err(Refused::bare(Name::Truncated)));
    }

    #[test]
    fn a_count_near_the_top_of_its_field_is_truncated() {
        for count in [1, 2, u32::MAX - 1, u32::MAX] {
            let mut many = vec![0x06, 0, 0, 0, 0];
            many.extend_from_slice(&count.to_le_bytes());
            assert_eq!(decode(&many), Err(Refused::bare(Name::Truncated)), "{count}");
        }
    }

    /// Every opcode byte: the source has 21 opcodes, and one of them is not carried.
    #[test]
    fn every_byte_is_carried_or_not_or_unknown() {
        let zeros = |byte: u8| [vec![byte], vec![0; 100]].concat();
        let refused = |name: Name| (0..=255).filter(|&byte| decode(&zeros(byte)) == Err(Refused::bare(name))).collect();
        let not_carried: Vec<u8> = refused(Name::NotCarried);
        assert_eq!(not_carried, [0x31]);
        let unknown: Vec<u8> = refused(Name::UnknownOpcode);
        assert_eq!(unknown.len(), 256 - 21);
        assert!(!unknown.contains(&0x40) && !unknown.contains(&0x46));
    }

    #[test]
    fn no_bytes_are_truncated() {
        assert_eq!(decode(&[]), Err(Refused::bare(Name::Truncated)));
    }
}
