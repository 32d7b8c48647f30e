//! Programs that document 01 accepts, made at random.

use crate::{Call, numbers::Numbers};

/// Every carried opcode, in the order of opcode.rs, by how many destinations and how many sources it
/// has. BxorMulti and hints have as many sources as they are made with.
const KINDS: [(u8, usize, usize); 20] = [
    (0x01, 1, 2),
    (0x02, 1, 2),
    (0x03, 1, 2),
    (0x05, 1, 3),
    (0x06, 1, 0),
    (0x07, 1, 3),
    (0x10, 1, 1),
    (0x21, 2, 3),
    (0x22, 1, 2),
    (0x23, 2, 3),
    (0x30, 2, 2),
    (0x40, 2, 3),
    (0x46, 2, 2),
    (0x60, 0, 2),
    (0x61, 0, 3),
    (0x62, 0, 1),
    (0x63, 0, 1),
    (0x64, 0, 1),
    (0x65, 0, 1),
    (0x80, 0, 0),
];

pub fn opcodes() -> impl Iterator<Item = u8> {
    KINDS.iter().map(|kind| kind.0)
}

/// An instruction of any kind that so many rows allow; `path` is its path spec if it is an assertion.
pub fn any_call(numbers: &mut Numbers, rows: u32, path: u32) -> Call {
    loop {
        let (opcode, ..) = numbers.pick(&KINDS);
        if let Some(call) = call(numbers, opcode, rows, path) {
            return call;
        }
    }
}

/// An instruction of that opcode which document 01 accepts over so many rows, if there is one.
pub fn call(numbers: &mut Numbers, opcode: u8, rows: u32, path: u32) -> Option<Call> {
    let &(_, dests, sources) = KINDS.iter().find(|kind| kind.0 == opcode)?;
    let many = match numbers.below(8) {
        0 => 20 + numbers.below(21),
        _ => numbers.below(6),
    };
    let (id, dimensions, inputs, outputs) = match numbers.below(3) {
        0 => (1, vec![], 2, 2),
        1 => (2, vec![], 1, 1),
        _ => {
            let k = 1 + numbers.below(8);
            (3, vec![k], k as usize, k as usize)
        }
    };
    let (dests, sources) = match opcode {
        0x06 => (dests, many as usize),
        0x80 => (outputs, inputs),
        _ => (dests, sources),
    };
    // A source may be named twice, and is no destination; a destination is named once.
    let needed = dests + usize::from(sources > 0);
    if (rows as usize) < needed {
        return None;
    }
    let mut to: Vec<u32> = Vec::new();
    while to.len() < dests {
        let register = numbers.below(rows.into()) as u32;
        if !to.contains(&register) {
            to.push(register);
        }
    }
    let mut from: Vec<u32> = Vec::new();
    while from.len() < sources {
        let register = numbers.below(rows.into()) as u32;
        if !to.contains(&register) {
            from.push(register);
        }
    }
    if opcode == 0x80 {
        return Some(Call::Hint {
            id,
            dimensions,
            inputs: from,
            outputs: to,
        });
    }
    let variant = numbers.below(8) as u8;
    let amount = numbers.below(if variant < 4 { 64 } else { 32 }) as u8;
    Some(with_fields(
        opcode,
        &[to, from].concat(),
        path,
        variant,
        amount,
    ))
}

/// The call of that opcode with these registers in layout order.
pub fn with_fields(opcode: u8, fields: &[u32], path: u32, variant: u8, amount: u8) -> Call {
    match (opcode, fields) {
        (0x01, &[d, a, b]) => Call::Band([d, a, b]),
        (0x02, &[d, a, b]) => Call::Bor([d, a, b]),
        (0x03, &[d, a, b]) => Call::Bxor([d, a, b]),
        (0x05, &[d, a, b, c]) => Call::Select([d, a, b, c]),
        (0x06, [d, sources @ ..]) => Call::BxorMulti(*d, sources.to_vec()),
        (0x07, &[d, a, b, c]) => Call::Fax([d, a, b, c]),
        (0x10, &[d, a]) => Call::Shift([d, a], variant, amount),
        (0x21, &[d, e, a, b, c]) => Call::IaddCinCout([d, e, a, b, c]),
        (0x22, &[d, a, b]) => Call::IaddCarry([d, a, b]),
        (0x23, &[d, e, a, b, c]) => Call::IsubBinBout([d, e, a, b, c]),
        (0x30, &[d, e, a, b]) => Call::Imul([d, e, a, b]),
        (0x40, &[d, e, a, b, c]) => Call::Iadd32CinCout([d, e, a, b, c]),
        (0x46, &[d, e, a, b]) => Call::Iadd32Cout([d, e, a, b]),
        (0x60, &[a, b]) => Call::AssertEq([a, b, path]),
        (0x61, &[a, b, c]) => Call::AssertEqCond([a, b, c, path]),
        (0x62, &[a]) => Call::AssertZero([a, path]),
        (0x63, &[a]) => Call::AssertNonZero([a, path]),
        (0x64, &[a]) => Call::AssertFalse([a, path]),
        (0x65, &[a]) => Call::AssertTrue([a, path]),
        _ => panic!("no instruction {opcode:#x} with {} registers", fields.len()),
    }
}

/// How many registers an opcode of fixed length has.
pub fn registers(opcode: u8) -> usize {
    KINDS
        .iter()
        .find(|kind| kind.0 == opcode)
        .map_or(0, |&(_, dests, sources)| dests + sources)
}
