//! The builder's bytes: random calls of every emitter, and what builder.rs makes of them. The same
//! calls are emitted, and the Rust's bytes are decoded and, where document 01 accepts them, checked. Into
//! a buffer that is a byte short, document 01 refuses each call (11).
//!
//! Fields have eight digits. A program starts with its bytes, as the Rust emitted them:
//! - `ff`: a place, and the sixteen bytes there, four to a field.
//!
//! Then its calls, a line each, with the emitter's opcode for code:
//! - its arguments in the order of the emitter's parameters. For `06`: destination, number of sources.
//!   For `80`: id, numbers of dimensions, inputs, outputs. Their lists come before, one after the other:
//! - `00`: a place in the list of numbers, and four numbers.
//!
//! A shift whose variant shift.rs does not have can be no call of the Rust; document 01 refuses it (7):
//! - `fd`: its arguments, as above. The program goes on as if it were not there.
//!
//! Then its end:
//! - `fe`: length, count; a row count; 1 where document 01 accepts the program over so many rows, else 0.

use super::{Lines, List, programs};
use crate::{Call, Rust, numbers::Numbers};

/// Numbers of 32 bits at the limits.
const LIMITS: [u32; 6] = [0, 1, 255, 1 << 31, u32::MAX - 1, u32::MAX];

/// Amounts of a shift, within a width and over it: an emitter judges none.
const AMOUNTS: [u8; 7] = [0, 1, 31, 32, 63, 64, 255];

pub fn list(rust: &dyn Rust, seed: u64) -> List {
    let mut numbers = Numbers::new(seed);
    let mut lines = Lines::new(8);
    let mut program =
        |calls: &[Call], accepted: Option<u32>| put(&mut lines, rust, calls, accepted);

    // No call at all, over no rows and over the most.
    program(&[], Some(0));
    program(&[], Some(8192));

    // Each emitter, each of its fields at each limit, the others random.
    for opcode in programs::opcodes() {
        if opcode == 0x80 {
            continue;
        }
        let fields = programs::registers(opcode) + usize::from(opcode >= 0x60);
        let mut calls = Vec::new();
        for place in 0..fields {
            for limit in LIMITS {
                let mut values: Vec<u32> = (0..fields).map(|_| numbers.word() as u32).collect();
                values[place] = limit;
                let path = if opcode >= 0x60 { values.pop() } else { None };
                let variant = numbers.below(8) as u8;
                let amount = numbers.pick(&AMOUNTS);
                calls.push(programs::with_fields(
                    opcode,
                    &values,
                    path.unwrap_or(0),
                    variant,
                    amount,
                ));
            }
        }
        program(&calls, None);
    }

    // Every byte as a shift's variant: each of the Rust's, by every amount, and behind it some others.
    let mut calls = Vec::new();
    for variant in 0..8u8 {
        let mut shift = |variant, amount| {
            let registers = [numbers.word() as u32, numbers.word() as u32];
            calls.push(Call::Shift(registers, variant, amount));
        };
        for amount in AMOUNTS {
            shift(variant, amount);
        }
        for other in (variant + 8..=255).step_by(8) {
            shift(other, 1);
        }
    }
    program(&calls, None);

    // BxorMulti with no sources up to many.
    let any = |numbers: &mut Numbers, n: u64| -> Vec<u32> {
        (0..n)
            .map(|_| numbers.word() as u32 >> numbers.below(32))
            .collect()
    };
    let mut calls = Vec::new();
    for n in [0, 1, 2, 3, 4, 5, 8, 9, 33, 100] {
        let sources = any(&mut numbers, n);
        calls.push(Call::BxorMulti(numbers.word() as u32, sources));
    }
    program(&calls, None);

    // Hints of the listed shapes and of others, which an emitter does not judge.
    let mut calls = Vec::new();
    for (id, d, i, o) in [
        (1, 0, 2, 2),
        (2, 0, 1, 1),
        (3, 1, 1, 1),
        (3, 1, 8, 8),
        (0, 0, 0, 0),
        (4, 3, 2, 1),
        (u32::MAX, 8, 0, 5),
        (2, 1, 40, 0),
        (1 << 31, 0, 0, 33),
    ] {
        let mut dimensions: Vec<u64> = any(&mut numbers, d).into_iter().map(u64::from).collect();
        if let Some(last) = dimensions.last_mut() {
            *last = u32::MAX.into();
        }
        calls.push(Call::Hint {
            id,
            dimensions,
            inputs: any(&mut numbers, i),
            outputs: any(&mut numbers, o),
        });
    }
    program(&calls, None);

    // Programs that document 01 accepts, over just the rows they need or more.
    for n in 0..40 {
        let rows = 1 + numbers.pick(&[0, 1, 2, 4, 9, 30, 1000, 8191]);
        let calls: Vec<Call> = (0..1 + n % 20)
            .map(|_| {
                let path = numbers.word() as u32;
                programs::any_call(&mut numbers, rows, path)
            })
            .collect();
        program(&calls, Some(rows));
    }

    // Two cases without a line: the program has them of itself.
    lines.count("dimension too large");
    lines.count("no bytes");
    lines.list("bytecode_answers")
}

/// A program: its bytes, its calls, its end.
fn put(lines: &mut Lines, rust: &dyn Rust, calls: &[Call], accepted: Option<u32>) {
    let is_the_rusts = |call: &Call| match *call {
        Call::Shift(_, variant, _) => rust.has_variant(variant),
        _ => true,
    };
    let mut emitted = calls.to_vec();
    emitted.retain(is_the_rusts);
    let (code, count) = rust.emit(&emitted);
    if let Some(rows) = accepted {
        // What document 01 accepts, the Rust runs.
        let mut column = vec![0; rows as usize];
        rust.run(&code, 1, 0, 1, &mut column);
    }
    for (at, bytes) in (0..).zip(code.chunks(16)) {
        let four = |i: usize| {
            let at = |j| bytes.get(4 * i + j).copied().unwrap_or(0);
            u32::from_be_bytes([at(0), at(1), at(2), at(3)]).into()
        };
        lines.line(0xff, [16 * at, four(0), four(1), four(2), four(3)]);
    }
    for call in calls {
        let (opcode, fields) = put_call(lines, call);
        if is_the_rusts(call) {
            // One line, three cases: it is emitted, it is decoded, and a byte short it has no room.
            lines.case("emitted", opcode, fields);
            lines.count("decoded");
            lines.count("no room");
        } else {
            lines.case("no such variant", 0xfd, fields);
        }
    }
    let (rows, is_accepted) = accepted.map_or((0, 0), |rows| (rows.into(), 1));
    lines.case(
        "lengths and counts",
        0xfe,
        [code.len() as u64, count as u64, rows, is_accepted, 0],
    );
    if accepted.is_some() {
        lines.count("accepted");
    }
}

/// The line of a call, after those of its lists.
fn put_call(lines: &mut Lines, call: &Call) -> (u8, [u64; 5]) {
    fn fields<const N: usize>(opcode: u8, given: [u32; N]) -> (u8, [u64; 5]) {
        let mut fields = [0; 5];
        for (field, number) in fields.iter_mut().zip(given) {
            *field = number.into();
        }
        (opcode, fields)
    }
    let mut numbers = |list: &[u32]| {
        for (at, four) in (0..).zip(list.chunks(4)) {
            let number = |i| u64::from(four.get(i).copied().unwrap_or(0));
            lines.line(0x00, [4 * at, number(0), number(1), number(2), number(3)]);
        }
    };
    match *call {
        Call::Band(given) => fields(0x01, given),
        Call::Bor(given) => fields(0x02, given),
        Call::Bxor(given) => fields(0x03, given),
        Call::Select(given) => fields(0x05, given),
        Call::BxorMulti(dst, ref sources) => {
            numbers(sources);
            fields(0x06, [dst, sources.len() as u32])
        }
        Call::Fax(given) => fields(0x07, given),
        Call::Shift([dst, source], variant, amount) => {
            fields(0x10, [dst, source, variant.into(), amount.into()])
        }
        Call::IaddCinCout(given) => fields(0x21, given),
        Call::IaddCarry(given) => fields(0x22, given),
        Call::IsubBinBout(given) => fields(0x23, given),
        Call::Imul(given) => fields(0x30, given),
        Call::Iadd32CinCout(given) => fields(0x40, given),
        Call::Iadd32Cout(given) => fields(0x46, given),
        Call::AssertEq(given) => fields(0x60, given),
        Call::AssertEqCond(given) => fields(0x61, given),
        Call::AssertZero(given) => fields(0x62, given),
        Call::AssertNonZero(given) => fields(0x63, given),
        Call::AssertFalse(given) => fields(0x64, given),
        Call::AssertTrue(given) => fields(0x65, given),
        Call::Hint {
            id,
            ref dimensions,
            ref inputs,
            ref outputs,
        } => {
            let dims = dimensions.iter().map(|&dim| dim as u32);
            let all: Vec<u32> = dims
                .chain(inputs.iter().copied())
                .chain(outputs.iter().copied())
                .collect();
            numbers(&all);
            fields(
                0x80,
                [
                    id,
                    dimensions.len() as u32,
                    inputs.len() as u32,
                    outputs.len() as u32,
                ],
            )
        }
    }
}
