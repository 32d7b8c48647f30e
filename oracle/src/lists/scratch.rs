//! Scratch slots: gate lists, and what scratch_alloc.rs, built for release, assigns under both policies.
//!
//! Fields have eight digits. A gate list is put line by line:
//! - `01`, `02`, `03`: a place, and four gate ends, mentions or marks from there on;
//! - `11`, `12`, `13`: how many, and a pattern for all of them, ends, mentions or marks: entry `i` is
//!   (start + i * step) / 2, taken modulo the last field where that is not 0.
//!
//! Then it is given slots, `20` pooled or `21` one to a wire: wires, gates, mentions, and the length and
//! the peak that the Rust answers. Then the slots that the Rust assigns:
//! - `31` to `34`: a place, and one to four slots from there on;
//! - `3f`: how many, and a checksum of all of them, high half and low (`checksum`).

use super::{Lines, List, checksum};
use crate::{Rust, numbers::Numbers};

/// A gate list: the gates' mentions, and a mark for each wire.
struct Gates {
    gates: Vec<Vec<u32>>,
    marks: Vec<u8>,
}

pub fn list(rust: &dyn Rust, seed: u64) -> List {
    let mut numbers = Numbers::new(seed);
    let mut lines = Lines::new(8);

    // Document 01's.
    for gates in [
        &[&[0][..], &[0, 1], &[1, 2], &[2]][..],
        &[&[1, 0], &[2]],
        &[&[0]],
        &[],
        &[&[]],
    ] {
        let gates: Vec<Vec<u32>> = gates.iter().map(|gate| gate.to_vec()).collect();
        let wires = gates.iter().flatten().max().map_or(0, |&wire| wire + 1);
        put(
            &mut lines,
            rust,
            &Gates {
                gates,
                marks: vec![1; wires as usize],
            },
        );
    }

    for _ in 0..70 {
        put(&mut lines, rust, &any_gates(&mut numbers));
    }

    // The most of everything. Gate g mentions wires g and g + 1, the last the last wire and the first;
    // then two gates that mention every wire each.
    let chain = [(4, 4, 0), (1, 1, 8192), (2, 0, 0)];
    let two = [(16384, 16384, 0), (0, 2, 8192), (2, 0, 0)];
    put_most(&mut lines, rust, 8192, chain);
    put_most(&mut lines, rust, 2, two);

    lines.list("scratch_answers")
}

/// Wires that no gate mentions, unmarked ones, marks other than 1, empty gates, a wire mentioned again
/// in one gate.
fn any_gates(numbers: &mut Numbers) -> Gates {
    let wires = numbers.below(20);
    let marks = (0..wires)
        .map(|_| numbers.pick(&[0, 1, 1, 1, 2, 128, 255]))
        .collect();
    let gates = if wires == 0 { 0 } else { numbers.below(12) };
    // Some gate lists keep to few wires at a time, so that slots come free.
    let reach = 1 + numbers.below(wires.max(1));
    let gates = (0..gates).map(|g| {
        let mentions = numbers.below(6);
        let first = g * wires / gates.max(1);
        (0..mentions)
            .map(|_| ((first + numbers.below(reach)) % wires) as u32)
            .collect()
    });
    Gates {
        gates: gates.collect(),
        marks,
    }
}

fn put(lines: &mut Lines, rust: &dyn Rust, list: &Gates) {
    let mentions: Vec<u32> = list.gates.concat();
    let ends: Vec<u32> = list
        .gates
        .iter()
        .scan(0, |end, gate| {
            *end += gate.len() as u32;
            Some(*end)
        })
        .collect();
    let marks: Vec<u32> = list.marks.iter().map(|&mark| mark.into()).collect();
    for (code, entries) in [(0x01, &ends), (0x02, &mentions), (0x03, &marks)] {
        for (at, four) in (0..).zip(entries.chunks(4)) {
            let entry = |i| u64::from(four.get(i).copied().unwrap_or(0));
            lines.line(code, [4 * at, entry(0), entry(1), entry(2), entry(3)]);
        }
    }
    for per_wire in [false, true] {
        let slots = put_answer(lines, rust, &ends, &mentions, &list.marks, per_wire);
        for (at, four) in (0..).zip(slots.chunks(4)) {
            let slot = |i| u64::from(four.get(i).copied().unwrap_or(0));
            let code = 0x30 + four.len() as u8;
            lines.case("slots", code, [4 * at, slot(0), slot(1), slot(2), slot(3)]);
        }
    }
}

/// A gate list of 8,192 wires and 16,384 mentions, by patterns: start, step and modulus of ends,
/// mentions and marks.
fn put_most(lines: &mut Lines, rust: &dyn Rust, gates: u64, patterns: [(u64, u64, u64); 3]) {
    let mut entries = Vec::new();
    for (code, (count, (start, step, modulus))) in
        (0x11..).zip([gates, 16384, 8192].into_iter().zip(patterns))
    {
        lines.line(code, [count, start, step, modulus, 0]);
        let entry = |i| {
            let plain = (start + i * step) / 2;
            (if modulus == 0 { plain } else { plain % modulus }) as u32
        };
        entries.push((0..count).map(entry).collect::<Vec<u32>>());
    }
    let marks: Vec<u8> = entries[2].iter().map(|&mark| mark as u8).collect();
    for per_wire in [false, true] {
        let slots = put_answer(lines, rust, &entries[0], &entries[1], &marks, per_wire);
        let sum = checksum(slots.iter().map(|&slot| slot.into()));
        lines.case(
            "slots",
            0x3f,
            [slots.len() as u64, sum >> 32, sum & 0xffff_ffff, 0, 0],
        );
    }
}

fn put_answer(
    lines: &mut Lines,
    rust: &dyn Rust,
    ends: &[u32],
    mentions: &[u32],
    marks: &[u8],
    per_wire: bool,
) -> Vec<u32> {
    let answer = rust.pool(ends, mentions, marks, per_wire);
    let sizes = [
        marks.len(),
        ends.len(),
        mentions.len(),
        answer.length,
        answer.peak,
    ];
    let (title, code) = if per_wire {
        ("PerWire", 0x21)
    } else {
        ("Pooled", 0x20)
    };
    lines.case(title, code, sizes.map(|size| size as u64));
    answer.slots
}
