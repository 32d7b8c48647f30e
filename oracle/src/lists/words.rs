//! Word rules: each answer is what exec.rs leaves behind a program of one instruction, over one
//! column by itself and over the middle one of three; for sums, differences and products word.rs is
//! asked directly, too.
//!
//! Code: the opcode, 81 to 83 for hints 1 to 3, or 00. Fields, of sixteen digits: three operands, two
//! answers. An
//! assertion's answer is 1 where it fails. `00` puts two words into a list at a place (place, word,
//! word). `06` has the number of sources for its operand, the first words of that list; `83` has the
//! number of inputs, likewise, and the number of the output that the answer is.

use super::{Lines, List};
use crate::{
    Call, Rust,
    numbers::{LIMITS, Numbers},
};

/// Bit positions at which every triple of bits is added and subtracted.
const POSITIONS: [u32; 11] = [0, 1, 2, 7, 15, 31, 32, 33, 47, 62, 63];

/// The same for the sum of a half, whose lowest bit is 0.
const HALF_POSITIONS: [u32; 5] = [0, 1, 15, 30, 31];

/// The low half of a word.
const LOW_HALF: u64 = 0xffff_ffff;

/// The top bits of the halves: the carries in.
const TOPS: u64 = 0x8000_0000_8000_0000;

/// How many words the list of sources and inputs holds.
const SOURCES: usize = 64;

pub fn list(rust: &dyn Rust, seed: u64) -> List {
    let mut numbers = Numbers::new(seed);
    let mut lines = Lines::new(16);
    let ask = |call: &Call, sources: &[u64], answers| run_one(rust, call, sources, answers);

    type Binary = (&'static str, u8, fn([u32; 3]) -> Call);
    let binary: [Binary; 4] = [
        ("Band", 0x01, Call::Band),
        ("Bor", 0x02, Call::Bor),
        ("Bxor", 0x03, Call::Bxor),
        ("IaddCarry", 0x22, Call::IaddCarry),
    ];
    for (title, code, call) in binary {
        for [a, b] in pairs(&mut numbers) {
            let answer = ask(&call([0, 1, 2]), &[a, b], 1)[0];
            if code == 0x22 {
                assert_eq!(answer, rust.add(a, b, 0)[1]);
            }
            lines.case(title, code, [a, b, 0, answer, 0]);
        }
    }

    type Ternary = (&'static str, u8, fn([u32; 4]) -> Call);
    let ternary: [Ternary; 2] = [("Select", 0x05, Call::Select), ("Fax", 0x07, Call::Fax)];
    for (title, code, call) in ternary {
        for [a, b] in pairs(&mut numbers) {
            let c = numbers.any_word();
            let answer = ask(&call([0, 1, 2, 3]), &[a, b, c], 1)[0];
            lines.case(title, code, [a, b, c, answer, 0]);
        }
    }

    for round in 0..2 {
        let sources = put_sources(&mut lines, &mut numbers);
        for n in 0..=SOURCES {
            // Sources stand in the order of their registers in one round, against it in the other.
            let mut registers: Vec<u32> = (1..=n as u32).collect();
            if round == 1 {
                registers.reverse();
            }
            let answer = ask(&Call::BxorMulti(0, registers), &sources[..n], 1)[0];
            lines.case("BxorMulti", 0x06, [n as u64, 0, 0, answer, 0]);
        }
    }

    for [a, b, c] in carried(&mut numbers, sum_at) {
        let answers = ask(&Call::IaddCinCout([0, 1, 2, 3, 4]), &[a, b, c], 2);
        assert_eq!(answers, rust.add(a, b, c >> 63));
        lines.case("IaddCinCout", 0x21, [a, b, c, answers[0], answers[1]]);
    }

    for [a, b, c] in carried(&mut numbers, difference_at) {
        let answers = ask(&Call::IsubBinBout([0, 1, 2, 3, 4]), &[a, b, c], 2);
        assert_eq!(answers, rust.subtract(a, b, c >> 63));
        lines.case("IsubBinBout", 0x23, [a, b, c, answers[0], answers[1]]);
    }

    for [a, b] in pairs(&mut numbers) {
        let answers = ask(&Call::Imul([0, 1, 2, 3]), &[a, b], 2);
        assert_eq!(answers, rust.multiply(a, b));
        lines.case("Imul", 0x30, [a, b, 0, answers[0], answers[1]]);
    }

    for [a, b, c] in carried_halves(&mut numbers) {
        let answers = ask(&Call::Iadd32CinCout([0, 1, 2, 3, 4]), &[a, b, c], 2);
        assert_eq!(answers, rust.add_halves(a, b, c));
        lines.case("Iadd32CinCout", 0x40, [a, b, c, answers[0], answers[1]]);
    }

    for [a, b] in bare_halves(&mut numbers) {
        let answers = ask(&Call::Iadd32Cout([0, 1, 2, 3]), &[a, b], 2);
        assert_eq!(answers, rust.add_bare_halves(a, b));
        assert_eq!(answers, rust.add_halves(a, b, 0));
        lines.case("Iadd32Cout", 0x46, [a, b, 0, answers[0], answers[1]]);
    }

    for [a, b] in pairs(&mut numbers) {
        let fails = fails(rust, &Call::AssertEq([0, 1, 0]), &[a, b], [a, b]);
        lines.case("AssertEq", 0x60, [a, b, 0, fails, 0]);
    }
    for [a, b] in pairs(&mut numbers) {
        // Armed and not, equal and not.
        let cond = numbers.any_word();
        let b = if numbers.once_in(3) { a } else { b };
        let fails = fails(
            rust,
            &Call::AssertEqCond([0, 1, 2, 0]),
            &[cond, a, b],
            [a, b],
        );
        lines.case("AssertEqCond", 0x61, [cond, a, b, fails, 0]);
    }
    type OfOne = (&'static str, u8, fn([u32; 2]) -> Call);
    let of_one: [OfOne; 4] = [
        ("AssertZero", 0x62, Call::AssertZero),
        ("AssertNonZero", 0x63, Call::AssertNonZero),
        ("AssertFalse", 0x64, Call::AssertFalse),
        ("AssertTrue", 0x65, Call::AssertTrue),
    ];
    for (title, code, call) in of_one {
        for v in singles(&mut numbers) {
            let fails = fails(rust, &call([0, 0]), &[v], [v, 0]);
            lines.case(title, code, [v, 0, 0, fails, 0]);
        }
    }

    let hint = |id, dimensions: &[u64], inputs: u32, outputs: u32| Call::Hint {
        id,
        dimensions: dimensions.to_vec(),
        inputs: (outputs..outputs + inputs).collect(),
        outputs: (0..outputs).collect(),
    };
    for [a, b] in pairs(&mut numbers) {
        let answers = ask(&hint(1, &[], 2, 2), &[a, b], 2);
        lines.case("hint 1", 0x81, [a, b, 0, answers[0], answers[1]]);
    }
    let ones = (0..64).map(|i| u64::MAX >> i);
    for v in singles(&mut numbers).into_iter().chain(ones) {
        let answer = ask(&hint(2, &[], 1, 1), &[v], 1)[0];
        lines.case("hint 2", 0x82, [v, 0, 0, answer, 0]);
    }
    let inputs = put_sources(&mut lines, &mut numbers);
    for k in 1..=8 {
        let answers = ask(
            &hint(3, &[k.into()], k, k),
            &inputs[..k as usize],
            k as usize,
        );
        for (j, answer) in answers.into_iter().enumerate() {
            lines.case("hint 3", 0x83, [k.into(), j as u64, 0, answer, 0]);
        }
    }

    lines.list("word_answers")
}

/// What one instruction with `answers` destinations, registers 0 and up, leaves in them, with its
/// sources in the registers after those.
fn run_one(rust: &dyn Rust, call: &Call, sources: &[u64], answers: usize) -> Vec<u64> {
    let (code, count) = rust.emit(std::slice::from_ref(call));
    assert_eq!(count, 1);
    // What a destination held before must not show.
    let mut alone = vec![0x5a5a_5a5a_5a5a_5a5a; answers];
    alone.extend_from_slice(sources);
    let mut batch: Vec<u64> = alone.iter().flat_map(|&word| [!word, word, 7]).collect();
    let mut failures = rust.run_column(&code, &mut alone);
    let failing = rust.run(&code, 3, 1, 1, &mut batch);
    assert_eq!(
        failing.map_or(Vec::new(), |failing| failing.failures),
        failures
    );
    let middle: Vec<u64> = batch.iter().skip(1).step_by(3).copied().collect();
    assert_eq!(middle, alone);
    if answers == 0 {
        // An assertion: its words, where it fails.
        return failures
            .pop()
            .map_or(Vec::new(), |failure| failure.words.to_vec());
    }
    alone.truncate(answers);
    alone
}

/// 1 where the assertion fails; then the Rust told just these words.
fn fails(rust: &dyn Rust, call: &Call, sources: &[u64], told: [u64; 2]) -> u64 {
    let words = run_one(rust, call, sources, 0);
    assert!(words.is_empty() || words == told);
    u64::from(!words.is_empty())
}

fn put_sources(lines: &mut Lines, numbers: &mut Numbers) -> Vec<u64> {
    let sources: Vec<u64> = (0..SOURCES).map(|_| numbers.any_word()).collect();
    for (i, two) in sources.chunks(2).enumerate() {
        lines.line(0x00, [2 * i as u64, two[0], two[1], 0, 0]);
    }
    sources
}

/// Every pair of limits, and others.
fn pairs(numbers: &mut Numbers) -> Vec<[u64; 2]> {
    let mut pairs: Vec<[u64; 2]> = LIMITS
        .iter()
        .flat_map(|&a| LIMITS.map(|b| [a, b]))
        .collect();
    pairs.extend((0..40).map(|_| [numbers.any_word(), numbers.any_word()]));
    pairs
}

/// Every limit, every single bit, and others.
fn singles(numbers: &mut Numbers) -> Vec<u64> {
    let mut singles = LIMITS.to_vec();
    singles.extend((0..64).map(|i| 1 << i));
    singles.extend((0..26).map(|_| numbers.any_word()));
    singles
}

/// Every pair of limits with and without a carry in, every triple of bits at the chosen positions, and
/// others. `at` makes the two operands of a triple.
fn carried(
    numbers: &mut Numbers,
    at: fn(&mut Numbers, u32, [u64; 3]) -> [u64; 2],
) -> Vec<[u64; 3]> {
    let mut cases = Vec::new();
    for [a, b] in pairs(numbers) {
        // The carry in is bit 63 of its word, and no other bit of it counts.
        cases.push([a, b, numbers.word() >> 1]);
        cases.push([a, b, numbers.word() | 1 << 63]);
    }
    for i in POSITIONS {
        for triple in 0..8 {
            let bits = [triple & 1, triple >> 1 & 1, triple >> 2];
            let [a, b] = at(numbers, i, bits);
            let carry = if i == 0 { bits[2] << 63 } else { 0 };
            cases.push([a, b, carry]);
        }
    }
    cases
}

/// Every pair of limits with every choice of the two carries in, every limit and single bit as the word
/// of the carries in, what [`bare_halves`] has besides pairs, and others.
fn carried_halves(numbers: &mut Numbers) -> Vec<[u64; 3]> {
    let mut cases = Vec::new();
    for [a, b] in pairs(numbers) {
        for tops in [0, 1 << 31, 1 << 63, TOPS] {
            // The carry in of a half is its top bit, and no other bit of the word counts.
            cases.push([a, b, numbers.word() & !TOPS | tops]);
        }
    }
    // A carry into all ones goes through the whole half.
    cases.extend(singles(numbers).into_iter().map(|c| [u64::MAX, 0, c]));
    cases.extend(half_triples(numbers));
    cases.extend(half_bits().map(|[a, b]| [a, b, 0]));
    cases
}

/// Every pair of limits, every triple of bits at the chosen positions of each half, single bits, and
/// others.
fn bare_halves(numbers: &mut Numbers) -> Vec<[u64; 2]> {
    let mut cases = pairs(numbers);
    cases.extend(half_triples(numbers).into_iter().map(|[a, b, _]| [a, b]));
    cases.extend(half_bits());
    cases
}

/// Every single bit twice, which carries out of it alone, and beside all ones, which carries on up to
/// the top of its half.
fn half_bits() -> impl Iterator<Item = [u64; 2]> {
    (0..64).flat_map(|i| [1 << i, u64::MAX].map(|a| [a, 1 << i]))
}

/// Every triple of bits at the chosen positions of each half; the other half has random bits.
fn half_triples(numbers: &mut Numbers) -> Vec<[u64; 3]> {
    let mut cases = Vec::new();
    for place in [0, 32] {
        for i in HALF_POSITIONS {
            for triple in 0..8 {
                let bits = [triple & 1, triple >> 1 & 1, triple >> 2];
                let [a, b] = sum_at(numbers, i, bits);
                let carry = if i == 0 { bits[2] << 31 } else { 0 };
                cases.push([a, b, carry].map(|half| {
                    let other = numbers.word() & !(LOW_HALF << place);
                    (half & LOW_HALF) << place | other
                }));
            }
        }
    }
    cases
}

/// Operands whose bits `i` are the first two of the triple, and whose lower bits carry the third.
fn sum_at(numbers: &mut Numbers, i: u32, bits: [u64; 3]) -> [u64; 2] {
    let (low_a, low_b) = lower(numbers, i);
    // All ones and at least 1 carry; nothing and something do not.
    let (low_a, low_b) = match bits[2] {
        1 => (low_a, low_b),
        _ => (0, low_b),
    };
    [
        above(numbers, i, bits[0]) | low_a,
        above(numbers, i, bits[1]) | low_b,
    ]
}

/// The same for a difference: nothing less at least 1 borrows, all ones less anything does not.
fn difference_at(numbers: &mut Numbers, i: u32, bits: [u64; 3]) -> [u64; 2] {
    let (all, low_b) = lower(numbers, i);
    let low_a = if bits[2] == 1 { 0 } else { all };
    [
        above(numbers, i, bits[0]) | low_a,
        above(numbers, i, bits[1]) | low_b,
    ]
}

/// All ones below bit `i`, and a number from 1 up to it; for bit 0 there is nothing below.
fn lower(numbers: &mut Numbers, i: u32) -> (u64, u64) {
    let all = (1 << i) - 1;
    (all, if i == 0 { 0 } else { 1 + numbers.below(all) })
}

/// Bit `i`, with random bits above it.
fn above(numbers: &mut Numbers, i: u32, bit: u64) -> u64 {
    let higher = if i == 63 {
        0
    } else {
        numbers.word() << (i + 1)
    };
    higher | bit << i
}
