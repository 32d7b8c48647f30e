//! The random cases, by kind.

use crate::damage::Anatomy;
use crate::judge::{Difference, Judge, Ran};
use crate::programs::{program, values, Wish};
use crate::subject::{Gates, Shape};
use oracle::numbers::Numbers;
use reading::layout::encode_all;

#[derive(Clone, Copy, Debug, PartialEq, Eq)]
pub enum Kind {
    /// An accepted program over one stripe.
    Filled,
    /// An accepted program over a batch that is cut anywhere, its stripes filled, raised and joined in any order.
    Striped,
    /// A program with one to three random damages, checked and run.
    Damaged,
    /// Shapes, caps, buffers and programs of which several may be broken at once.
    Shaped,
    /// Words of any making, raised and joined.
    Joined,
    /// Gate lists that are accepted, under either policy.
    Slotted,
    /// Gate lists and buffers of which several may be broken at once.
    Gated,
}

impl Kind {
    pub const ALL: [Kind; 7] =
        [Kind::Filled, Kind::Striped, Kind::Damaged, Kind::Shaped, Kind::Joined, Kind::Slotted, Kind::Gated];
}

/// What the cases came to, so that a test can see that they were not all of one sort.
#[derive(Clone, Copy, Debug, Default, PartialEq, Eq)]
pub struct Tally {
    pub cases: u64,
    pub clean: u64,
    pub failing: u64,
    /// Failing at another column than the stripe's first.
    pub failing_later: u64,
    /// With more violations than the cap.
    pub over_the_cap: u64,
    /// With more violations than the given Rust keeps.
    pub over_the_rusts_cap: u64,
    /// Answers by their refusal number; accepted is 0, and 15 are words of no answer that were handed back.
    pub refusals: [u64; 16],
}

impl Tally {
    fn note(&mut self, answer: u64) {
        self.refusals[(answer % 256).min(15) as usize] += 1;
    }

    fn note_run(&mut self, answer: u64, cap: usize) {
        self.note(answer);
        if answer % 256 != 0 {
            return;
        }
        if answer == 0 {
            self.clean += 1;
            return;
        }
        let (position, total) = (answer >> 9 & 0xFFF, answer >> 30 & 0xFFFF);
        self.failing += 1;
        self.failing_later += u64::from(position > 0);
        self.over_the_cap += u64::from(total > cap as u64);
        self.over_the_rusts_cap += u64::from(total > oracle::KEPT as u64);
    }

    pub fn add(&mut self, other: &Tally) {
        self.cases += other.cases;
        self.clean += other.clean;
        self.failing += other.failing;
        self.failing_later += other.failing_later;
        self.over_the_cap += other.over_the_cap;
        self.over_the_rusts_cap += other.over_the_rusts_cap;
        for (sum, more) in self.refusals.iter_mut().zip(other.refusals) {
            *sum += more;
        }
    }
}

/// The case of that kind with that number, by the seed.
pub fn case(judge: &Judge, kind: Kind, seed: u64, number: u64, tally: &mut Tally) -> Result<(), Difference> {
    let mut numbers = Numbers::new(seed);
    let mixed = numbers.word() ^ number.wrapping_mul(0xD134_2543_DE82_EF95).wrapping_add(kind as u64);
    let mut numbers = Numbers::new(mixed);
    tally.cases += 1;
    let done = match kind {
        Kind::Filled => filled(judge, &mut numbers, tally),
        Kind::Striped => striped(judge, &mut numbers, tally),
        Kind::Damaged => damaged(judge, &mut numbers, tally),
        Kind::Shaped => shaped(judge, &mut numbers, tally),
        Kind::Joined => joined(judge, &mut numbers, tally),
        Kind::Slotted => slotted(judge, &mut numbers, tally),
        Kind::Gated => gated(judge, &mut numbers, tally),
    };
    done.map_err(|difference| format!("{kind:?}, seed {seed}, case {number}: {difference}"))
}

/// The cases of a kind from number 0 on.
pub fn cases(judge: &Judge, kind: Kind, seed: u64, count: u64) -> Result<Tally, Difference> {
    let mut tally = Tally::default();
    for number in 0..count {
        case(judge, kind, seed, number, &mut tally)?;
    }
    Ok(tally)
}

fn below(numbers: &mut Numbers, n: usize) -> usize {
    numbers.below(n as u64) as usize
}

/// A number up to `most`, often at one of its ends, and mostly small.
fn size(numbers: &mut Numbers, small: usize, most: usize) -> usize {
    match numbers.below(32) {
        0 => most,
        1 => below(numbers, most + 1),
        2 => 0,
        _ => below(numbers, small + 1),
    }
}

fn cap(numbers: &mut Numbers) -> usize {
    match numbers.below(4) {
        0 => numbers.pick(&[0, 1, 99, 100, 101, 255, 256]),
        1 => below(numbers, 257),
        _ => below(numbers, 5),
    }
}

fn random_wish(numbers: &mut Numbers, rows: usize) -> Wish {
    // Now and then so many assertions that one column violates more than any cap keeps.
    let (instructions, assertions) = match numbers.below(256) {
        0 => (700, 15),
        1..=4 => (300, 14),
        _ => (below(numbers, 25), numbers.pick(&[0, 1, 1, 2, 4, 8, 16])),
    };
    Wish { rows, instructions, assertions }
}

fn buffer(numbers: &mut Numbers, words: usize) -> Vec<u64> {
    let salt = numbers.word();
    (0..words as u64).map(|place| salt ^ place).collect()
}

/// Rows, width and a program of a batch; large in one of the two at most.
fn random_batch(numbers: &mut Numbers) -> (usize, usize, Vec<u8>) {
    let (rows, width) = match numbers.below(1_024) {
        0 => (below(numbers, 8) + 1, 4_096 - below(numbers, 2)),
        1 => (8_192 - below(numbers, 2), below(numbers, 3)),
        2..=31 => (below(numbers, 30), 0),
        32..=99 => (below(numbers, 4) + 1, below(numbers, 70)),
        _ => (below(numbers, 20) + 1, below(numbers, 10) + 1),
    };
    let wish = random_wish(numbers, rows);
    // Wide batches take fewer instructions: the time of a case stays within bounds.
    let instructions = if width > 1_000 { wish.instructions.min(12) } else { wish.instructions };
    let code = encode_all(&program(numbers, Wish { instructions, ..wish }));
    (rows, width, code)
}

fn filled(judge: &Judge, numbers: &mut Numbers, tally: &mut Tally) -> Result<(), Difference> {
    let (rows, width, code) = random_batch(numbers);
    let first = below(numbers, width + 1);
    let count = below(numbers, width - first + 1);
    let (first, count) = if numbers.once_in(2) { (0, width) } else { (first, count) };
    let cap = cap(numbers);
    let words = values(numbers, rows, width);
    let report = buffer(numbers, 3 * cap);
    judge.check(&code, rows)?;
    let ran = judge.run(&code, Shape { rows, width, first, count, cap }, &words, &report)?;
    if ran.answer % 256 != 0 {
        return Err(format!("an accepted program was refused: {:#x}", ran.answer));
    }
    tally.note_run(ran.answer, cap);
    Ok(())
}

/// Demand 3: any cut, any order of the runs, any order and any bracketing of the joins.
fn striped(judge: &Judge, numbers: &mut Numbers, tally: &mut Tally) -> Result<(), Difference> {
    let (rows, width, code) = random_batch(numbers);
    let cap = cap(numbers);
    let start = values(numbers, rows, width);
    let mut cuts: Vec<usize> = (0..below(numbers, 6)).map(|_| below(numbers, width + 1)).collect();
    cuts.extend([0, width]);
    cuts.sort_unstable();
    let mut stripes: Vec<(usize, usize)> = cuts.windows(2).map(|pair| (pair[0], pair[1] - pair[0])).collect();
    // in any order
    for place in (1..stripes.len()).rev() {
        stripes.swap(place, below(numbers, place + 1));
    }
    let mut now = start.clone();
    let mut reports: Vec<(u64, Vec<u64>)> = Vec::new();
    for &(first, count) in &stripes {
        let report = buffer(numbers, 3 * cap);
        let ran = judge.run(&code, Shape { rows, width, first, count, cap }, &now, &report)?;
        now = ran.values;
        let raised = judge.raise(first, ran.answer)?;
        if raised % 256 != 0 {
            return Err(format!("raising {:#x} by {first} was refused: {raised:#x}", ran.answer));
        }
        reports.push((raised, ran.report));
    }
    // any two, in any order, until one is left: every bracketing can come of it
    while reports.len() > 1 {
        let (left_word, left_records) = reports.swap_remove(below(numbers, reports.len()));
        let (right_word, right_records) = reports.swap_remove(below(numbers, reports.len()));
        let joined = judge.join(left_word, right_word)?;
        let records = match joined >> 46 & 3 {
            2 => right_records,
            _ => left_records,
        };
        reports.push((joined, records));
    }
    let (joined, records) = reports.pop().unwrap_or((0, Vec::new()));
    let whole = Shape { rows, width, first: 0, count: width, cap };
    let Ran { answer, values: whole_values, report: whole_report } =
        judge.run(&code, whole, &start, &buffer(numbers, 3 * cap))?;
    if now != whole_values {
        return Err(format!("stripes {stripes:?} leave other words than the whole batch, {code:02x?}"));
    }
    // the sides were of the joins alone
    let head = joined & !(3 << 46);
    if head != answer {
        return Err(format!("stripes {stripes:?} join to {joined:#x}, and the whole is {answer:#x}, {code:02x?}"));
    }
    let kept = 3 * (answer >> 21 & 0x1FF) as usize;
    if records.get(..kept) != whole_report.get(..kept) {
        return Err(format!("stripes {stripes:?} keep other records than the whole batch, {code:02x?}"));
    }
    tally.note_run(answer, cap);
    for _ in 0..width.min(2) {
        let column = below(numbers, width);
        let of = |array: &[u64]| (0..rows).map(|row| array[row * width + column]).collect::<Vec<u64>>();
        judge.column(&code, &of(&start), &of(&now))?;
    }
    Ok(())
}

/// What a damaged field may become.
fn damaged_field(numbers: &mut Numbers, rows: usize) -> u32 {
    match numbers.below(4) {
        0 => numbers.pick(&[0, 1, 2, 3, 8, 9, u32::MAX, u32::MAX - 1, 1 << 30, 1 << 31]),
        1 => (rows as u32).wrapping_sub(1).wrapping_add(numbers.below(3) as u32),
        2 => numbers.below(16) as u32,
        _ => numbers.word() as u32,
    }
}

/// Writes a field at one of the places that the code still has.
fn put(numbers: &mut Numbers, code: &mut [u8], places: &[usize], field: u32) {
    if !places.is_empty() {
        let at = numbers.pick(places);
        if let Some(bytes) = code.get_mut(at..at + 4) {
            bytes.copy_from_slice(&field.to_le_bytes());
        }
    }
}

const OPCODES: [u8; 14] = [0x00, 0x01, 0x06, 0x10, 0x21, 0x30, 0x31, 0x40, 0x46, 0x60, 0x65, 0x66, 0x80, 0x81];

fn damaged(judge: &Judge, numbers: &mut Numbers, tally: &mut Tally) -> Result<(), Difference> {
    let rows = 1 + below(numbers, 12);
    let instructions = 1 + below(numbers, 12);
    let made = program(numbers, Wish { rows, instructions, assertions: 4 });
    let anatomy = Anatomy::of(&made);
    let mut code = anatomy.code.clone();
    for _ in 0..1 + below(numbers, 3) {
        if code.is_empty() {
            break;
        }
        let somewhere = below(numbers, code.len());
        let field = damaged_field(numbers, rows);
        match numbers.below(8) {
            0 => code.truncate(somewhere),
            1 => code[somewhere] = numbers.word() as u8,
            2 => code[somewhere] ^= 1 << numbers.below(8),
            3 => {
                let at = numbers.pick(&anatomy.opcodes).min(code.len() - 1);
                code[at] = numbers.pick(&OPCODES);
            }
            4 => put(numbers, &mut code, &anatomy.counts, field),
            5 => put(numbers, &mut code, &anatomy.others, field),
            6 => put(numbers, &mut code, &anatomy.registers, field),
            _ => drop(code.remove(somewhere)),
        }
    }
    judge.check(&code, rows)?;
    let width = below(numbers, 3) + 1;
    let cap = below(numbers, 3);
    let words = values(numbers, rows, width);
    let report = buffer(numbers, 3 * cap);
    let ran = judge.run(&code, Shape { rows, width, first: 0, count: width, cap }, &words, &report)?;
    tally.note_run(ran.answer, cap);
    Ok(())
}

/// A number that may be over its limit, or far over it.
fn near(numbers: &mut Numbers, right: usize, limit: usize) -> usize {
    match numbers.below(12) {
        0 => limit,
        1 => limit + 1,
        2 => right.wrapping_add(1),
        3 => right.wrapping_sub(1),
        4 => numbers.pick(&[usize::MAX, usize::MAX - 1, 1 << 63, 1 << 32, (1 << 32) + 1]),
        _ => right,
    }
}

fn shaped(judge: &Judge, numbers: &mut Numbers, tally: &mut Tally) -> Result<(), Difference> {
    let (right_rows, right_width) = (below(numbers, 4), below(numbers, 4));
    let instructions = below(numbers, 3);
    let mut code = encode_all(&program(numbers, Wish { rows: right_rows, instructions, assertions: 8 }));
    match numbers.below(16) {
        0 => code.resize(65_536, 0x63),
        1 => code.resize(65_537, 0x63),
        2 => code.push(0x31),
        _ => {}
    }
    let words = near(numbers, right_rows * right_width, 12).min(1 << 8);
    let right_cap = below(numbers, 3);
    let rows = near(numbers, right_rows, 8_192);
    let width = near(numbers, right_width, 4_096);
    let first = below(numbers, right_width + 1);
    let count = near(numbers, right_width - first, 4_096);
    let first = near(numbers, first, 4_096);
    let cap = near(numbers, right_cap, 256);
    let report_words = if numbers.once_in(8) { near(numbers, 3 * right_cap, 768) } else { cap.saturating_mul(3) };
    let values: Vec<u64> = (0..words).map(|_| numbers.any_word()).collect();
    let report = buffer(numbers, report_words.min(1 << 12));
    judge.check(&code, rows)?;
    let ran = judge.run(&code, Shape { rows, width, first, count, cap }, &values, &report)?;
    tally.note_run(ran.answer, cap);
    Ok(())
}

/// A word for raising and joining: a report, a refusal, or any.
fn any_report(numbers: &mut Numbers) -> u64 {
    match numbers.below(8) {
        0 => 0,
        1 => numbers.word(),
        2 => 1 + numbers.below(14) + (numbers.below(65_536) << 8),
        3 => numbers.word() & !0xFF,
        _ => {
            let position = if numbers.once_in(2) { numbers.below(4) } else { numbers.below(4_096) };
            let side = numbers.below(3);
            256 + 512 * position + (numbers.below(257) << 21) + (numbers.below(7_282) << 30) + (side << 46)
        }
    }
}

fn joined(judge: &Judge, numbers: &mut Numbers, tally: &mut Tally) -> Result<(), Difference> {
    for _ in 0..8 {
        let (left, right) = (any_report(numbers), any_report(numbers));
        tally.note(judge.join(left, right)?);
        let position = (left >> 9 & 0xFFF) as usize;
        let start = match numbers.below(6) {
            0 => 4_095usize.wrapping_sub(position).wrapping_add(below(numbers, 3)).wrapping_sub(1),
            1 => numbers.word() as usize,
            2 => usize::MAX - below(numbers, 4_097),
            _ => below(numbers, 4_097),
        };
        tally.note(judge.raise(start, left)?);
    }
    Ok(())
}

/// Gate ends, mentions and marks of a list that is accepted.
fn random_gates(numbers: &mut Numbers) -> (usize, Vec<u32>, Vec<u32>, Vec<u8>) {
    let large = numbers.once_in(512);
    let wires = if large { size(numbers, 8_192, 8_192) } else { below(numbers, 24) };
    let gates = if large { size(numbers, 8_192, 8_192) } else { below(numbers, 24) };
    // A wire is mentioned near the others of its time, so that spans are short and slots are used again.
    let reach = 1 + below(numbers, wires.max(1));
    let mut mentions = Vec::new();
    let mut ends = Vec::with_capacity(gates);
    for gate in 0..gates {
        for _ in 0..below(numbers, 5) {
            if wires > 0 && mentions.len() < 16_384 {
                let wire =
                    if numbers.once_in(8) { below(numbers, wires) } else { (gate + below(numbers, reach)) % wires };
                mentions.push(wire as u32);
            }
        }
        ends.push(mentions.len() as u32);
    }
    let scratch = numbers.pick(&[1, 8, 15, 16]);
    let mark = |numbers: &mut Numbers| {
        let any = 1 + numbers.below(255) as u8;
        if numbers.below(16) < scratch {
            any
        } else {
            0
        }
    };
    let marks = (0..wires).map(|_| mark(numbers)).collect();
    (wires, ends, mentions, marks)
}

fn slotted(judge: &Judge, numbers: &mut Numbers, tally: &mut Tally) -> Result<(), Difference> {
    let (wires, ends, mentions, marks) = random_gates(numbers);
    for per_wire in [false, true] {
        let slots: Vec<u32> = (0..wires).map(|_| numbers.word() as u32).collect();
        let gates = Gates { wires, ends: &ends, mentions: &mentions, marks: &marks, per_wire };
        let answer = judge.pool(gates, &slots)?;
        if answer % 256 != 0 {
            return Err(format!("an accepted gate list was refused: {gates:?}"));
        }
        if !per_wire && answer >> 8 & 0xFFFF != answer >> 24 & 0xFFFF {
            return Err(format!("the pooled length is not the peak: {answer:#x} of {gates:?}"));
        }
        tally.note(answer);
    }
    Ok(())
}

fn gated(judge: &Judge, numbers: &mut Numbers, tally: &mut Tally) -> Result<(), Difference> {
    let (mut wires, mut ends, mut mentions, mut marks) = random_gates(numbers);
    let mut slots: Vec<u32> = (0..wires).map(|_| numbers.word() as u32).collect();
    for _ in 0..below(numbers, 3) {
        match numbers.below(10) {
            0 => wires = near(numbers, wires, 8_192),
            1 => marks.push(1),
            2 => slots.push(7),
            3 => {
                marks.pop();
            }
            4 => {
                slots.pop();
            }
            5 => mentions.push(numbers.pick(&[0, wires as u32, u32::MAX])),
            6 => {
                ends.pop();
            }
            7 => ends.push(numbers.pick(&[0, mentions.len() as u32, mentions.len() as u32 + 1, u32::MAX])),
            8 => {
                if !ends.is_empty() {
                    let at = below(numbers, ends.len());
                    ends[at] = ends[at].wrapping_add(numbers.pick(&[1, u32::MAX]));
                }
            }
            _ => {
                if !mentions.is_empty() {
                    let at = below(numbers, mentions.len());
                    mentions[at] = numbers.pick(&[wires as u32, (wires as u32).wrapping_sub(1), u32::MAX]);
                }
            }
        }
    }
    // the sizes themselves, each one over
    match numbers.below(64) {
        0 => {
            wires = 8_193;
            marks.resize(wires, 1);
            slots.resize(wires, 1);
        }
        1 => ends = vec![ends.last().copied().unwrap_or(0); 8_193],
        2 => {
            mentions = vec![0; 16_385];
            ends = vec![16_385];
        }
        _ => {}
    }
    let per_wire = numbers.once_in(2);
    let gates = Gates { wires, ends: &ends, mentions: &mentions, marks: &marks, per_wire };
    tally.note(judge.pool(gates, &slots)?);
    Ok(())
}

/// Every damage of every kind to one program, checked and run; the answer is how many programs they were.
pub fn every_damage(judge: &Judge, rows: usize, anatomy: &Anatomy, tally: &mut Tally) -> Result<usize, Difference> {
    const WIDTH: usize = 2;
    let words: Vec<u64> = (0..rows * WIDTH).map(|place| (place as u64).wrapping_mul(0x9E37_79B9_7F4A_7C15)).collect();
    let shape = Shape { rows, width: WIDTH, first: 0, count: WIDTH, cap: 1 };
    let mut found = None;
    let count = anatomy.every_damage(rows, |code| {
        if found.is_some() {
            return;
        }
        let compared = judge.check(code, rows).and_then(|()| judge.run(code, shape, &words, &[5; 3]));
        match compared {
            Ok(ran) => tally.note_run(ran.answer, shape.cap),
            Err(difference) => found = Some(difference),
        }
    });
    found.map_or(Ok(count), Err)
}
