//! The comparison itself is tried: a stand-in for the library, made of the second reading with one fault planted in it, must
//! be found out by the very cases that the gate runs on the library.

use compare::cases::{cases, Kind};
use compare::subject::{Gates, Shape};
use compare::{Judge, Subject};
use reading::column::run_column;
use reading::layout::{Instruction, Opcode};
use reading::refusals::{Name, Refused};
use reading::reports::Local;
use reading::slots::{Policy, UNSLOTTED};
use reading::words::{add, add_halves, top_bit, top_bits};
use reading::{batch, check, layout, packing, slots};

const SEED: u64 = 19_860_126;

#[derive(Clone, Copy, Debug, PartialEq, Eq)]
enum Fault {
    None,
    // of the program check, and so of a run
    AcceptsAll,
    RefusesAll,
    OffsetOfTheProgramsStart,
    OverlapBeforeRegister,
    TruncatedBeforeNotCarried,
    SarIsLogical,
    // of a run alone
    AlwaysClean,
    AlwaysColumnZero,
    NothingWritten,
    WholeBatchWritten,
    LastColumnSkipped,
    TotalStopsAtTheCap,
    TotalOfAllColumns,
    RestOfTheReportCleared,
    InstructionsCountedFromOne,
    PositionOfTheBatch,
    CapBeforeShape,
    LengthBeforeCap,
    RefusalTouchesTheValues,
    /// Of one of the two instructions that add halves.
    Halves(Opcode, Mistake),
    /// Of one of the two instructions that have the carries of the whole word.
    Carries(Opcode, Slip),
    // of hint 1
    QuotientByZeroIsZero,
    RemainderByZeroIsZero,
    // of raising and joining
    SumWraps,
    SideKept,
    CleanRaised,
    TieGoesLeft,
    RightBeforeLeft,
    HigherWins,
    // of the slots
    PeakAfterGivingBack,
    GivenBackInMentionOrder,
    OldestSlotFirst,
    PerWireOnlyMentioned,
    RefusalTouchesTheSlots,
    FallingEndsAccepted,
}

#[derive(Clone, Copy, Debug, PartialEq, Eq)]
enum Mistake {
    CarryGoesOnIntoTheHighHalf,
    CarriesOfTheWholeWord,
    LowCarryInFromBit63,
    HighCarryInFromBit31,
    CarriesInFromTheSecondOperand,
}

/// In the bit-by-bit carry.
#[derive(Clone, Copy, Debug, PartialEq, Eq)]
enum Slip {
    CarryBelowForgotten,
    BitZeroPassedOver,
}

struct Planted(Fault);

impl Planted {
    /// The program, or what the check refuses, as this fault has it.
    fn checked(&self, code: &[u8], rows: usize) -> Result<(), Refused> {
        let judged = check::check(code, rows).map(drop);
        match (self.0, judged) {
            (Fault::AcceptsAll, _) => Ok(()),
            (Fault::RefusesAll, _) => Err(Refused::bare(Name::Truncated)),
            (Fault::OffsetOfTheProgramsStart, Err(refused)) => Err(Refused::bare(refused.name)),
            (Fault::OverlapBeforeRegister, Err(Refused { name: Name::BadRegister, offset })) => {
                // with enough rows for every register an overlap would show
                match check::check(code, 8_192) {
                    Err(later) if later.name == Name::Overlap && later.offset == offset => Err(later),
                    _ => judged,
                }
            }
            (Fault::TruncatedBeforeNotCarried, Err(Refused { name: Name::NotCarried, offset })) => {
                // Bmul has 25 bytes
                if code.len() - offset < 25 {
                    Err(Refused::at(Name::Truncated, offset))
                } else {
                    judged
                }
            }
            _ => judged,
        }
    }
}

impl Subject for Planted {
    fn check(&self, code: &[u8], rows: usize) -> u64 {
        self.checked(code, rows).map_or_else(packing::refusal, |()| 0)
    }

    fn run(&self, code: &[u8], shape: Shape, values: &mut [u64], report: &mut [u64]) -> u64 {
        let Shape { rows, width, first, count, cap } = shape;
        let mut told = batch::Shape { rows, width, first, count, cap };
        if let Err(mut refused) = batch::accept(code, told, values.len(), report.len()) {
            match self.0 {
                Fault::CapBeforeShape if refused.name == Name::BadShape && (cap > 256 || report.len() != 3 * cap) => {
                    refused = Refused::bare(Name::BadCap);
                }
                Fault::LengthBeforeCap if refused.name == Name::BadCap && code.len() > 65_536 => {
                    refused = Refused::bare(Name::TooLong);
                }
                Fault::RefusalTouchesTheValues if !values.is_empty() => values[0] ^= 1,
                _ if refused.name > Name::TooLong => match self.checked(code, rows) {
                    Err(other) => refused = other,
                    Ok(()) => return 0,
                },
                _ => {}
            }
            return packing::refusal(refused);
        }
        if self.0 == Fault::RefusesAll {
            return packing::refusal(Refused::bare(Name::Truncated));
        }
        let before = values.to_vec();
        let mut code = code.to_vec();
        if self.0 == Fault::SarIsLogical {
            make_sar_logical(&mut code);
        }
        match self.0 {
            Fault::WholeBatchWritten => {
                let mut unused = report.to_vec();
                let whole = batch::Shape { first: 0, count: width, ..told };
                let _ = batch::run(&code, whole, &mut values.to_vec(), &mut unused);
                let answer = batch::run(&code, told, &mut before.clone(), report);
                let _ = batch::run(&code, whole, values, &mut unused);
                return answer.map_or_else(packing::refusal, |head| packing::report(head, |Local(n)| n));
            }
            Fault::LastColumnSkipped if told.count > 1 => told.count -= 1,
            _ => {}
        }
        let report_before = report.to_vec();
        let answer = batch::run(&code, told, values, report).expect("accepted above");
        let mut word = packing::report(answer, |Local(n)| n);
        let kept = (word >> 21 & 0x1FF) as usize;
        let failing = word != 0;
        match self.0 {
            Fault::NothingWritten => values.copy_from_slice(&before),
            Fault::AlwaysClean => {
                word = 0;
                report.copy_from_slice(&report_before);
            }
            Fault::Halves(..) | Fault::Carries(..) | Fault::QuotientByZeroIsZero | Fault::RemainderByZeroIsZero => {
                let program = check::check(&code, rows).expect("accepted above");
                for column in first..first + count {
                    let mut words = batch::column_of(&before, told, column);
                    run_mistaken(&program, self.0, &mut words);
                    for (row, word) in words.into_iter().enumerate() {
                        values[row * width + column] = word;
                    }
                }
            }
            Fault::AlwaysColumnZero if failing => word &= !(0xFFF << 9),
            Fault::PositionOfTheBatch if failing => word += 512 * first as u64,
            Fault::TotalStopsAtTheCap if failing => word = word & !(0xFFFF << 30) | (kept as u64) << 30,
            Fault::TotalOfAllColumns if failing => {
                let program = check::check(&code, rows).expect("accepted above");
                let all: usize = (first..first + count)
                    .map(|column| run_column(&program, &mut batch::column_of(&before, told, column)).len())
                    .sum();
                word = word & !(0xFFFF << 30) | (all as u64 & 0xFFFF) << 30;
            }
            Fault::RestOfTheReportCleared => report[3 * kept..].fill(0),
            Fault::InstructionsCountedFromOne => {
                for record in report.chunks_exact_mut(3).take(kept) {
                    record[0] += 1 << 32;
                }
            }
            _ => {}
        }
        word
    }

    fn raise(&self, start: usize, report: u64) -> u64 {
        let right = packing::raise_word(start, report);
        let failing = report % 256 == 0 && report >> 8 & 1 == 1;
        match self.0 {
            Fault::SumWraps if failing => {
                let position = report >> 9 & 0xFFF;
                packing::raise_word((start as u64).wrapping_add(position) as usize, report & !(0xFFF << 9))
            }
            Fault::SideKept if failing && right % 256 == 0 => right | report & 3 << 46,
            Fault::CleanRaised if report == 0 => packing::raise_word(start, 256).min(13),
            _ => right,
        }
    }

    fn join(&self, left: u64, right: u64) -> u64 {
        let answer = packing::join_word(left, right);
        let both_fail = [left, right].iter().all(|word| word % 256 == 0 && word >> 8 & 1 == 1);
        match self.0 {
            Fault::TieGoesLeft if answer == 12 && both_fail => packing::join_word(left, 0),
            Fault::RightBeforeLeft if right % 256 != 0 => right,
            Fault::HigherWins if both_fail && answer != 12 => {
                if answer >> 46 == 1 {
                    packing::join_word(0, right)
                } else {
                    packing::join_word(left, 0)
                }
            }
            _ => answer,
        }
    }

    fn pool(&self, gates: Gates, lent: &mut [u32]) -> u64 {
        let Gates { wires, ends, mentions, marks, per_wire } = gates;
        let policy = if per_wire { Policy::PerWire } else { Policy::Pooled };
        let before = lent.to_vec();
        let mut ends = ends.to_vec();
        if self.0 == Fault::FallingEndsAccepted {
            ends.sort_unstable();
        }
        let answer = slots::pool(wires, &ends, mentions, marks, lent, policy);
        let Ok(mut sizes) = answer else {
            if self.0 == Fault::RefusalTouchesTheSlots {
                lent.fill(UNSLOTTED);
            }
            return 14;
        };
        let list = slots::gates_of(wires, &ends, mentions, marks.len(), before.len()).expect("accepted above");
        let scratch = |wire: usize| marks[wire] != 0;
        match (self.0, policy) {
            (Fault::PeakAfterGivingBack, _) => {
                let last = |wire: usize| list.iter().rposition(|gate| gate.contains(&wire));
                let first = |wire: usize| list.iter().position(|gate| gate.contains(&wire));
                let alive = |gate: usize| {
                    (0..wires)
                        .filter(|&wire| scratch(wire) && first(wire) <= Some(gate) && last(wire) > Some(gate))
                        .count()
                };
                sizes.peak = (0..list.len()).map(alive).max().unwrap_or(0);
            }
            (Fault::PerWireOnlyMentioned, Policy::PerWire) => {
                let mut next = 0;
                for wire in (0..wires).filter(|&wire| scratch(wire)) {
                    let mentioned = list.iter().any(|gate| gate.contains(&wire));
                    lent[wire] = if mentioned { next } else { UNSLOTTED };
                    next += u32::from(mentioned);
                }
                sizes.length = next as usize;
            }
            (Fault::GivenBackInMentionOrder | Fault::OldestSlotFirst, Policy::Pooled) => {
                let mut free: Vec<u32> = Vec::new();
                let mut next = 0;
                lent.fill(UNSLOTTED);
                for (number, gate) in list.iter().enumerate() {
                    for &wire in gate.iter().filter(|&&wire| scratch(wire)) {
                        if lent[wire] == UNSLOTTED {
                            let given = if self.0 == Fault::OldestSlotFirst && !free.is_empty() {
                                Some(free.remove(0))
                            } else {
                                free.pop()
                            };
                            lent[wire] = given.unwrap_or_else(|| {
                                next += 1;
                                next - 1
                            });
                        }
                    }
                    let mut dying: Vec<usize> = Vec::new();
                    for &wire in gate.iter().filter(|&&wire| scratch(wire)) {
                        let later = list[number + 1..].iter().any(|gate| gate.contains(&wire));
                        if !later && !dying.contains(&wire) {
                            dying.push(wire);
                        }
                    }
                    if self.0 == Fault::OldestSlotFirst {
                        dying.sort_unstable();
                    }
                    free.extend(dying.iter().map(|&wire| lent[wire]));
                }
                sizes.length = next as usize;
            }
            _ => {}
        }
        packing::pool(sizes)
    }
}

/// The variant byte of every Sar becomes that of Slr.
fn make_sar_logical(code: &mut [u8]) {
    let mut start = 0;
    while start < code.len() {
        let Ok((instruction, length)) = layout::decode(&code[start..]) else { return };
        if let layout::Numbers::Shift { variant: 2, .. } = instruction.numbers {
            code[start + 9] = 1;
        }
        start += length;
    }
}

/// Runs a column with the fault in every instruction that it is of.
fn run_mistaken(program: &[Instruction], fault: Fault, column: &mut [u64]) {
    for instruction in program {
        run_column(std::slice::from_ref(instruction), column);
        // No destination is a source, so what was read still stands there.
        let read: Vec<u64> = instruction.sources.iter().map(|&register| column[register as usize]).collect();
        if let Some(words) = mistaken(fault, instruction, &read) {
            for (&register, word) in instruction.destinations.iter().zip(words) {
                column[register as usize] = word;
            }
        }
    }
}

/// The words that an instruction with the fault stores, where it is one, in the order of its destinations.
fn mistaken(fault: Fault, instruction: &Instruction, read: &[u64]) -> Option<Vec<u64>> {
    let by_zero = matches!(instruction.numbers, layout::Numbers::Hint { id: 1, .. }) && read[1] == 0;
    match fault {
        Fault::Halves(opcode, mistake) if instruction.opcode == opcode => {
            let (sums, carries) = mistaken_halves(mistake, read);
            Some(vec![sums, carries])
        }
        Fault::Carries(opcode, slip) if instruction.opcode == opcode => {
            let carries = mistaken_carries(slip, read);
            Some(match read.get(2) {
                Some(&carry_in) => vec![add(read[0], read[1], top_bit(carry_in)).0, carries],
                None => vec![carries],
            })
        }
        Fault::QuotientByZeroIsZero if by_zero => Some(vec![0, read[0]]),
        Fault::RemainderByZeroIsZero if by_zero => Some(vec![u64::MAX, 0]),
        _ => None,
    }
}

/// The carries of two operands and, where there is one, of the word of the carry in.
fn mistaken_carries(slip: Slip, read: &[u64]) -> u64 {
    let (a, b) = (read[0], read[1]);
    let carry_in = read.get(2).is_some_and(|&word| top_bit(word));
    match slip {
        Slip::CarryBelowForgotten => a & b,
        // The carry in goes into bit 1.
        Slip::BitZeroPassedOver => add(a >> 1, b >> 1, carry_in).1 << 1,
    }
}

/// The sums and carries of two operands and, where there is one, of the word of the carries in.
fn mistaken_halves(mistake: Mistake, read: &[u64]) -> (u64, u64) {
    let (a, b) = (read[0], read[1]);
    let [low_in, high_in] = read.get(2).map_or([false; 2], |&word| top_bits(word));
    let (sums, carries) = add_halves(a, b, [low_in, high_in]);
    match mistake {
        Mistake::CarryGoesOnIntoTheHighHalf => {
            let [low_out, _] = top_bits(carries);
            add_halves(a, b, [low_in, high_in | low_out])
        }
        Mistake::CarriesOfTheWholeWord => {
            let (_, of_the_word) = add(a, b, low_in);
            (sums, of_the_word)
        }
        Mistake::LowCarryInFromBit63 => add_halves(a, b, [high_in; 2]),
        Mistake::HighCarryInFromBit31 => add_halves(a, b, [low_in; 2]),
        Mistake::CarriesInFromTheSecondOperand => add_halves(a, b, top_bits(b)),
    }
}

/// Whether the cases of the kind tell the fault from the document.
fn found(fault: Fault, kind: Kind, count: u64) -> bool {
    // The second reading alone: what it finds, it finds where the given Rust is absent, too.
    let judge = Judge { subject: &Planted(fault), rust: None };
    cases(&judge, kind, SEED, count).is_err()
}

#[test]
fn every_planted_fault_is_found() {
    let faults = [
        (Fault::AcceptsAll, Kind::Damaged),
        (Fault::RefusesAll, Kind::Filled),
        (Fault::OffsetOfTheProgramsStart, Kind::Damaged),
        (Fault::OverlapBeforeRegister, Kind::Damaged),
        (Fault::TruncatedBeforeNotCarried, Kind::Damaged),
        (Fault::SarIsLogical, Kind::Filled),
        (Fault::AlwaysClean, Kind::Filled),
        (Fault::AlwaysColumnZero, Kind::Filled),
        (Fault::NothingWritten, Kind::Filled),
        (Fault::WholeBatchWritten, Kind::Filled),
        (Fault::LastColumnSkipped, Kind::Filled),
        (Fault::TotalStopsAtTheCap, Kind::Filled),
        (Fault::TotalOfAllColumns, Kind::Filled),
        (Fault::RestOfTheReportCleared, Kind::Filled),
        (Fault::InstructionsCountedFromOne, Kind::Filled),
        (Fault::PositionOfTheBatch, Kind::Striped),
        (Fault::CapBeforeShape, Kind::Shaped),
        (Fault::LengthBeforeCap, Kind::Shaped),
        (Fault::RefusalTouchesTheValues, Kind::Shaped),
        (Fault::Halves(Opcode::Iadd32CinCout, Mistake::CarryGoesOnIntoTheHighHalf), Kind::Filled),
        (Fault::Halves(Opcode::Iadd32CinCout, Mistake::CarriesOfTheWholeWord), Kind::Filled),
        (Fault::Halves(Opcode::Iadd32CinCout, Mistake::LowCarryInFromBit63), Kind::Filled),
        (Fault::Halves(Opcode::Iadd32CinCout, Mistake::HighCarryInFromBit31), Kind::Filled),
        (Fault::Halves(Opcode::Iadd32CinCout, Mistake::CarriesInFromTheSecondOperand), Kind::Filled),
        (Fault::Halves(Opcode::Iadd32Cout, Mistake::CarryGoesOnIntoTheHighHalf), Kind::Filled),
        (Fault::Halves(Opcode::Iadd32Cout, Mistake::CarriesOfTheWholeWord), Kind::Filled),
        (Fault::Halves(Opcode::Iadd32Cout, Mistake::CarriesInFromTheSecondOperand), Kind::Filled),
        (Fault::Carries(Opcode::IaddCinCout, Slip::CarryBelowForgotten), Kind::Filled),
        (Fault::Carries(Opcode::IaddCinCout, Slip::BitZeroPassedOver), Kind::Filled),
        (Fault::Carries(Opcode::IaddCarry, Slip::CarryBelowForgotten), Kind::Filled),
        (Fault::Carries(Opcode::IaddCarry, Slip::BitZeroPassedOver), Kind::Filled),
        (Fault::QuotientByZeroIsZero, Kind::Filled),
        (Fault::RemainderByZeroIsZero, Kind::Filled),
        (Fault::SumWraps, Kind::Joined),
        (Fault::SideKept, Kind::Joined),
        (Fault::CleanRaised, Kind::Joined),
        (Fault::TieGoesLeft, Kind::Joined),
        (Fault::RightBeforeLeft, Kind::Joined),
        (Fault::HigherWins, Kind::Striped),
        (Fault::PeakAfterGivingBack, Kind::Slotted),
        (Fault::GivenBackInMentionOrder, Kind::Slotted),
        (Fault::OldestSlotFirst, Kind::Slotted),
        (Fault::PerWireOnlyMentioned, Kind::Slotted),
        (Fault::RefusalTouchesTheSlots, Kind::Gated),
        (Fault::FallingEndsAccepted, Kind::Gated),
    ];
    for (fault, kind) in faults {
        assert!(found(fault, kind, 2_000), "{fault:?} goes unnoticed by the cases of {kind:?}");
    }
}

#[test]
fn without_a_fault_nothing_is_found() {
    for kind in Kind::ALL {
        assert!(!found(Fault::None, kind, 300), "{kind:?}");
    }
}
