//! A built-in batch: parcels with temperature readings in hundredths of a degree, each against its own two limits.

use crate::assembler::Assembler;
use crate::job;
use crate::trouble::Trouble;
use gussetglen::{Batch, BatchPosition, Cap, PathSpec, Program, Refusal, Register, Rows, Width};
use std::fmt::Write as _;
use std::fs;
use std::path::Path;

const READINGS: u32 = 4;
const LOWER: Register = Register::new(READINGS);
const UPPER: Register = Register::new(READINGS + 1);
/// How many readings the logger says it took.
const TAKEN: Register = Register::new(READINGS + 2);
/// 2^63: exclusive-or with it puts two's complement in the order of plain numbers.
const SIGN: Register = Register::new(READINGS + 3);
const ZERO: Register = Register::new(READINGS + 4);
const ORDERED_LOWER: Register = Register::new(READINGS + 5);
const ORDERED_UPPER: Register = Register::new(READINGS + 6);
const ORDERED_READING: Register = Register::new(READINGS + 7);
const DIFFERENCE: Register = Register::new(READINGS + 8);
/// Bit 63 is 1 exactly where the subtraction borrowed: where the first was less than the second.
const BORROWS: Register = Register::new(READINGS + 9);
/// How far the readings so far are above the lower limit in all: each total is written beside the one before it.
const TOTALS: [Register; 2] = [Register::new(READINGS + 10), Register::new(READINGS + 11)];
const CARRIES: Register = Register::new(READINGS + 12);
/// How far the readings are above the lower limit on average; all ones where the logger took none.
const AVERAGE: Register = Register::new(READINGS + 13);
const LEFT_OVER: Register = Register::new(READINGS + 14);
/// How far the upper limit is above the lower.
const SPAN: Register = Register::new(READINGS + 15);
const ROWS: Rows = Rows::new(READINGS as usize + 16);

/// Path specs 0, 2, 4, .. are the readings against the lower limit; 1, 3, 5, .. against the upper.
const NO_READINGS: PathSpec = PathSpec::new(2 * READINGS);
const WARM_AVERAGE: PathSpec = PathSpec::new(2 * READINGS + 1);

const CAP: usize = 2;
const CUTS: [BatchPosition; 3] = [BatchPosition::new(4), BatchPosition::new(8), BatchPosition::new(10)];

/// A parcel: its limits, and what its logger wrote; all temperatures in hundredths of a degree.
struct Parcel {
    limits: (i64, i64),
    readings: [i64; READINGS as usize],
    taken: u64,
}

const CHILLED: (i64, i64) = (200, 800);
const FROZEN: (i64, i64) = (-2_500, -1_800);
const COOL: (i64, i64) = (0, 1_500);

const fn parcel(limits: (i64, i64), readings: [i64; READINGS as usize]) -> Parcel {
    Parcel { limits, readings, taken: READINGS as u64 }
}

const PARCELS: [Parcel; 12] = [
    parcel(CHILLED, [412, 455, 470, 461]),
    parcel(CHILLED, [200, 310, 305, 800]),
    parcel(FROZEN, [-2_110, -2_095, -2_101, -2_100]),
    parcel(CHILLED, [515, 530, 520, 501]),
    parcel(CHILLED, [640, 655, 690, 702]),
    parcel(FROZEN, [-2_500, -2_410, -1_980, -1_800]),
    // too warm twice, then too cold
    parcel(CHILLED, [790, 835, 910, 180]),
    parcel(CHILLED, [345, 350, 351, 349]),
    parcel(CHILLED, [299, 305, 310, 300]),
    // too warm once
    parcel(FROZEN, [-2_050, -1_950, -1_750, -1_900]),
    // a logger that never woke: each reading of 0 is within the limits, and the average is none
    Parcel { limits: COOL, readings: [0; READINGS as usize], taken: 0 },
    parcel(CHILLED, [444, 440, 452, 447]),
];

fn program() -> Vec<u8> {
    let mut assembler = Assembler::default();
    assembler.assert_non_zero(TAKEN, NO_READINGS);
    assembler.bxor(ORDERED_LOWER, LOWER, SIGN);
    assembler.bxor(ORDERED_UPPER, UPPER, SIGN);
    let mut total = ZERO;
    for number in 0..READINGS {
        let reading = Register::new(number);
        assembler.bxor(ORDERED_READING, reading, SIGN);
        // Where the subtraction borrows, the reading is outside its limit, and "equal to it" fails with both in the record.
        assembler.isub_bin_bout(DIFFERENCE, BORROWS, ORDERED_READING, ORDERED_LOWER, ZERO);
        assembler.assert_eq_cond(BORROWS, reading, LOWER, PathSpec::new(2 * number));
        let before = total;
        total = TOTALS[number as usize % TOTALS.len()];
        assembler.iadd_cin_cout(total, CARRIES, before, DIFFERENCE, ZERO);
        assembler.isub_bin_bout(DIFFERENCE, BORROWS, ORDERED_UPPER, ORDERED_READING, ZERO);
        assembler.assert_eq_cond(BORROWS, reading, UPPER, PathSpec::new(2 * number + 1));
    }
    assembler.divide(AVERAGE, LEFT_OVER, total, TAKEN);
    assembler.isub_bin_bout(SPAN, BORROWS, UPPER, LOWER, ZERO);
    assembler.isub_bin_bout(DIFFERENCE, BORROWS, SPAN, AVERAGE, ZERO);
    assembler.assert_eq_cond(BORROWS, AVERAGE, SPAN, WARM_AVERAGE);
    assembler.into_code()
}

fn batch() -> Result<Batch, Refusal> {
    let mut batch = Batch::zeroed(ROWS, Width::new(PARCELS.len()))?;
    for (number, parcel) in PARCELS.iter().enumerate() {
        let position = BatchPosition::new(number);
        let mut set = |register: Register, word: u64| {
            *batch.word_mut(register, position).expect("the sample's registers are below its rows") = word;
        };
        for (register, &reading) in (0..READINGS).map(Register::new).zip(&parcel.readings) {
            set(register, reading as u64);
        }
        set(LOWER, parcel.limits.0 as u64);
        set(UPPER, parcel.limits.1 as u64);
        set(TAKEN, parcel.taken);
        set(SIGN, 1 << 63);
    }
    Ok(batch)
}

/// Fills the sample and tells the outcome, then what the words are in degrees.
pub fn fill(told: &mut String) -> Result<(), Trouble> {
    let mut batch = batch()?;
    let cap = Cap::new(CAP)?;
    let program = Program::check(program(), ROWS)?;
    let stripes = batch.cut(&CUTS).expect("the sample's cuts rise within its width");
    let _ = writeln!(
        told,
        "sample: {} with {READINGS} readings each, in hundredths of a degree, against a lower and an upper limit; {cap}",
        batch.width(),
    );
    let (report, reports) = job::fill(&program, &mut batch, &stripes, cap)?;
    job::tell(&batch, &reports, &report, told);
    for failure in report.failing().map_or(&[][..], |parcel| parcel.failures()) {
        let [reading, limit] = failure.words.map(|word| degrees(word as i64));
        let _ = match failure.path_spec {
            NO_READINGS => writeln!(told, "in degrees: {NO_READINGS} is a parcel whose logger took no reading"),
            WARM_AVERAGE => writeln!(
                told,
                "in degrees: {WARM_AVERAGE} is the average against the upper limit, which is {limit} above the lower",
            ),
            path_spec => writeln!(
                told,
                "in degrees: {path_spec} is reading {} against the {} limit, {reading} against {limit}",
                path_spec.get() / 2,
                if path_spec.get() % 2 == 0 { "lower" } else { "upper" },
            ),
        };
    }
    Ok(())
}

/// Hundredths as degrees with two places.
fn degrees(hundredths: i64) -> String {
    let sign = if hundredths < 0 { "-" } else { "" };
    let size = hundredths.unsigned_abs();
    format!("{sign}{}.{:02}", size / 100, size % 100)
}

/// Writes the sample's two files, to be filled by the command that is told.
pub fn write(folder: &Path, told: &mut String) -> Result<(), Trouble> {
    let batch = batch()?;
    let [program_file, values_file, output_file] =
        ["program.bytes", "values.words", "filled.words"].map(|name| folder.join(name));
    fs::create_dir_all(folder).map_err(|error| Trouble::file(folder, error))?;
    fs::write(&program_file, program()).map_err(|error| Trouble::file(&program_file, error))?;
    job::write_words(&values_file, batch.words()).map_err(|error| Trouble::file(&values_file, error))?;
    let cuts = CUTS.map(|start| start.get().to_string()).join(",");
    let (rows, width) = (ROWS.get(), batch.width().get());
    let [program_file, values_file, output_file] =
        [&program_file, &values_file, &output_file].map(|path| path.display().to_string());
    let _ = writeln!(told, "written: {program_file} and {values_file}; now fill them by");
    let _ = writeln!(told, "./fill {program_file} {rows} {width} {values_file} {CAP} {cuts} {output_file}");
    Ok(())
}
