//! The job: fill stripe by stripe, raise, join, tell.

use crate::arguments::Files;
use crate::trouble::Trouble;
use gussetglen::{Batch, BatchReport, Cap, Program, Refusal, Rows, Stripe, StripeReport, Width};
use std::fmt::Write as _;
use std::fs::File;
use std::io::{self, BufReader, BufWriter, Read, Write};
use std::path::Path;

/// Stripes beyond this many are counted and no longer told one by one.
const STRIPES_TOLD: usize = 16;

/// No more of PROGRAM is read than this, which is far past what the library takes for a program: of a file without an end it
/// answers TooLong, too.
const PROGRAM_READ: u64 = 1 << 20;

/// The job on files. The library judges in the order of a run: shape, cap, program.
pub fn fill_files(files: &Files, told: &mut String) -> Result<(), Trouble> {
    let code = read_program(&files.program)?;
    let mut batch = read_batch(files)?;
    let stripes =
        batch.cut(&files.cuts.starts(files.width)).map_err(|bad_cut| Trouble::Argument(format!("CUTS: {bad_cut}")))?;
    let cap = Cap::new(files.cap).map_err(|refusal| given(refusal, format!("the cap is {}", files.cap)))?;
    let program = Program::check(code, files.rows).map_err(|refusal| {
        let told = match refusal {
            Refusal::BadRegister(_) => format!("ROWS is {}", files.rows.get()),
            _ => String::new(),
        };
        given(refusal, told)
    })?;
    let (report, reports) = fill(&program, &mut batch, &stripes, cap)?;
    tell(&batch, &reports, &report, told);
    write_words(&files.output, batch.words()).map_err(|error| Trouble::file(&files.output, error))?;
    let words = batch.words().len();
    let _ = writeln!(told, "written: {words} words, {} bytes, to {}", 8 * words, files.output.display());
    Ok(())
}

/// Fills the stripes in their order; answers the batch's report, and each stripe's.
pub fn fill(
    program: &Program,
    batch: &mut Batch,
    stripes: &[Stripe],
    cap: Cap,
) -> Result<(BatchReport, Vec<StripeReport>), Refusal> {
    let mut reports = Vec::with_capacity(stripes.len());
    let mut joined = BatchReport::CLEAN;
    for &stripe in stripes {
        let report = program.fill(batch, stripe, cap)?;
        joined = joined.join(report.clone().raise()?)?.into_report();
        reports.push(report);
    }
    Ok((joined, reports))
}

/// What the release desk needs, each number with its unit.
pub fn tell(batch: &Batch, reports: &[StripeReport], report: &BatchReport, told: &mut String) {
    let mut line = |text: String| {
        told.push_str(&text);
        told.push('\n');
    };
    let stripes = match reports.len() {
        1 => "1 stripe".to_string(),
        many => format!("{many} stripes"),
    };
    line(format!("filled: {}, {}, in {stripes}; positions are counted from 0", batch.width(), batch.rows()));
    for stripe_report in reports.iter().take(STRIPES_TOLD) {
        let stripe = stripe_report.stripe();
        let found = match stripe_report.failing() {
            None => "no parcel fails".to_string(),
            Some(parcel) => format!("its lowest failing parcel is {}, {}", parcel.position(), parcel.total()),
        };
        line(format!("stripe from {}, {}: {found}", stripe.first(), stripe.columns()));
    }
    if reports.len() > STRIPES_TOLD {
        let failing = reports.iter().filter(|report| report.failing().is_some()).count();
        line(format!("and {} stripes more; parcels fail in {failing} of all", reports.len() - STRIPES_TOLD));
    }
    let (Some(parcel), Some((start, local))) = (report.failing(), report.in_stripe()) else {
        line("no parcel fails".to_string());
        return;
    };
    line(format!("lowest failing parcel: {}, counted from the batch's start", parcel.position()));
    line(format!("  that is {local}, counted from its stripe's start, which is {start}"));
    let kept = match parcel.failures().len() {
        1 => "1 failure".to_string(),
        many => format!("{many} failures"),
    };
    line(format!("  {} in all, {kept} kept", parcel.total()));
    for failure in parcel.failures() {
        line(format!("  {failure}"));
    }
}

fn read_program(path: &Path) -> Result<Vec<u8>, Trouble> {
    let mut code = Vec::new();
    let read = File::open(path).and_then(|file| file.take(PROGRAM_READ).read_to_end(&mut code));
    read.map(|_| code).map_err(|error| Trouble::file(path, error))
}

fn read_batch(files: &Files) -> Result<Batch, Trouble> {
    let (rows, width) = (files.rows, files.width);
    // Rows and width are judged before a word is read, and what is read ends soon after the words that they ask for.
    let asked = Batch::zeroed(rows, width).map_err(|refusal| given(refusal, format!("{rows}, {width}")))?;
    let words = read_words(&files.values, asked.words().len())?;
    drop(asked);
    let count = words.len();
    Batch::from_words(rows, width, words).map_err(|refusal| given(refusal, mismatch(rows, width, count)))
}

fn mismatch(rows: Rows, width: Width, count: usize) -> String {
    let asked = rows.get() * width.get();
    let has = if count > asked { format!("more than {asked}") } else { count.to_string() };
    format!("{rows} x {width} are {asked} words, and VALUES has {has}")
}

fn given(refusal: Refusal, given: String) -> Trouble {
    Trouble::Refused { refusal, given }
}

/// The words of a file, up to one more than `most`: enough to see that there are too many.
fn read_words(path: &Path, most: usize) -> Result<Vec<u64>, Trouble> {
    let trouble = |error: io::Error| Trouble::file(path, error);
    let mut input = BufReader::new(File::open(path).map_err(trouble)?);
    let mut words = Vec::with_capacity(most);
    loop {
        let mut bytes = [0; 8];
        let mut filled = 0;
        while filled < 8 {
            match input.read(&mut bytes[filled..]) {
                Ok(0) => break,
                Ok(more) => filled += more,
                Err(error) if error.kind() == io::ErrorKind::Interrupted => {}
                Err(error) => return Err(trouble(error)),
            }
        }
        match filled {
            0 => return Ok(words),
            8 => words.push(u64::from_le_bytes(bytes)),
            left => {
                let whole = words.len();
                return Err(Trouble::file(path, format!("{left} bytes are left after {whole} words of 8 bytes")));
            }
        }
        if words.len() > most {
            return Ok(words);
        }
    }
}

pub fn write_words(path: &Path, words: &[u64]) -> io::Result<()> {
    let mut output = BufWriter::new(File::create(path)?);
    for word in words {
        output.write_all(&word.to_le_bytes())?;
    }
    output.flush()
}
