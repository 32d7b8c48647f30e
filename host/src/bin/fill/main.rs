//! `fill`: fills a batch of parcels stripe by stripe and tells the release desk what it found.

mod arguments;
mod assembler;
mod job;
mod sample;
#[cfg(test)]
mod tests;
mod trouble;

use std::ffi::OsString;
use std::io::{self, Write};
use std::process::ExitCode;

/// The batch was filled, whether a parcel fails or not.
const FILLED: u8 = 0;
/// A numbered refusal: nothing was written.
const REFUSED: u8 = 1;
/// Arguments or files that are no job.
const NO_JOB: u8 = 2;

const USAGE: &str = "\
fill: fills a batch of parcels, and tells the lowest failing one

  fill PROGRAM ROWS WIDTH VALUES CAP CUTS OUTPUT
  fill                   a built-in sample
  fill sample FOLDER     writes the sample's files to FOLDER, and tells how to fill them

  PROGRAM   a file: the program's bytes
  ROWS      how many rows the program's registers name, and the batch has
  WIDTH     how many parcels the batch has, each a column
  VALUES    a file: ROWS x WIDTH words, row after row, each a little-endian u64
  CAP       how many failures of the lowest failing parcel are kept at most
  CUTS      the batch positions, counted from 0, at which a new stripe starts, as 4,8,8;
            or `every=1024` for stripes of so many parcels; or `none`
  OUTPUT    the file that gets the filled words, in the order of VALUES

Exit status: 0 filled (whether a parcel fails or not), 1 refused by a numbered rule, 2 no such job.
A refusal writes nothing.
";

fn main() -> ExitCode {
    let arguments: Vec<OsString> = std::env::args_os().skip(1).collect();
    ExitCode::from(run(&arguments, &mut io::stdout().lock(), &mut io::stderr().lock()))
}

/// The whole command: what it prints, and its exit status.
fn run(arguments: &[OsString], out: &mut dyn Write, err: &mut dyn Write) -> u8 {
    let wish = match arguments::parse(arguments) {
        Ok(wish) => wish,
        Err(trouble) => return say(&trouble, err),
    };
    let mut told = String::new();
    let done = match wish {
        arguments::Wish::Help => {
            told.push_str(USAGE);
            Ok(())
        }
        arguments::Wish::Sample => sample::fill(&mut told),
        arguments::Wish::WriteSample(folder) => sample::write(&folder, &mut told),
        arguments::Wish::Fill(files) => job::fill_files(&files, &mut told),
    };
    match done.and_then(|()| Ok(out.write_all(told.as_bytes())?)) {
        Ok(()) => FILLED,
        Err(trouble) => say(&trouble, err),
    }
}

fn say(trouble: &trouble::Trouble, err: &mut dyn Write) -> u8 {
    // A standard error that cannot be written leaves the exit status to tell.
    let _ = writeln!(err, "fill: {trouble}");
    trouble.status()
}
