//! From words on the command line to a wish with its units.

use crate::trouble::Trouble;
use gussetglen::{BatchPosition, Columns, Rows, Width};
use std::ffi::OsString;
use std::path::PathBuf;

pub enum Wish {
    Help,
    Sample,
    WriteSample(PathBuf),
    Fill(Files),
}

/// The arguments of a job on files.
pub struct Files {
    pub program: PathBuf,
    pub rows: Rows,
    pub width: Width,
    pub values: PathBuf,
    /// Not yet a `Cap`: the library judges it after the shape.
    pub cap: usize,
    pub cuts: Cuts,
    pub output: PathBuf,
}

/// Where to cut the batch into stripes.
#[derive(Debug, PartialEq, Eq)]
pub enum Cuts {
    At(Vec<BatchPosition>),
    Every(Columns),
}

impl Cuts {
    /// The positions at which a stripe starts, but for the first one.
    pub fn starts(&self, width: Width) -> Vec<BatchPosition> {
        match self {
            Cuts::At(starts) => starts.clone(),
            Cuts::Every(columns) => {
                (columns.get()..width.get()).step_by(columns.get()).map(BatchPosition::new).collect()
            }
        }
    }
}

pub fn parse(arguments: &[OsString]) -> Result<Wish, Trouble> {
    match arguments {
        [] => Ok(Wish::Sample),
        [word] if word == "--help" || word == "-h" || word == "help" => Ok(Wish::Help),
        [word, folder] if word == "sample" => Ok(Wish::WriteSample(folder.into())),
        [program, rows, width, values, cap, cuts, output] => Ok(Wish::Fill(Files {
            program: program.into(),
            rows: Rows::new(number("ROWS", rows)?),
            width: Width::new(number("WIDTH", width)?),
            values: values.into(),
            cap: number("CAP", cap)?,
            cuts: cut("CUTS", cuts)?,
            output: output.into(),
        })),
        _ => Err(Trouble::Argument(format!(
            "7 arguments make a job, PROGRAM ROWS WIDTH VALUES CAP CUTS OUTPUT, and {} came",
            arguments.len()
        ))),
    }
}

fn number(name: &str, word: &OsString) -> Result<usize, Trouble> {
    digits(word.to_str().unwrap_or_default())
        .ok_or_else(|| Trouble::Argument(format!("{name}: {word:?} is not a decimal number")))
}

/// Decimal digits and nothing else: no sign, no space.
fn digits(word: &str) -> Option<usize> {
    if word.is_empty() || !word.bytes().all(|byte| byte.is_ascii_digit()) {
        return None;
    }
    word.parse().ok()
}

fn cut(name: &str, word: &OsString) -> Result<Cuts, Trouble> {
    let text = word.to_str().unwrap_or_default();
    let bad = || {
        let forms = "batch positions with commas between, or every=N with N over 0, or none";
        Trouble::Argument(format!("{name}: {word:?} is not {forms}"))
    };
    if text == "none" {
        return Ok(Cuts::At(Vec::new()));
    }
    if let Some(every) = text.strip_prefix("every=") {
        let columns = digits(every).filter(|&columns| columns > 0).ok_or_else(bad)?;
        return Ok(Cuts::Every(Columns::new(columns)));
    }
    let starts: Option<Vec<_>> = text.split(',').map(|part| digits(part).map(BatchPosition::new)).collect();
    starts.map(Cuts::At).ok_or_else(bad)
}
