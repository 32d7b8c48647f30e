//! Why a job was not done, as one clear line.

use crate::{NO_JOB, REFUSED};
use gussetglen::Refusal;
use std::fmt;
use std::io;
use std::path::Path;

pub enum Trouble {
    /// A numbered refusal, and what was given where that helps.
    Refused { refusal: Refusal, given: String },
    /// An argument that cannot be read.
    Argument(String),
    /// A file that cannot be read or written, or holds no words.
    File(String),
}

impl Trouble {
    pub fn file(path: &Path, what: impl fmt::Display) -> Trouble {
        Trouble::File(format!("{}: {what}", path.display()))
    }

    pub fn status(&self) -> u8 {
        match self {
            Trouble::Refused { .. } => REFUSED,
            Trouble::Argument(_) | Trouble::File(_) => NO_JOB,
        }
    }
}

impl From<Refusal> for Trouble {
    fn from(refusal: Refusal) -> Trouble {
        Trouble::Refused { refusal, given: String::new() }
    }
}

impl From<io::Error> for Trouble {
    fn from(error: io::Error) -> Trouble {
        Trouble::File(format!("standard output: {error}"))
    }
}

impl fmt::Display for Trouble {
    fn fmt(&self, f: &mut fmt::Formatter<'_>) -> fmt::Result {
        match self {
            Trouble::Refused { refusal, given } => {
                write!(f, "refused, number {}, {}, ", refusal.number(), refusal.name())?;
                match refusal.offset() {
                    Some(at) => write!(f, "offset {} bytes from the program's start", at.get())?,
                    None => write!(f, "no offset")?,
                }
                if given.is_empty() {
                    Ok(())
                } else {
                    write!(f, " ({given})")
                }
            }
            Trouble::Argument(line) => write!(f, "{line} (`fill --help` tells the arguments)"),
            Trouble::File(line) => f.write_str(line),
        }
    }
}
