//! A batch of parcels, its stripes, and the cap of a report.

use crate::boundary::{self, Shape};
use crate::packed;
use crate::refusal::Refusal;
use crate::report::RECORD_WORDS;
use crate::units::{BatchPosition, Columns, Register, Rows, Width};
use std::error::Error;
use std::fmt;

/// The words of a batch: a row for each register, a column for each parcel, row after row.
#[derive(Clone, Debug, PartialEq, Eq)]
pub struct Batch {
    rows: Rows,
    width: Width,
    words: Vec<u64>,
}

/// Whether the library takes an array of this shape: the empty program, run over no column, changes nothing.
fn judge(rows: Rows, width: Width, words: &mut [u64]) -> Result<(), Refusal> {
    let shape = Shape { rows: rows.get(), width: width.get(), first: 0, count: 0, cap: 0 };
    packed::accepted(boundary::run(&[], shape, words, &mut []))
}

impl Batch {
    /// A batch of zeros, to be populated.
    pub fn zeroed(rows: Rows, width: Width) -> Result<Batch, Refusal> {
        // Each on its own first, so that no array past the limits is ever asked for.
        judge(rows, Width::new(0), &mut [])?;
        judge(Rows::new(0), width, &mut [])?;
        Batch::from_words(rows, width, vec![0; rows.get() * width.get()])
    }

    /// A populated batch from its words, row after row.
    pub fn from_words(rows: Rows, width: Width, mut words: Vec<u64>) -> Result<Batch, Refusal> {
        judge(rows, width, &mut words)?;
        Ok(Batch { rows, width, words })
    }

    pub fn rows(&self) -> Rows {
        self.rows
    }

    pub fn width(&self) -> Width {
        self.width
    }

    /// A register's words, one for each parcel, in the order of batch positions.
    pub fn row(&self, register: Register) -> Option<&[u64]> {
        let place = self.row_start(register)?;
        Some(&self.words[place..][..self.width.get()])
    }

    /// The same, to be populated.
    pub fn row_mut(&mut self, register: Register) -> Option<&mut [u64]> {
        let place = self.row_start(register)?;
        Some(&mut self.words[place..][..self.width.get()])
    }

    /// A parcel's word in a register.
    pub fn word(&self, register: Register, parcel: BatchPosition) -> Option<u64> {
        self.row(register)?.get(parcel.get()).copied()
    }

    /// The same, to be populated.
    pub fn word_mut(&mut self, register: Register, parcel: BatchPosition) -> Option<&mut u64> {
        self.row_mut(register)?.get_mut(parcel.get())
    }

    /// Every word, row after row.
    pub fn words(&self) -> &[u64] {
        &self.words
    }

    /// Every word, row after row.
    pub fn into_words(self) -> Vec<u64> {
        self.words
    }

    pub(crate) fn words_mut(&mut self) -> &mut [u64] {
        &mut self.words
    }

    fn row_start(&self, register: Register) -> Option<usize> {
        let row = register.get() as usize;
        (row < self.rows.get()).then_some(row * self.width.get())
    }

    /// The stripe of all parcels.
    pub fn whole(&self) -> Stripe {
        Stripe::new(BatchPosition::new(0), Columns::new(self.width.get()))
    }

    /// Consecutive stripes that cover the batch: a new one starts at each of these positions, which may not fall. Two equal
    /// ones make a stripe of no parcels.
    pub fn cut(&self, starts: &[BatchPosition]) -> Result<Vec<Stripe>, BadCut> {
        let mut stripes = Vec::with_capacity(starts.len() + 1);
        let mut from = 0;
        for start in starts.iter().map(|start| start.get()).chain([self.width.get()]) {
            if start < from || start > self.width.get() {
                let width = self.width;
                let (start, before) = (BatchPosition::new(start), BatchPosition::new(from));
                return Err(if start.get() > width.get() {
                    BadCut::PastTheEnd { start, width }
                } else {
                    BadCut::Falling { start, before }
                });
            }
            stripes.push(Stripe::new(BatchPosition::new(from), Columns::new(start - from)));
            from = start;
        }
        Ok(stripes)
    }
}

/// Why positions do not cut a batch into consecutive stripes.
#[derive(Clone, Copy, Debug, PartialEq, Eq)]
pub enum BadCut {
    /// The batch ends before the stripe would start.
    PastTheEnd { start: BatchPosition, width: Width },
    /// The stripe would start before the one in front of it.
    Falling { start: BatchPosition, before: BatchPosition },
}

impl fmt::Display for BadCut {
    fn fmt(&self, f: &mut fmt::Formatter<'_>) -> fmt::Result {
        match self {
            BadCut::PastTheEnd { start, width } => {
                write!(f, "a stripe cannot start at {start}: the batch has {width}")
            }
            BadCut::Falling { start, before } => {
                write!(f, "a stripe cannot start at {start}: the one in front of it starts at {before}")
            }
        }
    }
}

impl Error for BadCut {}

/// Some consecutive columns of a batch: the first one, and how many they are.
#[derive(Clone, Copy, Debug, PartialEq, Eq, Hash)]
pub struct Stripe {
    first: BatchPosition,
    columns: Columns,
}

impl Stripe {
    /// Any pair is a stripe; whether a batch has these columns is judged when it is filled.
    pub const fn new(first: BatchPosition, columns: Columns) -> Stripe {
        Stripe { first, columns }
    }

    /// Its start in the batch.
    pub const fn first(self) -> BatchPosition {
        self.first
    }

    pub const fn columns(self) -> Columns {
        self.columns
    }
}

/// How many failures of the lowest failing parcel a run keeps at most.
#[derive(Clone, Copy, Debug, PartialEq, Eq, PartialOrd, Ord, Hash)]
pub struct Cap(usize);

impl Cap {
    /// Refusal 2 where it is over the limit.
    pub fn new(failures: usize) -> Result<Cap, Refusal> {
        // A report buffer too short for a cap over the limit is refused with it.
        let mut buffer = vec![0; RECORD_WORDS * failures.min(1 << 16)];
        let shape = Shape { rows: 0, width: 0, first: 0, count: 0, cap: failures };
        packed::accepted(boundary::run(&[], shape, &mut [], &mut buffer))?;
        Ok(Cap(failures))
    }

    pub const fn get(self) -> usize {
        self.0
    }
}

impl fmt::Display for Cap {
    fn fmt(&self, f: &mut fmt::Formatter<'_>) -> fmt::Result {
        write!(f, "at most {} kept failure{}", self.0, if self.0 == 1 { "" } else { "s" })
    }
}
