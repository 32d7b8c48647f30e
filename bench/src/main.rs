//! The measured program. `bench/table` calls it and prints the table.
//!
//! - `bench list` prints the names of the programs that are run;
//! - `bench once NAME SIDE TIMES` runs one of them so many times, for a counter of executed instructions around it;
//! - `bench time` times all of them: a line for each, with the medians of eleven runs in nanoseconds, ours and the Rust's.
//!
//! Every program is run over the same batch: 4,096 columns, arrays filled beforehand, one thread, no failing parcel.

mod families;

use families::{Family, ROWS, WIDTH};
use gussetglen::boundary::{self, Shape};
use oracle::Rust;
use std::process::ExitCode;
use std::time::Instant;

const RUNS: usize = 11;

/// The proved library, or the given Rust.
#[derive(Clone, Copy)]
enum Side {
    Ours,
    Rusts(&'static dyn Rust),
}

impl Side {
    /// Fills the whole batch. A failing parcel would have the Rust render messages, which is not to be measured.
    fn run(self, code: &[u8], values: &mut [u64]) {
        match self {
            Side::Ours => {
                let shape = Shape { rows: ROWS, width: WIDTH, first: 0, count: WIDTH, cap: 0 };
                assert_eq!(boundary::run(code, shape, values, &mut []), 0, "accepted, and no parcel fails");
            }
            Side::Rusts(rust) => assert!(rust.run(code, WIDTH, 0, WIDTH, values).is_none(), "no parcel fails"),
        }
    }
}

fn main() -> ExitCode {
    let words: Vec<String> = std::env::args().skip(1).collect();
    let words: Vec<&str> = words.iter().map(String::as_str).collect();
    let Some(rust) = oracle::rust() else {
        eprintln!("bench: {}", oracle::SKIPPED);
        return ExitCode::from(2);
    };
    let families = families::all();
    match words[..] {
        ["list"] => {
            for family in &families {
                println!("{}", family.name);
            }
        }
        ["once", name, side, times] => {
            let family = families.iter().find(|family| family.name == name);
            let side = match side {
                "ours" => Some(Side::Ours),
                "rusts" => Some(Side::Rusts(rust)),
                _ => None,
            };
            let (Some(family), Some(side), Ok(times)) = (family, side, times.parse::<usize>()) else {
                return usage();
            };
            let mut values = families::values();
            for _ in 0..times {
                side.run(&family.code, &mut values);
            }
        }
        ["time"] => {
            for family in &families {
                let (ours, rusts) = (median(Side::Ours, family), median(Side::Rusts(rust), family));
                println!("{} {ours} {rusts}", family.name);
            }
        }
        _ => return usage(),
    }
    ExitCode::SUCCESS
}

fn usage() -> ExitCode {
    eprintln!("bench list | bench once NAME ours|rusts TIMES | bench time");
    ExitCode::from(2)
}

/// The median time of one run, in nanoseconds, after one that is not counted.
fn median(side: Side, family: &Family) -> u128 {
    let mut values = families::values();
    side.run(&family.code, &mut values);
    let mut times: Vec<u128> = (0..RUNS)
        .map(|_| {
            let started = Instant::now();
            side.run(&family.code, &mut values);
            started.elapsed().as_nanos()
        })
        .collect();
    times.sort_unstable();
    times[RUNS / 2]
}

#[cfg(test)]
mod tests {
    use super::*;

    /// What is measured on the two sides is the same work.
    #[test]
    fn both_sides_fill_the_same_words() {
        let Some(rust) = oracle::rust() else {
            println!("{}", oracle::SKIPPED);
            return;
        };
        for family in families::all() {
            let (mut ours, mut rusts) = (families::values(), families::values());
            Side::Ours.run(&family.code, &mut ours);
            Side::Rusts(rust).run(&family.code, &mut rusts);
            assert!(ours == rusts, "{}", family.name);
            assert!(ours != families::values() || family.name == "empty" || family.name.starts_with("Assert"));
        }
    }
}
