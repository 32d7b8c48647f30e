//! The longer run: `compare [CASES [SEED]]`, of every kind in turn. The seed is printed, and with a difference its case.

use compare::cases::{case, Kind, Tally};
use compare::{Judge, Library};
use std::process::ExitCode;
use std::sync::atomic::{AtomicBool, AtomicU64, Ordering};
use std::sync::Mutex;
use std::time::{Instant, SystemTime, UNIX_EPOCH};

const CASES: u64 = 1_000_000;

fn main() -> ExitCode {
    let words: Vec<String> = std::env::args().skip(1).collect();
    let numbers: Option<Vec<u64>> = words.iter().map(|word| word.parse().ok()).collect();
    let (count, seed) = match numbers.as_deref() {
        Some([]) => (CASES, of_the_clock()),
        Some(&[count]) => (count, of_the_clock()),
        Some(&[count, seed]) => (count, seed),
        _ => {
            eprintln!(
                "compare [CASES [SEED]]: two decimal numbers, {CASES} cases and a new seed where they are left out"
            );
            return ExitCode::from(2);
        }
    };
    println!("seed {seed}, {count} cases: `compare {count} {seed}` runs them again");
    let rust = oracle::rust();
    if rust.is_none() {
        println!("{}", oracle::SKIPPED);
    }
    let started = Instant::now();
    let next = AtomicU64::new(0);
    let found = AtomicBool::new(false);
    let sum = Mutex::new(Tally::default());
    let workers = std::thread::available_parallelism().map_or(1, |n| n.get());
    std::thread::scope(|scope| {
        for _ in 0..workers {
            scope.spawn(|| {
                let judge = Judge { subject: &Library, rust };
                let mut tally = Tally::default();
                while !found.load(Ordering::Relaxed) {
                    let number = next.fetch_add(1, Ordering::Relaxed);
                    if number >= count {
                        break;
                    }
                    let kind = Kind::ALL[(number % Kind::ALL.len() as u64) as usize];
                    if let Err(difference) = case(&judge, kind, seed, number, &mut tally) {
                        found.store(true, Ordering::Relaxed);
                        println!("DIFFERENCE: {difference}");
                    }
                    if number % (count / 20 + 1) == 0 {
                        println!("{number} cases, {} s", started.elapsed().as_secs());
                    }
                }
                sum.lock().expect("no worker stops while it holds this").add(&tally);
            });
        }
    });
    let tally = sum.into_inner().expect("the workers are done");
    println!("{tally:?}");
    if found.into_inner() {
        return ExitCode::FAILURE;
    }
    println!("{} cases, no difference, {} s", tally.cases, started.elapsed().as_secs());
    ExitCode::SUCCESS
}

fn of_the_clock() -> u64 {
    SystemTime::now().duration_since(UNIX_EPOCH).map_or(1, |since| since.as_micros() as u64)
}
