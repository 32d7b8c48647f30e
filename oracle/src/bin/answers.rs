//! Makes the lists of answers anew: `cargo run --release --bin answers -- SEED`. Without a seed, the
//! one that the stored lists were made by.

use std::{env, fs, process::ExitCode};

fn main() -> ExitCode {
    let Some(rust) = oracle::rust() else {
        println!("{}", oracle::SKIPPED);
        return ExitCode::SUCCESS;
    };
    let seed = match env::args().nth(1) {
        None => oracle::lists::stored_seed(),
        Some(text) => match text.parse() {
            Ok(seed) => seed,
            Err(why) => {
                eprintln!("{text} is no seed: {why}");
                return ExitCode::FAILURE;
            }
        },
    };
    for list in oracle::lists::all(rust, seed) {
        let folder = oracle::lists::folder(list.name);
        for (file, text) in [("stdin", &list.stdin), ("stdout", &list.stdout)] {
            fs::write(folder.join(file), text).expect("the crate's folder takes files");
        }
        println!(
            "{}: {} lines, {} bytes",
            list.name,
            list.stdin.lines().count(),
            list.stdin.len()
        );
    }
    oracle::lists::store_seed(seed);
    ExitCode::SUCCESS
}
