//! The lists that the repository keeps are what the generator gives now, byte for byte.

use std::fs;

use oracle::{Rust, lists};

fn rust() -> &'static dyn Rust {
    oracle::rust().expect(oracle::SKIPPED)
}

#[test]
#[cfg_attr(not(given), ignore = "no given Rust beside the repository")]
fn stored_lists_are_the_generators() {
    for list in lists::all(rust(), lists::stored_seed()) {
        for (file, made) in [("stdin", &list.stdin), ("stdout", &list.stdout)] {
            let path = lists::folder(list.name).join(file);
            let kept = fs::read_to_string(&path).unwrap_or_default();
            // Not assert_eq!, which would print both.
            assert!(
                kept == *made,
                "{} is not what the generator gives now",
                path.display()
            );
        }
    }
}

/// Lists that do not go by the seed would not be random.
#[test]
#[cfg_attr(not(given), ignore = "no given Rust beside the repository")]
fn another_seed_gives_other_lists() {
    let seed = lists::stored_seed();
    for (one, other) in lists::all(rust(), seed)
        .iter()
        .zip(lists::all(rust(), seed + 1))
    {
        assert!(
            one.stdin != other.stdin,
            "{} does not go by the seed",
            one.name
        );
    }
}
