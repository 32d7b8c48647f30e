//! The sums of halves (document 02, E1) beside the given Rust: the two need no proved library to be compared.

use oracle::numbers::{Numbers, LIMITS};
use oracle::{Call, Rust};
use reading::column::run_column;
use reading::layout::{Instruction, Opcode};

/// Columns of one run.
const WIDTH: usize = 4_096;

/// Words at and beside the ends of the halves: each choice of these bits, and all other bits as `rest` has them.
fn at_the_ends(rest: u64) -> impl Iterator<Item = u64> {
    const ENDS: [u32; 8] = [0, 1, 30, 31, 32, 33, 62, 63];
    (0..1u64 << ENDS.len()).map(move |choice| {
        let put = |word: u64, (place, bit): (usize, u32)| word & !(1 << bit) | (choice >> place & 1) << bit;
        ENDS.into_iter().enumerate().fold(rest, put)
    })
}

/// Runs both instructions over the cases, a column for each: operands, and the word of the carries in.
fn compare(rust: &dyn Rust, cases: &[[u64; 3]]) {
    let carried = Instruction::plain(Opcode::Iadd32CinCout, &[3, 4], &[0, 1, 2]);
    let bare = Instruction::plain(Opcode::Iadd32Cout, &[4, 3], &[0, 1]);
    let calls = [Call::Iadd32CinCout([3, 4, 0, 1, 2]), Call::Iadd32Cout([4, 3, 0, 1])];
    for (instruction, call) in [carried, bare].into_iter().zip(calls) {
        let code = instruction.encode();
        assert_eq!(rust.emit(&[call]), (code.clone(), 1));
        for columns in cases.chunks(WIDTH) {
            let width = columns.len();
            let before: Vec<u64> = (0..3)
                .flat_map(|row| columns.iter().map(move |words| words[row]))
                .chain(std::iter::repeat_n(7, 2 * width))
                .collect();
            let mut after = before.clone();
            assert_eq!(rust.run(&code, width, 0, width, &mut after), None);
            for (column, words) in columns.iter().enumerate() {
                let of = |array: &[u64]| [0, 1, 2, 3, 4].map(|row| array[row * width + column]);
                let mut read = of(&before);
                assert!(run_column(std::slice::from_ref(&instruction), &mut read).is_empty());
                assert_eq!(read, of(&after), "{:?} of {words:x?}", instruction.opcode);
            }
        }
    }
}

#[test]
fn every_choice_of_limits() {
    let Some(rust) = oracle::rust() else { return println!("{}", oracle::SKIPPED) };
    let cases: Vec<[u64; 3]> =
        LIMITS.iter().flat_map(|&a| LIMITS.iter().flat_map(move |&b| LIMITS.map(|c| [a, b, c]))).collect();
    assert_eq!(cases.len(), 1_331);
    compare(rust, &cases);
}

/// Every choice of the bits at the ends of the halves in both operands and of both carries in, while the bits between hand
/// a carry on or stop it.
#[test]
fn every_carry_at_the_ends_of_the_halves() {
    let Some(rust) = oracle::rust() else { return println!("{}", oracle::SKIPPED) };
    let mut cases = Vec::new();
    for rest in [0, u64::MAX] {
        for a in at_the_ends(rest) {
            for b in at_the_ends(0) {
                cases.extend([0, 1 << 31, 1 << 63, 1 << 31 | 1 << 63].map(|carries_in| [a, b, carries_in]));
            }
        }
    }
    assert_eq!(cases.len(), 524_288);
    compare(rust, &cases);
}

#[test]
fn random_words() {
    let Some(rust) = oracle::rust() else { return println!("{}", oracle::SKIPPED) };
    let mut numbers = Numbers::new(32);
    let cases: Vec<[u64; 3]> = (0..200_000).map(|_| [(); 3].map(|()| numbers.any_word())).collect();
    compare(rust, &cases);
}
