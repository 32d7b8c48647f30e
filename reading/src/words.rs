//! "Word rules": 64-bit words, ordinary binary arithmetic; and of document 02 the sums of halves (E1) and what a division
//! by zero gives (E2).

/// "Select takes t exactly when bit 63 of the condition is 1", and the carry-in is bit 63 of its word.
pub fn top_bit(word: u64) -> bool {
    word / (1 << 63) == 1
}

/// The number modulo 2^bits.
fn low_bits(number: u128, bits: u32) -> u128 {
    number & ((1 << bits) - 1)
}

/// The number modulo 2^64.
fn low_word(number: u128) -> u64 {
    low_bits(number, 64) as u64
}

/// The word whose bit i is `bit(i)`.
fn word_of_bits(bit: impl Fn(u32) -> bool) -> u64 {
    (0..64).filter(|&i| bit(i)).map(|i| 1u64 << i).sum()
}

/// "Sum is a + b + c modulo 2^64", and the word of carries: "Carry bit i is 1 exactly when
/// (a mod 2^(i+1)) + (b mod 2^(i+1)) + c is at least 2^(i+1)".
pub fn add(a: u64, b: u64, carry_in: bool) -> (u64, u64) {
    let (a, b, c) = (u128::from(a), u128::from(b), u128::from(carry_in));
    let carries = word_of_bits(|i| low_bits(a, i + 1) + low_bits(b, i + 1) + c >= 1 << (i + 1));
    (low_word(a + b + c), carries)
}

/// "Each half is added on its own; the carry word holds, for each bit of each half, the carry out of that bit": the sums
/// and the carries, bit by bit as on paper. A half starts with its carry-in, the low half's first.
pub fn add_halves(a: u64, b: u64, carries_in: [bool; 2]) -> (u64, u64) {
    let bit = |word: u64, i: u32| word >> i & 1;
    let (mut sums, mut carries) = (0, 0);
    for (lowest, carry_in) in [0, 32].into_iter().zip(carries_in) {
        let mut carry = u64::from(carry_in);
        for i in lowest..lowest + 32 {
            let ones = bit(a, i) + bit(b, i) + carry;
            carry = ones / 2;
            sums |= ones % 2 << i;
            carries |= carry << i;
        }
    }
    (sums, carries)
}

/// The carry-in is "the top bit of the same half, bit 31 and bit 63".
pub fn top_bits(word: u64) -> [bool; 2] {
    [31, 63].map(|i| word >> i & 1 == 1)
}

/// "Difference is a - b - c modulo 2^64", and the word of borrows: "Borrow bit i is 1 exactly when a mod 2^(i+1) is less
/// than (b mod 2^(i+1)) + c".
pub fn subtract(a: u64, b: u64, borrow_in: bool) -> (u64, u64) {
    let (a, b, c) = (u128::from(a), u128::from(b), u128::from(borrow_in));
    let borrows = word_of_bits(|i| low_bits(a, i + 1) < low_bits(b, i + 1) + c);
    (low_word((1 << 65) + a - b - c), borrows)
}

/// "Imul: high and low word of the unsigned product."
pub fn multiply(a: u64, b: u64) -> (u64, u64) {
    let product = u128::from(a) * u128::from(b);
    ((product / (1 << 64)) as u64, low_word(product))
}

/// A shift of one word of `width` bits, 64 or 32: the four kinds, on numbers.
fn shift_once(width: u32, kind: u8, word: u64, amount: u32) -> u64 {
    let (word, modulus, power) = (u128::from(word), 1u128 << width, 1u128 << amount);
    let shifted = match kind {
        // left: what passes the width is lost
        0 => word * power % modulus,
        // right
        1 => word / power,
        // "reads its word as two's complement and rounds towards minus infinity: floor of the signed value over 2^amount"
        2 => {
            let value = word as i128 - if word >= modulus / 2 { modulus as i128 } else { 0 };
            value.div_euclid(power as i128).rem_euclid(modulus as i128) as u128
        }
        // rotation to the right: the low bits come in at the top
        _ => word / power + word % power * (modulus / power),
    };
    low_word(shifted)
}

/// "Sll, Slr, Sar, Rotr on the word; Sll32, Srl32, Sra32, Rotr32 on each 32-bit half separately."
pub fn shift(variant: u8, word: u64, amount: u8) -> u64 {
    let amount = u32::from(amount);
    if variant < 4 {
        return shift_once(64, variant, word, amount);
    }
    let half = 1u64 << 32;
    let of_half = |bits: u64| shift_once(32, variant - 4, bits, amount);
    of_half(word / half) * half + of_half(word % half)
}

/// Hint 1: "quotient and remainder of a by b", and "a zero divisor gives quotient all ones and remainder a".
pub fn divide(a: u64, b: u64) -> (u64, u64) {
    match b {
        0 => (u64::MAX, a),
        _ => (a / b, a % b),
    }
}

/// Hint 2: "count of leading zeros, 64 for zero".
pub fn leading_zeros(word: u64) -> u64 {
    (0..=64).find(|&n| n == 64 || word >> (63 - n) == 1).expect("64 is found")
}

#[cfg(test)]
mod tests {
    use super::*;

    const ONES: u64 = u64::MAX;

    #[test]
    fn the_documents_examples() {
        assert_eq!(add(3, 1, false), (4, 3));
        assert_eq!(add(ONES, 1, false), (0, ONES));
        assert_eq!(subtract(0, 1, false), (ONES, ONES));
        assert_eq!(multiply(ONES, ONES), (ONES - 1, 1));
        assert_eq!(shift(2, 1 << 63, 63), ONES);
        assert_eq!(shift(4, 0x8000_0000_8000_0001, 1), 2);
        assert_eq!(shift(6, 0x8000_0000_7FFF_FFFF, 31), 0xFFFF_FFFF_0000_0000);
    }

    /// Against the processor's own operations, which say the same in another way.
    #[test]
    fn shifts_agree_with_the_processors() {
        let words = [0, 1, 2, ONES, 1 << 63, (1 << 63) - 1, 1 << 31, 0x8000_0000_7FFF_FFFF, 0x0123_4567_89AB_CDEF];
        for word in words {
            let (high, low) = ((word >> 32) as u32, word as u32);
            let both = |f: &dyn Fn(u32) -> u32| u64::from(f(high)) << 32 | u64::from(f(low));
            for amount in 0..64u8 {
                let n = u32::from(amount);
                assert_eq!(shift(0, word, amount), word << n);
                assert_eq!(shift(1, word, amount), word >> n);
                assert_eq!(shift(2, word, amount), (word as i64 >> n) as u64);
                assert_eq!(shift(3, word, amount), word.rotate_right(n));
                if n < 32 {
                    assert_eq!(shift(4, word, amount), both(&|h| h << n));
                    assert_eq!(shift(5, word, amount), both(&|h| h >> n));
                    assert_eq!(shift(6, word, amount), both(&|h| (h as i32 >> n) as u32));
                    assert_eq!(shift(7, word, amount), both(&|h| h.rotate_right(n)));
                }
            }
        }
    }

    #[test]
    fn carries_and_borrows_out_of_the_top() {
        for (a, b) in [(0, 0), (0, ONES), (ONES, 0), (ONES, ONES), (1 << 63, 1 << 63), (5, 7), (7, 5)] {
            for c in [false, true] {
                let (sum, carries) = add(a, b, c);
                let (half, first) = a.overflowing_add(b);
                let (whole, second) = half.overflowing_add(u64::from(c));
                assert_eq!((sum, top_bit(carries)), (whole, first || second));
                let (difference, borrows) = subtract(a, b, c);
                let (half, first) = a.overflowing_sub(b);
                let (whole, second) = half.overflowing_sub(u64::from(c));
                assert_eq!((difference, top_bit(borrows)), (whole, first || second));
            }
        }
    }

    #[test]
    fn halves_are_sums_of_their_own() {
        // document 01's sums, once in each half and then in both
        let low = u64::from(u32::MAX);
        for (place, ones) in [(1, low), (1 << 32, ONES - low), ((1 << 32) + 1, ONES)] {
            assert_eq!(add_halves(3 * place, place, [false; 2]), (4 * place, 3 * place));
            assert_eq!(add_halves(ones, place, [false; 2]), (0, ones));
        }
        // the low half's last carry stays out of the high half
        assert_eq!(add_halves(low, low, [true, false]), (low, low));
        assert_eq!(add_halves(ONES, 0, [true, false]), (ONES - low, low));
        assert_eq!(add_halves(ONES, 0, [false, true]), (low, ONES - low));
        assert_eq!(add_halves(ONES, 0, [true; 2]), (0, ONES));
    }

    #[test]
    fn the_carry_in_of_a_half_is_its_top_bit() {
        for i in 0..64 {
            assert_eq!(top_bits(1 << i), [i == 31, i == 63]);
            assert_eq!(top_bits(ONES - (1 << i)), [i != 31, i != 63]);
        }
    }

    #[test]
    fn the_hints_words() {
        assert_eq!(divide(17, 5), (3, 2));
        for a in [0, 1, 17, ONES] {
            assert_eq!(divide(a, 0), (ONES, a));
        }
        for word in [0, 1, 2, 3, 1 << 62, 1 << 63, ONES] {
            assert_eq!(leading_zeros(word), u64::from(word.leading_zeros()));
        }
    }
}
