//! The boundary's answers, each one number: "Every answer has the refusal number in bits 0 to 7; 0 is accepted."

use crate::refusals::Refused;
use crate::reports::{join, raise, InBatch, Local, Report, Side};
use crate::slots::Sizes;

/// "number + 256 * offset".
pub fn refusal(refused: Refused) -> u64 {
    u64::from(refused.name.number()) + 256 * refused.offset as u64
}

/// "256 + 512 * position + 2^21 * kept + 2^30 * total"; clean is 0.
pub fn report<Position>(report: Report<Position>, number: impl Fn(Position) -> usize) -> u64 {
    match report {
        Report::Clean => 0,
        Report::Failing { position, total, kept } => {
            256 + 512 * number(position) as u64 + (1 << 21) * kept as u64 + (1 << 30) * total as u64
        }
    }
}

/// "a joined report: the same, with bits 46 and 47 the side".
pub fn joined(head: Report<InBatch>, side: Side) -> u64 {
    let side = match side {
        Side::None => 0,
        Side::Left => 1,
        Side::Right => 2,
    };
    report(head, |InBatch(n)| n) + (1 << 46) * side
}

/// "bits 8 to 23 length, bits 24 to 39 peak".
pub fn pool(sizes: Sizes) -> u64 {
    256 * sizes.length as u64 + (1 << 24) * sizes.peak as u64
}

/// What the fields of a word say; "bit 8 clear counts as clean", and "bits that no field names are ignored".
pub fn unpack<Position>(word: u64, position: impl Fn(usize) -> Position) -> Report<Position> {
    let field = |from: u32, bits: u32| (word >> from) as usize % (1 << bits);
    if field(8, 1) == 0 {
        return Report::Clean;
    }
    Report::Failing { position: position(field(9, 12)), kept: field(21, 9), total: field(30, 16) }
}

/// A word that is itself a refusal: "`raise` and `join` .. hand that refusal back, left before right".
fn is_refusal(word: u64) -> bool {
    word % 256 != 0
}

/// `gussetglen_raise`, on words.
pub fn raise_word(start: usize, word: u64) -> u64 {
    if is_refusal(word) {
        return word;
    }
    match raise(start, unpack(word, Local)) {
        Ok(raised) => report(raised, |InBatch(n)| n),
        Err(refused) => refusal(refused),
    }
}

/// `gussetglen_join`, on words.
pub fn join_word(left: u64, right: u64) -> u64 {
    if is_refusal(left) {
        return left;
    }
    if is_refusal(right) {
        return right;
    }
    match join(unpack(left, InBatch), unpack(right, InBatch)) {
        Ok((head, side)) => joined(head, side),
        Err(refused) => refusal(refused),
    }
}

#[cfg(test)]
mod tests {
    use super::*;
    use crate::refusals::Name;

    #[test]
    fn unpacking_gives_back_what_was_packed() {
        assert_eq!(unpack(0, Local), Report::Clean);
        for position in [0, 1, 2_047, 4_095] {
            for kept in [0, 1, 100, 255, 256] {
                for total in [1, 256, 7_281, 65_535] {
                    let failing = Report::Failing { position: Local(position), total, kept };
                    let word = report(failing, |Local(n)| n);
                    assert_eq!(word % 256, 0);
                    assert_eq!(unpack(word, Local), failing);
                    assert_eq!(unpack(word | 0xFFFF << 48, Local), failing);
                }
            }
        }
    }

    #[test]
    fn refusals_come_back_left_before_right() {
        let (six, seven) = (6 + 256 * 40, 7 + 256 * 50 + (1 << 63));
        assert_eq!(raise_word(3, six), six);
        assert_eq!(join_word(six, seven), six);
        assert_eq!(join_word(0, seven), seven);
        assert_eq!(join_word(six, 0), six);
    }

    #[test]
    fn numbers_of_the_boundary() {
        assert_eq!(refusal(Refused::at(Name::Overlap, 13)), 10 + 256 * 13);
        let failing = 256 + 512 + (1 << 21) + (1 << 30);
        assert_eq!(raise_word(2, failing), failing + 2 * 512);
        assert_eq!(raise_word(4_095, failing), 13);
        assert_eq!(join_word(failing, failing), 12);
        assert_eq!(join_word(failing, failing + 512), failing + (1 << 46));
        assert_eq!(join_word(failing + 512, failing + (3 << 46)), failing + (2 << 46));
        assert_eq!(join_word(0, 512), 0);
        assert_eq!(pool(Sizes { length: 8_192, peak: 3 }), 256 * 8_192 + (3 << 24));
    }
}
