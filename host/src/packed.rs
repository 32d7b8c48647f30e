//! The packing of the boundary's answers: every answer has the refusal number in bits 0 to 7, and 0 is accepted.

use crate::refusal::Refusal;
use crate::report::{Head, Side};
use crate::units::{ByteOffset, LiveWires, SlotCount, Violations};

/// A field of a packed word: where it begins, and how many bits it has.
struct Field {
    from: u32,
    bits: u32,
}

const FAILING: Field = Field { from: 8, bits: 1 };
const POSITION: Field = Field { from: 9, bits: 12 };
const KEPT: Field = Field { from: 21, bits: 9 };
const TOTAL: Field = Field { from: 30, bits: 16 };
const SIDE: Field = Field { from: 46, bits: 2 };
const LENGTH: Field = Field { from: 8, bits: 16 };
const PEAK: Field = Field { from: 24, bits: 16 };

impl Field {
    const fn of(&self, word: u64) -> usize {
        (word >> self.from & ((1 << self.bits) - 1)) as usize
    }

    /// Numbers too large for a field come from no run, and are a fault of this crate.
    fn holding(&self, number: usize) -> u64 {
        assert!(number < 1 << self.bits, "{number} does not fit its field of the boundary's word");
        (number as u64) << self.from
    }
}

/// Nothing where the word is an accepted answer.
fn refusal(word: u64) -> Result<(), Refusal> {
    let number = (word & 0xFF) as u8;
    let offset = ByteOffset::new((word >> 8) as usize);
    match (number, Refusal::from_number(number, offset)) {
        (0, _) => Ok(()),
        (_, Some(refusal)) => Err(refusal),
        (_, None) => panic!("the library answered refusal {number}, which document 01 does not have"),
    }
}

/// The answer of a program check.
pub(crate) fn accepted(word: u64) -> Result<(), Refusal> {
    refusal(word)
}

/// The answer of a run or of raising: nothing where it is clean.
pub(crate) fn report<Position>(
    word: u64,
    position: impl FnOnce(usize) -> Position,
) -> Result<Option<Head<Position>>, Refusal> {
    refusal(word)?;
    if FAILING.of(word) == 0 {
        return Ok(None);
    }
    Ok(Some(Head {
        position: position(POSITION.of(word)),
        total: Violations::new(TOTAL.of(word)),
        kept: KEPT.of(word),
    }))
}

/// The answer of a join: the side whose report stands.
pub(crate) fn side(word: u64) -> Result<Side, Refusal> {
    refusal(word)?;
    Ok(match SIDE.of(word) {
        0 => Side::Neither,
        1 => Side::Left,
        2 => Side::Right,
        other => panic!("the library answered side {other}, which the boundary does not have"),
    })
}

/// The answer of the slot allocator.
pub(crate) fn pool(word: u64) -> Result<(SlotCount, LiveWires), Refusal> {
    refusal(word)?;
    Ok((SlotCount::new(LENGTH.of(word)), LiveWires::new(PEAK.of(word))))
}

/// The word of a report, for raising and joining.
pub(crate) fn word<Position>(head: Option<Head<Position>>, number: impl FnOnce(Position) -> usize) -> u64 {
    head.map_or(0, |head| {
        FAILING.holding(1)
            + POSITION.holding(number(head.position))
            + KEPT.holding(head.kept)
            + TOTAL.holding(head.total.get())
    })
}

#[cfg(test)]
mod tests {
    use super::*;
    use crate::units::LocalPosition;

    #[test]
    fn a_report_comes_back_as_it_was_packed() {
        for position in [0, 1, 4_095] {
            for kept in [0, 1, 256] {
                for total in [1, 257, 7_281] {
                    let head = Head { position: LocalPosition::new(position), total: Violations::new(total), kept };
                    let packed = word(Some(head), LocalPosition::get);
                    let by_the_boundary = 256 + 512 * position + (1 << 21) * kept + (1 << 30) * total;
                    assert_eq!(packed, by_the_boundary as u64);
                    assert_eq!(report(packed, LocalPosition::new), Ok(Some(head)));
                }
            }
        }
        assert_eq!(word::<LocalPosition>(None, LocalPosition::get), 0);
        assert_eq!(report(0, LocalPosition::new), Ok(None));
    }

    #[test]
    fn a_refusal_is_never_a_report() {
        let refused = 7 + 256 * 13;
        let expected = Refusal::BadShift(ByteOffset::new(13));
        assert_eq!(accepted(refused), Err(expected));
        assert_eq!(report(refused, LocalPosition::new), Err(expected));
        assert_eq!(side(12), Err(Refusal::SamePosition));
        assert_eq!(pool(14), Err(Refusal::BadGates));
        assert_eq!(accepted(0), Ok(()));
    }

    #[test]
    fn sides_and_pools() {
        assert_eq!(side(0), Ok(Side::Neither));
        assert_eq!(side(256 + (1 << 46)), Ok(Side::Left));
        assert_eq!(side(256 + (2 << 46)), Ok(Side::Right));
        assert_eq!(pool(256 * 8_192 + (3 << 24)), Ok((SlotCount::new(8_192), LiveWires::new(3))));
    }

    #[test]
    #[should_panic(expected = "document 01 does not have")]
    fn an_unknown_number_is_a_fault() {
        let _ = accepted(200);
    }
}
