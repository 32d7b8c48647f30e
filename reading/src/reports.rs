//! Reports, raised and joined. The two kinds of position are two types here, too.

use crate::refusals::{Name, Refused};
use crate::sizes::MOST_WIDTH;

/// Counted from the stripe's start.
#[derive(Clone, Copy, Debug, PartialEq, Eq, PartialOrd, Ord, Hash)]
pub struct Local(pub usize);

/// Counted from the batch's start.
#[derive(Clone, Copy, Debug, PartialEq, Eq, PartialOrd, Ord, Hash)]
pub struct InBatch(pub usize);

/// "A report is clean, or failing with position, total and kept."
#[derive(Clone, Copy, Debug, PartialEq, Eq, Hash)]
pub enum Report<Position> {
    Clean,
    Failing { position: Position, total: usize, kept: usize },
}

/// Whose records stand.
#[derive(Clone, Copy, Debug, PartialEq, Eq, Hash)]
pub enum Side {
    None,
    Left,
    Right,
}

/// "raising adds the stripe start, the sum taken exactly, and a clean report stays clean at every start"; 13 where
/// "stripe start plus local position is 4,096 or more".
pub fn raise(start: usize, report: Report<Local>) -> Result<Report<InBatch>, Refused> {
    match report {
        Report::Clean => Ok(Report::Clean),
        Report::Failing { position, total, kept } => {
            let sum = start as u128 + position.0 as u128;
            if sum >= MOST_WIDTH as u128 {
                return Err(Refused::bare(Name::BadPosition));
            }
            Ok(Report::Failing { position: InBatch(sum as usize), total, kept })
        }
    }
}

/// "Joining answers the lower failing head and which side's records stand; two clean reports .. join to clean with no
/// side; a clean report with a failing one gives the failing one"; 12 where both fail at one position.
pub fn join(left: Report<InBatch>, right: Report<InBatch>) -> Result<(Report<InBatch>, Side), Refused> {
    match (left, right) {
        (Report::Clean, Report::Clean) => Ok((Report::Clean, Side::None)),
        (failing, Report::Clean) => Ok((failing, Side::Left)),
        (Report::Clean, failing) => Ok((failing, Side::Right)),
        (Report::Failing { position: a, .. }, Report::Failing { position: b, .. }) => {
            if a == b {
                Err(Refused::bare(Name::SamePosition))
            } else if a < b {
                Ok((left, Side::Left))
            } else {
                Ok((right, Side::Right))
            }
        }
    }
}

#[cfg(test)]
mod tests {
    use super::*;

    fn local(position: usize) -> Report<Local> {
        Report::Failing { position: Local(position), total: 5, kept: 3 }
    }

    fn at(position: usize) -> Report<InBatch> {
        Report::Failing { position: InBatch(position), total: 5, kept: 3 }
    }

    #[test]
    fn raising_adds_exactly() {
        assert_eq!(raise(2, local(0)), Ok(at(2)));
        assert_eq!(raise(4_000, local(95)), Ok(at(4_095)));
        assert_eq!(raise(4_000, local(96)), Err(Refused::bare(Name::BadPosition)));
        assert_eq!(raise(usize::MAX, local(1)), Err(Refused::bare(Name::BadPosition)));
        assert_eq!(raise(usize::MAX, Report::Clean), Ok(Report::Clean));
    }

    #[test]
    fn joining_takes_the_lower() {
        assert_eq!(join(at(1), at(2)), Ok((at(1), Side::Left)));
        assert_eq!(join(at(2), at(1)), Ok((at(1), Side::Right)));
        assert_eq!(join(at(1), at(1)), Err(Refused::bare(Name::SamePosition)));
        assert_eq!(join(Report::Clean, at(1)), Ok((at(1), Side::Right)));
        assert_eq!(join(at(1), Report::Clean), Ok((at(1), Side::Left)));
        assert_eq!(join(Report::Clean, Report::Clean), Ok((Report::Clean, Side::None)));
    }
}
