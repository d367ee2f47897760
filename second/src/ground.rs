//! The grounds of refusal, numbered as in document 01. Since request A.1 of
//! document 02, ground 8 no longer occurs; its number is not used again.

/// A refusal yields one of these; where several apply, the first in the
/// document's order.
#[derive(Clone, Copy, Debug, PartialEq, Eq, PartialOrd, Ord)]
pub enum Ground {
    Length = 1,
    WordSum = 2,
    Kind = 3,
    Counts = 4,
    Range = 5,
    Spare = 6,
    Outcomes = 7,
    Formula = 9,
    Choices = 10,
    /// The sheet's weight, or its total of gains, is not its plan's.
    Total = 11,
    ShortBuffer = 12,
    /// A node that is not reached from the root by following children.
    Leftover = 13,
    NoModel = 20,
    NoQuestion = 21,
    RootNotPlan = 22,
    NoShownPlan = 23,
    TooManyPaths = 24,
    TooManyPlans = 25,
}

/// Those on which a load is refused, in their order.
pub const OF_LOADS: [Ground; 7] = [
    Ground::Length,
    Ground::WordSum,
    Ground::Kind,
    Ground::Counts,
    Ground::Range,
    Ground::Spare,
    Ground::Outcomes,
];

impl Ground {
    /// The document's number of this ground.
    pub fn number(self) -> u8 {
        self as u8
    }
}

/// Passes where `allowed`, and is otherwise refused on `ground`.
pub fn demand(allowed: bool, ground: Ground) -> Result<(), Ground> {
    if allowed {
        Ok(())
    } else {
        Err(ground)
    }
}
