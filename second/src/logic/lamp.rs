//! How a total compares with its bound.

use super::Relation;
use std::cmp::Ordering;

/// "Lamp" is document 02's word (A.4) for how a total compares with its bound.
#[derive(Clone, Copy, Debug, PartialEq, Eq, PartialOrd, Ord)]
pub enum Lamp {
    Below,
    At,
    Above,
}

impl Lamp {
    /// The lamp of a left side compared with a right one.
    pub fn of(sides: Ordering) -> Lamp {
        match sides {
            Ordering::Less => Lamp::Below,
            Ordering::Equal => Lamp::At,
            Ordering::Greater => Lamp::Above,
        }
    }

    /// Whether a total with this lamp stands in the relation to its bound.
    pub fn meets(self, relation: Relation) -> bool {
        match relation {
            Relation::Less => self == Lamp::Below,
            Relation::Equal => self == Lamp::At,
            Relation::Greater => self == Lamp::Above,
        }
    }

    pub fn word(self) -> &'static str {
        match self {
            Lamp::Below => "below",
            Lamp::At => "at",
            Lamp::Above => "above",
        }
    }
}
