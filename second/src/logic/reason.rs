//! What plans come to where a plan root is answered with no (document 02, A.5).

use super::Relation;

/// A total that some plan reaches, and the choices of the first plan that has
/// it.
#[derive(Clone, Debug, PartialEq, Eq)]
pub struct Reached {
    pub total: i128,
    pub choices: Vec<u8>,
}

/// What could have been had instead of the bound.
#[derive(Clone, Debug, PartialEq, Eq)]
pub enum Reason {
    /// The greatest total of all plans, for "greater".
    Greatest(Reached),
    /// The least total of all plans, for "less".
    Least(Reached),
    /// For "equal" the nearest totals on either side of the bound.
    Nearest {
        below: Option<Reached>,
        above: Option<Reached>,
    },
}

impl Reason {
    /// The reason for a no to "less" or "greater", by the best total.
    pub fn best(relation: Relation, total: i128, choices: Vec<u8>) -> Reason {
        let reached = Reached { total, choices };
        match relation {
            Relation::Less => Reason::Least(reached),
            _ => Reason::Greatest(reached),
        }
    }
}
