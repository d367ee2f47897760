//! Leftovers beside another ground, which is given.

use super::Fault;
use crate::blocks::{read_formula, QuestionImage};
use crate::desk::Desk;
use crate::ground::Ground;

/// The grounds before which 13 may wrongly be tested, in their order.
const BEFORE: [(Fault, Ground); 6] = [
    (Fault::BeforeSum, Ground::WordSum),
    (Fault::BeforeKind, Ground::Kind),
    (Fault::BeforeCounts, Ground::Counts),
    (Fault::BeforeRange, Ground::Range),
    (Fault::BeforeSpare, Ground::Spare),
    (Fault::BeforeFormula, Ground::Formula),
];

/// Whether another ground than the right one is given to a question that may have
/// leftovers.
pub(super) fn differs(fault: Fault, right: Ground, image: &QuestionImage, desk: &Desk) -> bool {
    if image.reached().iter().all(|found| *found) {
        return false;
    }
    let without = || {
        let model = desk.model()?;
        read_formula(&image.used_only().pack(), model).map(|_| ())
    };
    match (fault, right) {
        (Fault::BeforeModel, Ground::NoModel) => true,
        (Fault::FormulaOfReached, Ground::Formula)
        | (Fault::SpareOfReached, Ground::Spare)
        | (Fault::RangeOfReached, Ground::Range) => without() != Err(right),
        _ => {
            let tested = BEFORE.iter().find(|(before, _)| *before == fault);
            tested.is_some_and(|(_, ground)| (*ground..=Ground::Formula).contains(&right))
        }
    }
}
