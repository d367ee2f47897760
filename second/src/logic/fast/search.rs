//! Greatest totals, by one pass over the tree of histories.

use super::walk::Walk;
use crate::logic::{Move, Plan};

/// The greatest total, among plans of the condition's depth, of the weights
/// of paths on which the condition has the wanted value.
pub(super) fn greatest(walk: &mut Walk, wanted: bool) -> u64 {
    greatest_from(walk, 0, walk.start, wanted)
}

/// The same after `step` steps of a history that has come to `state`.
fn greatest_from(walk: &mut Walk, step: usize, state: u8, wanted: bool) -> u64 {
    if step == walk.program.depth() {
        return u64::from(walk.answer() == wanted);
    }
    let mut best = 0;
    for entry in walk.model.moves(state) {
        best = best.max(greatest_by(walk, step, entry, wanted));
    }
    best
}

/// The greatest total where the next move is given.
pub(super) fn greatest_by(walk: &mut Walk, step: usize, entry: &Move, wanted: bool) -> u64 {
    let mut total = 0;
    for outcome in &entry.outcomes {
        walk.enter(step, entry.action, outcome);
        let below = greatest_from(walk, step + 1, outcome.target, wanted);
        total += u64::from(outcome.weight) * below;
    }
    total
}

/// The total weight that a given plan gives the condition, in paths of the
/// condition's depth.
pub(super) fn plan_total(walk: &mut Walk, plan: &Plan) -> u64 {
    plan_total_from(walk, 0, Some(plan))
}

fn plan_total_from(walk: &mut Walk, step: usize, plan: Option<&Plan>) -> u64 {
    if step == walk.program.depth() {
        return u64::from(walk.answer());
    }
    let model = walk.model;
    let Some((plan, entry)) = plan.and_then(|plan| Some((plan, plan.chosen(model)?))) else {
        return 0;
    };
    let mut total = 0;
    for (place, outcome) in entry.outcomes.iter().enumerate() {
        walk.enter(step, entry.action, outcome);
        let below = plan_total_from(walk, step + 1, plan.below().get(place));
        total += u64::from(outcome.weight) * below;
    }
    total
}
