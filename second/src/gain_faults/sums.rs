//! The totals of all plans, rightly and wrongly summed, and how judges with
//! faults compare them.

use super::misread::misread;
use super::{Fault, ALL};
use crate::logic::{Lamp, Model, Node, Path, Plan, PlanNode};
use crate::logic::{Question, Relation, Summed, Totals};
use std::collections::BTreeMap;

/// Totals of more (plan, path) pairs than this are not worked out.
const AFFORDABLE: u64 = 20_000;

/// A plan's total, summed in all ways.
#[derive(Clone, Copy, Debug, Default)]
pub(super) struct Sums {
    right: i128,
    steps_from_zero: i128,
    up_to_the_end: i128,
    from_the_start: i128,
    unweighted: i128,
    /// Whether the plan chooses by the steps left and the state.
    by_state: bool,
}

impl Sums {
    /// Those of one plan. Document 000, Definition 13, is the first of them.
    pub(super) fn of(model: &Model, node: &PlanNode, plan: &Plan) -> Sums {
        let Summed::Gains { first, last } = node.summed else {
            return Sums::default();
        };
        let mut sums = Sums {
            by_state: chooses_by_state(model, plan),
            ..Sums::default()
        };
        for path in plan.paths(model) {
            let weight = i128::from(path.weight);
            let gain = |path: &Path, first, last| i128::from(path.gain_of_steps(first, last));
            sums.right += weight * gain(&path, first, last);
            sums.steps_from_zero += weight * gain(&path, first + 1, last + 1);
            sums.up_to_the_end += weight * gain(&path, first, node.steps);
            sums.from_the_start += weight * gain(&path, 1, last);
            sums.unweighted += gain(&path, first, last);
        }
        sums
    }

    /// The total as a judge with the fault sums it.
    pub(super) fn by(&self, fault: Fault) -> i128 {
        match fault {
            Fault::StepsFromZero => self.steps_from_zero,
            Fault::UpToTheEnd => self.up_to_the_end,
            Fault::FromTheStart => self.from_the_start,
            Fault::Unweighted => self.unweighted,
            _ => self.right,
        }
    }
}

/// Whether a plan makes one choice in each state that it can be in with some
/// steps left, whatever the states before.
fn chooses_by_state(model: &Model, plan: &Plan) -> bool {
    let mut level = vec![plan];
    while !level.is_empty() {
        let mut chosen: BTreeMap<u8, u8> = BTreeMap::new();
        for plan in &level {
            let action = plan.chosen(model).map_or(0, |entry| entry.action);
            if *chosen.entry(plan.state()).or_insert(action) != action {
                return false;
            }
        }
        level = level.iter().flat_map(|plan| plan.below()).collect();
    }
    true
}

/// The sums of all plans of a node from a state, as judges take them.
pub(super) struct Reading {
    node: PlanNode,
    whole: u64,
    right: Vec<Sums>,
    /// Those of another node, where a judge with the fault takes them for these.
    misread: BTreeMap<Fault, Vec<Sums>>,
}

impl Reading {
    /// None if there are too many plans.
    pub(super) fn of(
        model: &Model,
        question: &Question,
        number: usize,
        state: u8,
    ) -> Option<Reading> {
        let Some(Node::Plan(node)) = question.nodes.get(number) else {
            return None;
        };
        let others = ALL.into_iter().filter_map(|fault| {
            let other = misread(fault, question, number)?;
            Some((fault, all_sums(model, &other, state)?))
        });
        Some(Reading {
            node: *node,
            whole: model.whole(node.steps()),
            right: all_sums(model, node, state)?,
            misread: others.collect(),
        })
    }

    /// How many plans there are.
    pub(super) fn count(&self) -> usize {
        self.right.len()
    }

    /// The place and the total of the plan that a judge with the fault shows.
    pub(super) fn shown(&self, fault: Fault) -> Option<(usize, i128)> {
        let misread = self.misread.get(&fault);
        let found = self.best(fault, misread.unwrap_or(&self.right))?;
        match misread {
            // The total is remembered, the plan is not.
            Some(_) if fault == Fault::WindowRemembered => {
                let (place, _) = self.extreme(fault, &self.right)?;
                Some((place, found.1))
            }
            _ => Some(found),
        }
    }

    /// The same among these sums.
    fn best(&self, fault: Fault, sums: &[Sums]) -> Option<(usize, i128)> {
        let meeting = |total: i128| self.lamp(fault, total).meets(self.node.relation);
        let equal = self.node.relation == Relation::Equal;
        if equal || fault == Fault::FirstThatMeets {
            let by_state = |sums: &Sums| sums.by_state && meeting(sums.right);
            let looked = !equal || fault != Fault::EqualByState || sums.iter().any(by_state);
            let mut totals = sums.iter().map(|sums| sums.by(fault)).enumerate();
            return totals.find(|(_, total)| looked && meeting(*total));
        }
        let best = self.extreme(fault, sums);
        best.filter(|(_, total)| meeting(*total))
    }

    /// How a total compares with the bound, to a judge with the fault.
    pub(super) fn lamp(&self, fault: Fault, total: i128) -> Lamp {
        lamp(fault, &self.node, total, self.whole)
    }

    /// The lamp of a no by a judge with the fault: that of the total that it
    /// takes for the least or the greatest, and none for "equal".
    pub(super) fn lamp_of_no(&self, fault: Fault) -> Option<Lamp> {
        let sums = self.misread.get(&fault).unwrap_or(&self.right);
        let asked = self.node.relation != Relation::Equal;
        let best = asked.then(|| self.extreme(fault, sums)).flatten();
        best.map(|(_, total)| self.lamp(fault, total))
    }

    /// The first greatest or least total, as the relation asks for it.
    fn extreme(&self, fault: Fault, sums: &[Sums]) -> Option<(usize, i128)> {
        let wrong_end = fault == Fault::WrongEnd;
        let greatest = (self.node.relation == Relation::Greater) != wrong_end;
        let mut best: Option<(usize, i128)> = None;
        for (place, total) in sums.iter().map(|sums| sums.by(fault)).enumerate() {
            if best.is_none_or(|(_, so_far)| replaces(fault, greatest, total, so_far)) {
                best = Some((place, total));
            }
        }
        best
    }
}

/// The sums of all plans from a state in dictionary order; none if they are too
/// many.
fn all_sums(model: &Model, node: &PlanNode, state: u8) -> Option<Vec<Sums>> {
    let totals = Totals::of(model);
    let (plans, paths) = (
        totals.plans(node.steps(), state),
        totals.paths(node.steps(), state).min(4096),
    );
    if plans.saturating_mul(paths) > AFFORDABLE {
        return None;
    }
    let mut plan = Plan::first(model, state, node.steps());
    let mut found = vec![Sums::of(model, node, &plan)];
    while plan.advance(model) {
        found.push(Sums::of(model, node, &plan));
    }
    Some(found)
}

/// How a total compares with the node's bound, to a judge with the fault.
pub(super) fn lamp(fault: Fault, node: &PlanNode, total: i128, whole: u64) -> Lamp {
    let (p, q) = (i128::from(node.bound.p), i128::from(node.bound.q));
    let whole = i128::from(whole);
    Lamp::of(match fault {
        Fault::UnsignedTotals => ((total * q) as u128).cmp(&((p * whole) as u128)),
        Fault::BoundUnsigned => (total * q).cmp(&(p.abs() * whole)),
        Fault::BoundTurnedOver => (total * p).cmp(&(q * whole)),
        Fault::BoundTruncated => total.cmp(&(p * whole / q)),
        Fault::SidesSigned => {
            let (left, right) = raised(node, total, whole);
            (left as i64).cmp(&(right as i64))
        }
        Fault::DifferenceSigned => ((total * q - p * whole) as i64).cmp(&0),
        _ => (total * q).cmp(&(p * whole)),
    })
}

/// The two sides with the same added to both, so that neither is below 0: the
/// most that can be lost, and p times D to the n where that is below 0. They can
/// reach 18 * 10^18, which 64 bits without a sign hold.
pub(crate) fn raised(node: &PlanNode, total: i128, whole: i128) -> (i128, i128) {
    let (p, q) = (i128::from(node.bound.p), i128::from(node.bound.q));
    let steps = match node.summed {
        Summed::Gains { first, last } => i128::from(last + 1 - first),
        Summed::Weights { .. } => 0,
    };
    let lost = 1000 * steps * whole;
    let owed = (-p).max(0) * whole;
    ((total + lost) * q + owed, p * whole + lost * q + owed)
}

/// Whether a total is shown rather than the best so far.
fn replaces(fault: Fault, greatest: bool, total: i128, so_far: i128) -> bool {
    let better = match (fault, greatest) {
        (Fault::UnsignedTotals, true) => total as u64 > so_far as u64,
        (Fault::UnsignedTotals, false) => (total as u64) < so_far as u64,
        (_, true) => total > so_far,
        (_, false) => total < so_far,
    };
    better || fault == Fault::LastAmongEquals && total == so_far
}
