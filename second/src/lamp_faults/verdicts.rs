//! The lamps of verdicts, by judges with faults.

use super::missed::{best, Missed};
use super::sides::Sides;
use super::{Asked, Fault};
use crate::logic::{fast, Judged, Lamp, Node, Plan, PlanNode, Relation, Totals, Verdict};

/// What a verdict's lamp can be told of.
pub(super) enum Lamps<'a> {
    /// Of nothing, rightly: another root, a no to "equal".
    OtherRoot {
        over_plans: bool,
    },
    NoneEqual,
    Yes(Found<'a>),
    No(Found<'a>, Missed<'a>),
}

impl<'a> Lamps<'a> {
    pub(super) fn of(asked: &'a Asked, judged: &Judged) -> Lamps<'a> {
        let Some(root) = asked.root else {
            let is_plan = |node: &Node| matches!(node, Node::Plan(_));
            let over_plans = asked.question.nodes.iter().any(is_plan);
            return Lamps::OtherRoot { over_plans };
        };
        match judged.verdict {
            Verdict::YesPlan(record) => Lamps::Yes(Found::of(asked, &root, record.total)),
            Verdict::No { lamp: Some(_), .. } => {
                let total = best(asked.model, asked.question, root);
                Lamps::No(Found::of(asked, &root, total), Missed::of(asked, root))
            }
            Verdict::No { lamp: None, .. } | Verdict::Yes => Lamps::NoneEqual,
        }
    }

    /// The lamp of a judge with the fault, if it gives one.
    pub(super) fn by(&self, fault: Fault) -> Option<Lamp> {
        match (self, fault) {
            (Lamps::OtherRoot { over_plans: true }, Fault::LampOnOtherRoot)
            | (Lamps::NoneEqual, Fault::LampOnEqual) => Some(Lamp::Below),
            (Lamps::Yes(_), Fault::NoLampOnYes) | (Lamps::No(..), Fault::NoLampOnNo) => None,
            (Lamps::Yes(found), _) => Some(found.lamp(fault)),
            (Lamps::No(found, missed), _) => Some(match missed.best_by(fault) {
                Some(total) => found.right.with(total).right(),
                None => found.lamp(fault),
            }),
            (Lamps::OtherRoot { .. } | Lamps::NoneEqual, _) => None,
        }
    }
}

/// The total that the lamp is of: the shown plan's, or the best one on no.
pub(super) struct Found<'a> {
    asked: &'a Asked<'a>,
    right: Sides,
}

impl<'a> Found<'a> {
    fn of(asked: &'a Asked, root: &PlanNode, total: i128) -> Found<'a> {
        Found {
            asked,
            right: asked.sides(root, total),
        }
    }

    /// The lamp of a judge with the fault.
    fn lamp(&self, fault: Fault) -> Lamp {
        match (fault, self.taken_for(fault)) {
            (Fault::OfThePlanBelow, _) => self.lamp_below().unwrap_or(self.right.right()),
            (_, Some(total)) => self.right.with(total).right(),
            (_, None) => self.right.lamp(fault),
        }
    }

    /// The total that it is taken for by a judge with the fault, if for any.
    fn taken_for(&self, fault: Fault) -> Option<i128> {
        let (model, question) = (self.asked.model, self.asked.question);
        let root = self.right.root;
        let (start, steps) = (question.start, root.steps());
        let of = |plan: Plan| fast::total_of(model, question, &root, &plan, &Totals::of(model));
        let end = |relation| best(model, question, PlanNode { relation, ..root });
        match fault {
            Fault::FirstPlan => Some(of(Plan::first(model, start, steps))),
            Fault::LastPlan => Some(of(Plan::last(model, start, steps))),
            Fault::GreatestForAll => Some(end(Relation::Greater)),
            Fault::LeastForAll => Some(end(Relation::Less)),
            _ => None,
        }
    }

    /// The lamp of the best total of the first plan node, as a question of its
    /// own, where that stands below the root and does not ask for "equal".
    fn lamp_below(&self) -> Option<Lamp> {
        let (model, question) = (self.asked.model, self.asked.question);
        let (number, node) = question.plan_nodes().next()?;
        if number == question.root() || node.relation == Relation::Equal {
            return None;
        }
        let mut asked = question.clone();
        asked.nodes.truncate(number + 1);
        let total = best(model, &asked, node);
        Some(node.lamp(total, model.whole(node.steps())))
    }
}
