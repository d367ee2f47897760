//! Verdicts of judges with faults: of a root of operator 9, and of other roots
//! with such nodes below them.

use super::sums::Reading;
use super::{gains_root, is_gains, Fault, ALL};
use crate::desk::Desk;
use crate::logic::{Judged, Model, Node, Plan, PlanNode, PlanRecord, Question};
use crate::logic::{Relation, Verdict};

/// The faults with which another verdict is given.
pub(super) fn wrong(
    model: &Model,
    question: &Question,
    right: &Judged,
) -> Vec<(Fault, &'static str)> {
    if let Some(root) = gains_root(question) {
        let sums = Reading::of(model, question, question.root(), question.start);
        let Some(sums) = sums else {
            return Vec::new();
        };
        let differs = |fault: &Fault| judged(*fault, model, question, &root, &sums) != *right;
        let found = ALL.into_iter().filter(differs);
        return found.map(|fault| (fault, "judge")).collect();
    }
    let differs = |desk: &mut Desk| desk.judge().ok() != Some(right);
    let found = wrong_below(model, question).into_iter();
    let told = found.filter_map(|(fault, mut desk)| differs(&mut desk).then_some(fault));
    told.map(|fault| (fault, "judge below")).collect()
}

/// The verdict on a root of operator 9.
fn judged(
    fault: Fault,
    model: &Model,
    question: &Question,
    root: &PlanNode,
    sums: &Reading,
) -> Judged {
    let counted = |count: usize| match root.relation {
        Relation::Equal if fault != Fault::NotCounted => count as u64,
        _ => 0,
    };
    let Some((place, total)) = sums.shown(fault) else {
        return Judged::plain(Verdict::No {
            count: counted(sums.count()),
            lamp: sums.lamp_of_no(fault),
        });
    };
    if fault == Fault::NoPlanShown {
        return Judged::plain(Verdict::Yes);
    }
    let lamp = sums.lamp(fault, total);
    let total = match fault {
        Fault::TotalUnsigned => total.abs(),
        _ => total,
    };
    Judged {
        verdict: Verdict::YesPlan(PlanRecord {
            total,
            steps: root.steps,
            lamp,
            count: counted(place + 1),
        }),
        choices: choices_at(model, question, root, place),
    }
}

/// The choices of the plan in a place, from 0.
fn choices_at(model: &Model, question: &Question, root: &PlanNode, place: usize) -> Vec<u8> {
    let mut plan = Plan::first(model, question.start, root.steps());
    for _ in 0..place {
        plan.advance(model);
    }
    plan.choices(model)
}

/// For each fault about the truth of nodes of operator 9 below the root, a desk
/// on which these nodes have the truth that the fault gives them, if that is
/// another than the right one. The truth of each is told by a proposition of
/// its own; none if the model has too few left.
pub(super) fn wrong_below(model: &Model, question: &Question) -> Vec<(Fault, Desk)> {
    let numbered = question.nodes.iter().enumerate();
    let below: Vec<usize> = numbered
        .filter(|(number, node)| is_gains(node) && *number != question.root())
        .map(|(number, _)| number)
        .collect();
    let room = 32 - usize::from(model.propositions);
    if below.is_empty() || below.len() > room {
        return Vec::new();
    }
    let truths = below.iter().map(|own| Truths::of(model, question, *own));
    let Some(truths) = truths.collect::<Option<Vec<Truths>>>() else {
        return Vec::new();
    };
    let differing = ALL.into_iter().filter(|fault| {
        let mut nodes = truths.iter();
        nodes.any(|node| node.by(*fault) != node.by(Fault::WeightSigned))
    });
    let desk = |fault: Fault| {
        let (mut told, mut asked) = (model.clone(), question.clone());
        for (bit, (number, truths)) in (model.propositions..).zip(below.iter().zip(&truths)) {
            asked.nodes[*number] = Node::Proposition(bit);
            for (state, mask) in told.valuation.iter_mut().enumerate() {
                *mask |= u32::from(truths.by(fault)[state]) << bit;
            }
        }
        Desk::holding(told, asked)
    };
    differing.map(|fault| (fault, desk(fault))).collect()
}

/// The sums of all plans of a node, for each state.
struct Truths(Vec<Reading>);

impl Truths {
    fn of(model: &Model, question: &Question, number: usize) -> Option<Truths> {
        let states = 0..u8::try_from(model.states()).unwrap_or(u8::MAX);
        let sums = states.map(|state| Reading::of(model, question, number, state));
        sums.collect::<Option<_>>().map(Truths)
    }

    /// In which states a judge with the fault takes the node for true.
    fn by(&self, fault: Fault) -> Vec<bool> {
        let found = self.0.iter().map(|sums| sums.shown(fault));
        found.map(|found| found.is_some()).collect()
    }
}
