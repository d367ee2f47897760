//! Nodes of operator 9 that a judge takes for others, because of the other nodes
//! of the question.

use super::Fault;
use crate::logic::{Node, PlanNode, Question, Relation, Summed};

/// The node whose totals a judge with the fault takes for those of a node, if it
/// is another one. The bound it compares them with is the right one.
pub(super) fn misread(fault: Fault, question: &Question, number: usize) -> Option<PlanNode> {
    let Some(Node::Plan(node)) = question.nodes.get(number) else {
        return None;
    };
    match fault {
        Fault::LeftPointedPast => pointed_past(question, number, node),
        Fault::WindowRemembered => remembered(question, number, node),
        _ => None,
    }
}

/// The left byte, taken for a child, follows it past doubled "and"s.
fn pointed_past(question: &Question, number: usize, node: &PlanNode) -> Option<PlanNode> {
    let Summed::Gains { first, last } = node.summed else {
        return None;
    };
    let left = first + 8 * last;
    let earlier = usize::from(left) < number;
    let instead = stand_ins(question).get(usize::from(left)).copied();
    let instead = instead.filter(|instead| earlier && *instead != left)?;
    let summed = Summed::Gains {
        first: instead % 8,
        last: instead / 8,
    };
    Some(PlanNode { summed, ..*node })
}

/// For each node the one that stands for it: an "and" of one node with itself is
/// that node.
fn stand_ins(question: &Question) -> Vec<u8> {
    let mut found: Vec<u8> = Vec::new();
    for (own, node) in (0u8..).zip(&question.nodes) {
        let of = |child: u8| found.get(usize::from(child)).copied();
        let instead = match *node {
            Node::And(left, right) if of(left) == of(right) => of(left),
            _ => None,
        };
        found.push(instead.unwrap_or(own));
    }
    found
}

/// The first node with the same window and relation lends its best totals,
/// though its plans may have another number of steps.
fn remembered(question: &Question, number: usize, node: &PlanNode) -> Option<PlanNode> {
    let alike = |other: &PlanNode| other.summed == node.summed && other.relation == node.relation;
    let earlier = question.plan_nodes().take_while(|(own, _)| *own < number);
    let (_, first) = earlier.into_iter().find(|(_, other)| alike(other))?;
    let counted = node.relation == Relation::Equal;
    (node.sums_gains() && !counted && first.steps != node.steps).then_some(PlanNode {
        steps: first.steps,
        ..*node
    })
}
