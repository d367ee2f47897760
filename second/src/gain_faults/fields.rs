//! What a judge with a fault answers to a question that is put.

use super::Fault;
use crate::blocks::{NodeImage, QuestionImage};
use crate::desk::Desk;
use crate::ground::Ground;
use crate::logic::{Node, Question};

/// Whether put is answered otherwise. `desk` is the right one after the call.
pub(super) fn put_differs(
    fault: Fault,
    bytes: &[u8],
    right: Result<(), Ground>,
    desk: &Desk,
) -> bool {
    let mut image = QuestionImage::unpack(bytes);
    match right {
        Err(Ground::Range) => {
            let nines = image.nodes.iter_mut().filter(|node| node.operator == 9);
            let passed = nines.filter_map(|node| accepted_as(fault, node).map(|new| *node = new));
            passed.count() > 0 && desk.clone().put(&image.pack()) != Err(Ground::Range)
        }
        Ok(()) | Err(Ground::Spare | Ground::Formula) => {
            let numbered = (0u8..).zip(image.counted());
            let mut nines = numbered.filter(|(_, node)| node.operator == 9);
            let refused = nines.any(|(own, node)| refuses(fault, own, node));
            let question = desk.question().ok().filter(|_| right.is_ok());
            refused || question.is_some_and(|question| ill_formed(fault, question))
        }
        _ => false,
    }
}

/// A right node for which the fault takes a wrong one, if it does.
fn accepted_as(fault: Fault, node: &NodeImage) -> Option<NodeImage> {
    let NodeImage { steps, left, .. } = *node;
    let (first, last) = (left % 8, left / 8);
    let window = |first: u8, last: u8| NodeImage {
        left: first + 8 * last,
        ..*node
    };
    match fault {
        Fault::StepsUnchecked if steps > 6 => Some(NodeImage {
            steps: 6,
            ..window(first.min(6), last.min(6))
        }),
        Fault::FirstZero if first == 0 => Some(window(1, last)),
        Fault::FirstOverLast if first > last => Some(window(last, last)),
        Fault::LastOverSteps if last > steps => Some(window(first.min(steps), steps)),
        Fault::RelationUnchecked => Some(NodeImage { right: 1, ..*node }),
        Fault::POneBeyond if node.p.unsigned_abs() == 6_000_001 => {
            Some(NodeImage { p: 0, ..*node })
        }
        Fault::QZero if node.q == 0 => Some(NodeImage { q: 1, ..*node }),
        Fault::QAsOfPlans if (1001..=1_000_000).contains(&node.q) => {
            Some(NodeImage { q: 1, ..*node })
        }
        _ => None,
    }
}

/// Whether a node with right fields is refused with 5.
fn refuses(fault: Fault, own: u8, node: &NodeImage) -> bool {
    let (first, last) = (node.left % 8, node.left / 8);
    match fault {
        Fault::NoOperator => true,
        Fault::LeftIsChild => node.left >= own,
        Fault::LastStepRefused => last == node.steps,
        Fault::OneStepRefused => first == last,
        Fault::PEndsRefused => node.p.unsigned_abs() == 6_000_000,
        Fault::PAsOfPlans => node.p < 0 || node.p as u32 > node.q,
        Fault::PAsOfGains => node.p.unsigned_abs() > 6_000,
        Fault::QEndRefused => node.q == 1000,
        Fault::QAsOfGains => node.q != 1,
        _ => false,
    }
}

/// Whether an accepted question is refused with 9.
fn ill_formed(fault: Fault, question: &Question) -> bool {
    match fault {
        Fault::PathFormula => {
            let mut changed = question.clone();
            replace(&mut changed, |_| Some(Node::Do(0)));
            changed.path_formulas().last() == Some(&true)
        }
        Fault::DepthIsSteps => {
            let mut changed = question.clone();
            replace(&mut changed, |node| match node {
                Node::Plan(plan) => Some(Node::Gain {
                    steps: plan.steps,
                    relation: plan.relation,
                    bound: 0,
                }),
                _ => None,
            });
            // That the root may be a path formula now is another fault.
            changed.nodes.push(Node::False);
            !changed.well_formed()
        }
        Fault::LeftIsChild => {
            let depths = question.depths();
            let image = QuestionImage::from(question);
            let mut nines = image.counted().iter().filter(|node| node.operator == 9);
            nines.any(|node| depths.get(usize::from(node.left)) > Some(&usize::from(node.steps)))
        }
        _ => false,
    }
}

/// Replaces the nodes of operator 9.
fn replace(question: &mut Question, with: fn(&Node) -> Option<Node>) {
    for node in &mut question.nodes {
        if super::is_gains(node) {
            if let Some(new) = with(node) {
                *node = new;
            }
        }
    }
}
