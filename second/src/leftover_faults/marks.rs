//! Which questions a judge with a fault takes for ones without leftovers, where
//! no other ground is against them.

use super::Fault;
use crate::blocks::{NodeImage, QuestionImage};

/// Whether the question passes.
pub(super) fn passes(fault: Fault, image: &QuestionImage) -> bool {
    let nodes = image.counted();
    let reached = image.reached();
    let unasked = |own: usize| is_unasked(fault, image, &reached, own);
    let all = |marked: Vec<bool>| marked.into_iter().all(|mark| mark);
    match fault {
        Fault::NotTested => true,
        Fault::RootAskedToo => false,
        Fault::OneAllowed => reached.iter().filter(|found| !**found).count() <= 1,
        Fault::ReferencesCounted => references(nodes).len() + 1 >= nodes.len(),
        Fault::SharedRefused => all(reached) && references(nodes).len() + 1 == nodes.len(),
        Fault::ConnectedPassed => all(connected(image)),
        Fault::SixLevels => all(within(image, 6)),
        Fault::ThirtyLevels => all(within(image, 30)),
        Fault::ChildrenOnly => all(within(image, 1)),
        Fault::MarkedModuloThirtyTwo => all(modulo(&reached, 32)),
        Fault::MarkedModuloEight => all(modulo(&reached, 8)),
        Fault::PlanRootUnasked if root_is(image, &[8]) => true,
        Fault::ExpectedRootUnasked if root_is(image, &[9]) => true,
        Fault::OtherRootUnasked if !root_is(image, &[8, 9]) => true,
        _ => {
            let marked = marked(fault, image);
            (0..nodes.len()).all(|own| marked[own] || unasked(own))
        }
    }
}

fn root_is(image: &QuestionImage, operators: &[u8]) -> bool {
    let root = image.counted().last();
    root.is_some_and(|root| operators.contains(&root.operator))
}

/// The children of all nodes, each as often as it is one.
fn references(nodes: &[NodeImage]) -> Vec<u8> {
    nodes.iter().flat_map(|node| node.children()).collect()
}

/// The nodes that are reached where a judge with the fault says what is a child
/// and what is the root.
fn marked(fault: Fault, image: &QuestionImage) -> Vec<bool> {
    let nodes = image.counted();
    let roots = roots(fault, image);
    let mut found: Vec<bool> = (0..nodes.len()).map(|own| roots.contains(&own)).collect();
    for (own, node) in nodes.iter().enumerate().rev() {
        if found[own] {
            mark(&mut found, &children(fault, node));
        }
    }
    found
}

/// Marks the nodes that there are; a byte that is no child may have any number.
fn mark(found: &mut [bool], numbers: &[u8]) {
    for number in numbers {
        if let Some(place) = found.get_mut(usize::from(*number)) {
            *place = true;
        }
    }
}

/// Where the walk begins.
fn roots(fault: Fault, image: &QuestionImage) -> Vec<usize> {
    let nodes = image.counted();
    let last = nodes.len().saturating_sub(1);
    let start = usize::from(image.start);
    let last_plan = nodes.iter().rposition(|node| node.operator >= 8);
    match fault {
        Fault::LastPlanIsRoot => vec![last_plan.unwrap_or(last)],
        Fault::StartFollowed if start < last => vec![start, last],
        _ => vec![last],
    }
}

fn children(fault: Fault, node: &NodeImage) -> Vec<u8> {
    let mut found = match (fault, node.operator) {
        (Fault::RightOfAndUnfollowed, 4) => vec![node.left],
        (Fault::LeftOfAndUnfollowed, 4) => vec![node.right],
        (Fault::NotUnfollowed, 3) | (Fault::NextUnfollowed, 6) | (Fault::PlanUnfollowed, 8) => {
            Vec::new()
        }
        _ => node.children(),
    };
    found.extend(followed(fault, node));
    found
}

/// What a judge with the fault follows beside the children.
fn followed(fault: Fault, node: &NodeImage) -> Option<u8> {
    let numbers = matches!(node.operator, 7..=9);
    match (fault, node.operator) {
        (Fault::PropositionFollowed, 2)
        | (Fault::ActionFollowed, 5)
        | (Fault::WindowFollowed, 9)
        | (Fault::GainLeftFollowed, 7)
        | (Fault::EveryLeftFollowed, _) => Some(node.left),
        (Fault::GainRelationFollowed, 7)
        | (Fault::PlanRelationFollowed, 8)
        | (Fault::ExpectedRelationFollowed, 9)
        | (Fault::EveryRightFollowed, _) => Some(node.right),
        (Fault::SpareFollowed, 1..=3 | 5..=7) => Some(0),
        (Fault::StepsFollowed, _) if numbers => Some(node.steps),
        (Fault::PFollowed, _) if numbers => u8::try_from(node.p).ok(),
        (Fault::QFollowed, _) if numbers => u8::try_from(node.q).ok(),
        _ => None,
    }
}

/// Whether a judge with the fault does not ask for a leftover.
fn is_unasked(fault: Fault, image: &QuestionImage, reached: &[bool], own: usize) -> bool {
    let nodes = image.counted();
    let node = nodes[own];
    let only = |operators: &[u8]| operators.contains(&node.operator);
    match fault {
        Fault::FirstUnasked => own == 0,
        Fault::BeforeRootUnasked => own + 2 == nodes.len(),
        Fault::FromThirtyTwoUnasked => own >= 32,
        Fault::FalseUnasked => only(&[1]),
        Fault::PropositionUnasked => only(&[2]),
        Fault::NotUnasked => only(&[3]),
        Fault::AndUnasked => only(&[4]),
        Fault::DoUnasked => only(&[5]),
        Fault::NextUnasked => only(&[6]),
        Fault::GainUnasked => only(&[7]),
        Fault::PlanUnasked => only(&[8]),
        Fault::ExpectedUnasked => only(&[9]),
        Fault::OnlyPlansAsked => !only(&[8, 9]),
        Fault::TwinPassed => nodes.iter().zip(reached).any(|(n, r)| *r && *n == node),
        Fault::LinkedPassed => {
            !node.children().is_empty() || references(nodes).contains(&(own as u8))
        }
        _ => false,
    }
}

/// The nodes that are so many levels below the root, or fewer.
fn within(image: &QuestionImage, levels: usize) -> Vec<bool> {
    let nodes = image.counted();
    let root = nodes.len().saturating_sub(1);
    let mut found: Vec<bool> = (0..nodes.len()).map(|own| own == root).collect();
    for _ in 0..levels {
        let parents = nodes.iter().zip(&found).filter(|node| *node.1);
        let children: Vec<u8> = parents.flat_map(|(node, _)| node.children()).collect();
        mark(&mut found, &children);
    }
    found
}

/// The nodes that children connect with the root, upwards or downwards.
fn connected(image: &QuestionImage) -> Vec<bool> {
    let nodes = image.counted();
    let mut found = image.reached();
    // Each round over all nodes but the last marks one more.
    for (own, node) in nodes.iter().enumerate().cycle().take(40 * nodes.len()) {
        let mut family = node.children();
        family.push(own as u8);
        if family.iter().any(|member| found[usize::from(*member)]) {
            mark(&mut found, &family);
        }
    }
    found
}

/// The marks of all nodes with the same number modulo so many.
fn modulo(reached: &[bool], modulus: usize) -> Vec<bool> {
    let like = |own: usize| reached.iter().skip(own % modulus).step_by(modulus);
    let numbers = 0..reached.len();
    numbers.map(|own| like(own).any(|found| *found)).collect()
}
