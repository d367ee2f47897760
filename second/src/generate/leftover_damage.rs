//! Questions with leftover nodes and another fault beside, whose ground comes
//! before 13: in the leftover itself, or elsewhere.

use super::leftovers::{inserted, with_leftovers};
use super::question_damage::{Draft, Harm, HARMS};
use super::rng::Rng;
use crate::blocks::NodeImage;

/// Nodes left over and nothing else.
pub(super) fn left_over(rng: &mut Rng, draft: &mut Draft) {
    if let Some(image) = with_leftovers(rng, &draft.image) {
        draft.image = image;
    }
}

/// Nodes left over, and some other harm.
pub(super) fn left_over_beside(rng: &mut Rng, draft: &mut Draft) {
    left_over(rng, draft);
    let harm: Option<Harm> = rng.pick(HARMS);
    if let Some(harm) = harm {
        harm(rng, draft);
    }
}

/// A leftover with a fault of its own: a field beyond its range, a spare byte, or
/// a plan that is too short for its condition.
pub(super) fn faulty(rng: &mut Rng, draft: &mut Draft) {
    let place = rng.below(draft.count()) as u8;
    let nodes = match rng.below(3) {
        0 => vec![out_of_range(rng, place)],
        1 => vec![with_spare(rng)],
        _ => too_deep(rng, place).to_vec(),
    };
    let mut image = draft.image.clone();
    for (own, node) in (place..).zip(nodes) {
        image = inserted(&image, own, node).unwrap_or(image);
    }
    draft.image = image;
}

fn with(operator: u8) -> NodeImage {
    NodeImage {
        operator,
        ..NodeImage::default()
    }
}

fn plan(left: u8, steps: u8) -> NodeImage {
    NodeImage {
        steps,
        left,
        right: 3,
        p: 1,
        q: 2,
        ..with(8)
    }
}

/// No operator; a proposition, an action or a node that does not exist; a wrong
/// relation, n or bound.
fn out_of_range(rng: &mut Rng, own: u8) -> NodeImage {
    let left = rng.pick_or(&[own, own + 1, 255], 255);
    let wrong = [
        with(0),
        with(10),
        NodeImage {
            left: 32,
            ..with(2)
        },
        NodeImage { left: 8, ..with(5) },
        NodeImage { left, ..with(3) },
        NodeImage { left, ..with(6) },
        NodeImage {
            right: left,
            ..with(4)
        },
        NodeImage {
            right: 4,
            ..plan(0, 1)
        },
        plan(0, 7),
        plan(left, 6),
        NodeImage { p: 3, ..plan(0, 1) },
    ];
    rng.pick_or(&wrong, with(0))
}

/// A right node but for a byte that it does not use.
fn with_spare(rng: &mut Rng) -> NodeImage {
    let mut node = with(rng.pick_or(&[1, 2, 5], 1));
    match rng.below(3) {
        0 => node.right = 1,
        1 => node.steps = 1,
        _ => node.q = 1,
    }
    node
}

/// What the second step does, and a plan of one step over it.
fn too_deep(rng: &mut Rng, first: u8) -> [NodeImage; 3] {
    let next = NodeImage {
        left: first,
        ..with(6)
    };
    let steps = rng.pick_or(&[1, 1, 1, 2], 1);
    [with(5), next, plan(first + 1, steps)]
}
