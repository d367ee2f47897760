//! Operator 9 with one field at, or beyond, an end of its range.

use super::rng::Rng;
use crate::blocks::NodeImage;

/// A node that is right but for one field, which is about an end of its range.
pub(super) fn node_at_ends(rng: &mut Rng) -> NodeImage {
    let mut node = right_node(rng);
    match rng.below(6) {
        0 => steps(rng, &mut node),
        1..=2 => window(rng, &mut node),
        3 => node.right = rng.pick_or(&[0, 1, 2, 3, 4, 255], 0),
        4 => node.p = rng.pick_or(&P_ENDS, 0),
        _ => node.q = rng.pick_or(&Q_ENDS, 0),
    }
    node
}

pub(super) const P_ENDS: [i32; 10] = [
    6_000_000,
    6_000_001,
    -6_000_000,
    -6_000_001,
    6_001,
    -6_001,
    0,
    -1,
    i32::MIN,
    i32::MAX,
];

pub(super) const Q_ENDS: [u32; 8] = [0, 1, 2, 1000, 1001, 1_000_000, 1 << 31, u32::MAX];

/// The left byte of a window of steps, right or wrong.
fn left(first: u8, last: u8) -> u8 {
    first + 8 * last
}

/// A right node, with p and q anywhere in their ranges.
fn right_node(rng: &mut Rng) -> NodeImage {
    let steps = rng.byte(1, 6);
    let last = rng.byte(1, steps);
    let first = rng.byte(1, last);
    let p = rng.range(0, 12_000_000) as i32 - 6_000_000;
    NodeImage {
        operator: 9,
        steps,
        left: left(first, last),
        right: rng.byte(1, 3),
        p: rng.pick_or(&[p, p / 1000, p / 1_000_000], p),
        q: rng.range(1, 1000) as u32,
    }
}

/// A number of steps that does not exist, or one that ends before or with the
/// window.
fn steps(rng: &mut Rng, node: &mut NodeImage) {
    let last = node.left / 8;
    let about = [0, 1, 6, 7, 255, last, last - 1];
    node.steps = rng.pick_or(&about, 0);
}

/// The first step 0, the last possible, 7 or beyond the last one; the last one
/// the plan's, or one more; or no window at all.
fn window(rng: &mut Rng, node: &mut NodeImage) {
    let (steps, last) = (node.steps, node.left / 8);
    let about = [
        left(0, last),
        left(0, 0),
        left(1, 0),
        left(last, last),
        left(last + 1, last),
        left(7, last),
        left(7, 7),
        left(1, steps),
        left(steps, steps),
        left(1, steps + 1),
        left(1, 6),
        left(1, 7),
        left(1, 31),
        255,
    ];
    node.left = rng.pick_or(&about, 0);
}
