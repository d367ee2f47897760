//! Ways to damage a question.

use super::damage::Patches;
use super::gain_damage::{node_at_ends, P_ENDS, Q_ENDS};
use super::leftover_damage::{faulty, left_over, left_over_beside};
use super::rng::Rng;
use crate::blocks::{NodeImage, QuestionImage, BLOCK};

/// A question that is being damaged.
#[derive(Clone)]
pub(super) struct Draft {
    pub(super) image: QuestionImage,
    patches: Patches,
}

impl Draft {
    pub(super) fn of(image: QuestionImage) -> Draft {
        Draft {
            image,
            patches: Patches::default(),
        }
    }

    pub(super) fn pack(&self) -> Vec<u8> {
        self.patches.apply(self.image.pack())
    }

    pub(super) fn count(&self) -> usize {
        usize::from(self.image.count).clamp(1, 40)
    }

    /// One of the nodes within the count, and its number.
    fn node(&mut self, rng: &mut Rng) -> (u8, &mut NodeImage) {
        let number = rng.below(self.count());
        (number as u8, &mut self.image.nodes[number])
    }

    /// One that has no child, so that another in its place leaves none over.
    fn leaf(&mut self, rng: &mut Rng) -> &mut NodeImage {
        let numbered = self.image.counted().iter().enumerate();
        let leaves = numbered.filter(|node| node.1.children().is_empty());
        let places: Vec<usize> = leaves.map(|node| node.0).collect();
        &mut self.image.nodes[rng.pick_or(&places, 0)]
    }
}

pub(super) type Harm = fn(&mut Rng, &mut Draft);

/// All ways, in the order of the grounds they mostly lead to.
pub(super) const HARMS: &[Harm] = &[
    |rng, draft| draft.patches.relength(rng),
    |rng, draft| draft.patches.break_sum(rng, BLOCK),
    |rng, draft| draft.patches.swap_words(rng, BLOCK),
    |rng, draft| draft.patches.set(0, rng.byte(0, 6)),
    |rng, draft| draft.patches.set(1, rng.byte(1, 3)),
    |rng, draft| draft.image.start = rng.pick_or(&[1, 2, 5, 31, 32, 255], 255),
    node_count,
    operator,
    steps,
    act,
    left,
    right,
    p,
    q,
    bound_ends,
    bound_ends,
    gain_ends,
    expected_root,
    expected_root,
    expected_root,
    expected_anywhere,
    |rng, draft| draft.patches.spoil(rng, 4..8),
    |rng, draft| draft.patches.spoil(rng, 488..510),
    beyond_count,
    cell,
    any_byte,
    path_root,
    shorter_plan,
    shorter_plan,
    deeper_condition,
    left_over,
    left_over,
    left_over,
    left_over_beside,
    left_over_beside,
    faulty,
    faulty,
];

fn node_count(rng: &mut Rng, draft: &mut Draft) {
    let now = draft.image.count;
    let about = [0, 40, 41, 255, now.wrapping_add(1), now.wrapping_sub(1)];
    draft.image.count = rng.pick_or(&about, 0);
}

fn operator(rng: &mut Rng, draft: &mut Draft) {
    let operator = rng.pick_or(&[0, 1, 2, 3, 4, 5, 6, 7, 8, 9, 10, 11, 255], 10);
    draft.node(rng).1.operator = operator;
}

fn steps(rng: &mut Rng, draft: &mut Draft) {
    let steps = rng.pick_or(&[0, 1, 6, 7, 255], 7);
    draft.node(rng).1.steps = steps;
}

/// A "do" of an action, of none, or of the silent move, which cannot be asked.
fn act(rng: &mut Rng, draft: &mut Draft) {
    let action = rng.pick_or(&[255, 255, 254, 8, 7, 0], 255);
    *draft.leaf(rng) = NodeImage {
        operator: 5,
        left: action,
        ..NodeImage::default()
    };
}

/// A child, proposition or action at or about the end of its range.
fn left(rng: &mut Rng, draft: &mut Draft) {
    let other = rng.pick_or(&[0, 1, 2, 3, 4, 5, 8, 31, 32, 39, 40, 255], 255);
    let own_way = rng.below(4);
    let (own, node) = draft.node(rng);
    node.left = match own_way {
        0 => own,
        1 => own.wrapping_sub(1),
        _ => other,
    };
}

fn right(rng: &mut Rng, draft: &mut Draft) {
    let other = rng.pick_or(&[0, 1, 2, 3, 4, 255], 4);
    let own_way = rng.below(4);
    let (own, node) = draft.node(rng);
    node.right = match own_way {
        0 => own,
        1 => own.wrapping_sub(1),
        _ => other,
    };
}

fn p(rng: &mut Rng, draft: &mut Draft) {
    let ends = [0, 1, -1, 6000, 6001, -6000, -6001, i32::MIN, i32::MAX];
    draft.node(rng).1.p = rng.pick_or(&ends, 0);
}

fn q(rng: &mut Rng, draft: &mut Draft) {
    let ends = [0, 1, 2, 1_000_000, 1_000_001, u32::MAX, 1 << 31];
    draft.node(rng).1.q = rng.pick_or(&ends, 0);
}

/// The root's bound at the ends of its range.
fn bound_ends(rng: &mut Rng, draft: &mut Draft) {
    let root = draft.count() - 1;
    if draft.image.nodes[root].operator == 9 {
        draft.image.nodes[root].p = rng.pick_or(&P_ENDS, 0);
        draft.image.nodes[root].q = rng.pick_or(&Q_ENDS, 1);
        return;
    }
    let q = rng.pick_or(&[0, 1, 10, 1_000_000, 1_000_001], 1);
    let p = rng.pick_or(&[-1, 0, 1, q as i32, q as i32 + 1, q as i32 - 1], 0);
    draft.image.nodes[root].p = p;
    draft.image.nodes[root].q = q;
}

/// A gain in place of the first node, about the ends of its ranges.
fn gain_ends(rng: &mut Rng, draft: &mut Draft) {
    draft.image.nodes[0] = NodeImage {
        operator: 7,
        steps: rng.pick_or(&[0, 1, 6, 7], 1),
        left: rng.pick_or(&[0, 0, 0, 1], 0),
        right: rng.pick_or(&[0, 1, 2, 3, 4], 1),
        p: rng.pick_or(&[-6001, -6000, 6000, 6001], 0),
        q: rng.pick_or(&[0, 1, 1, 1, 2], 1),
    };
}

/// A root of operator 9 with one field about an end of its range. It has no
/// child, and so it is the whole question; now and then the other nodes are left
/// over.
fn expected_root(rng: &mut Rng, draft: &mut Draft) {
    if !rng.once_in(8) {
        draft.image = QuestionImage {
            start: draft.image.start,
            count: 1,
            ..QuestionImage::default()
        };
    }
    let root = draft.count() - 1;
    draft.image.nodes[root] = node_at_ends(rng);
}

/// The same in place of any node that has no child.
fn expected_anywhere(rng: &mut Rng, draft: &mut Draft) {
    *draft.leaf(rng) = node_at_ends(rng);
}

fn beyond_count(rng: &mut Rng, draft: &mut Draft) {
    let first = 8 + 12 * draft.count();
    if first < 488 {
        draft.patches.spoil(rng, first..488);
    }
}

/// Any byte of any used node.
fn cell(rng: &mut Rng, draft: &mut Draft) {
    let at = 8 + rng.below(12 * draft.count());
    draft.patches.spoil(rng, at..at + 1);
}

fn any_byte(rng: &mut Rng, draft: &mut Draft) {
    let value = rng.byte(0, 255);
    draft.patches.set(rng.below(BLOCK), value);
}

/// A further node "next" over the root.
fn path_root(_: &mut Rng, draft: &mut Draft) {
    let count = draft.count();
    if let Some(place) = draft.image.nodes.get_mut(count) {
        *place = NodeImage {
            operator: 6,
            left: count as u8 - 1,
            ..NodeImage::default()
        };
        draft.image.count = count as u8 + 1;
    }
}

/// A plan node with one step less, or just one.
fn shorter_plan(rng: &mut Rng, draft: &mut Draft) {
    let count = draft.count();
    let one = rng.once_in(2);
    for node in &mut draft.image.nodes[..count] {
        if node.operator == 8 {
            node.steps = if one {
                1
            } else {
                node.steps.saturating_sub(1).max(1)
            };
        }
    }
}

/// A root that plans over what the last root planned over, one step later.
fn deeper_condition(rng: &mut Rng, draft: &mut Draft) {
    let count = draft.count();
    let root = draft.image.nodes[count - 1];
    if let (8, Some(place)) = (root.operator, draft.image.nodes.get_mut(count)) {
        *place = NodeImage {
            steps: rng.byte(1, 6),
            left: count as u8 - 1,
            ..root
        };
        draft.image.nodes[count - 1] = NodeImage {
            operator: 6,
            left: root.left,
            ..NodeImage::default()
        };
        draft.image.count = count as u8 + 1;
    }
}
