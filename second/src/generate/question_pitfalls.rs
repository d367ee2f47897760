//! Random questions about expected gains (operator 9) in which a node's left
//! byte, or its window of steps, is easily taken for something else.

use super::question::Drawer;
use super::question_gains::window;
use super::question_shapes::surely;
use crate::logic::{Bound, Node, PlanNode, Relation, Summed};

/// A left byte, of a window of steps, that is the number of an earlier node has
/// to leave room for the node itself, for joining it to the earlier ones and for
/// a root.
const MOST_LEFT: u8 = 34;

impl Drawer<'_> {
    /// A node whose left byte is also the number of an earlier "and" of one node
    /// with itself: it is no child, and a judge that points past such an "and"
    /// must leave it alone. All earlier nodes are used and what they say is true,
    /// so that the answer turns on this one. It stands just below the root, or in
    /// the condition of one.
    pub(super) fn left_of_an_and(&mut self) -> Node {
        let start = self.question.start;
        let fitting = |node: &Node| window(node).is_some_and(|left| left <= MOST_LEFT);
        let drawn = (0..8).find_map(|_| self.gains_from(start).filter(fitting));
        let Some((node, left)) = drawn.and_then(|node| Some((node, window(&node)?))) else {
            return Node::False;
        };
        let truths = self.add_fillers(left);
        let same = self.another_window(&truths);
        let doubled = Node::And(same, same);
        let both = Node::And(left - 1, left);
        let joined = Node::And(left + 1, left + 2);
        self.question.nodes.extend([doubled, node, both, joined]);
        let last = left + 3;
        match self.rng.below(6) {
            0 => Node::Not(last),
            1 => Node::And(last, left + 1),
            _ => surely(last, self.relation()),
        }
    }

    /// So many nodes, and whether each is true, in whatever state. Each has the
    /// one before as a child, so that all are used, and the last is true.
    fn add_fillers(&mut self, count: u8) -> Vec<bool> {
        let mut truths: Vec<bool> = Vec::new();
        for own in 0..count {
            let (node, truth) = self.filler(own, &truths, own + 1 == count);
            self.question.nodes.push(node);
            truths.push(truth);
        }
        truths
    }

    /// A node that takes no time, over the one before and now and then an earlier
    /// one, with its truth. Mostly those are true whose number may be the left
    /// byte of a window.
    fn filler(&mut self, own: u8, truths: &[bool], last: bool) -> (Node, bool) {
        let before = own.wrapping_sub(1);
        let earlier = self.rng.below(own.into()) as u8;
        let true_one = truths.get(usize::from(earlier)) == Some(&true);
        let other = if true_one { earlier } else { before };
        let stays = last || (own > 8 && !self.rng.once_in(8));
        match truths.last() {
            None => (Node::False, false),
            Some(false) => (Node::Not(before), true),
            Some(true) if stays => (Node::And(before, other), true),
            Some(true) => (Node::Not(before), false),
        }
    }

    /// A node that is true: mostly one whose number is the left byte of a window,
    /// if there is one.
    fn another_window(&mut self, truths: &[bool]) -> u8 {
        let numbered = (0u8..).zip(truths);
        let all: Vec<u8> = numbered.filter(|node| *node.1).map(|node| node.0).collect();
        let is_window = |own: &u8| (1..=own / 8).contains(&(own % 8));
        let windows: Vec<u8> = all.iter().copied().filter(is_window).collect();
        let any = self.rng.pick_or(&all, 0);
        match self.rng.once_in(4) {
            true => any,
            false => self.rng.pick_or(&windows, any),
        }
    }

    /// Two nodes with one window and one relation and with different numbers of
    /// steps, joined by "and", as the root or below "not" or a plan. The answer
    /// mostly turns on the second: the first is true, or drawn as well.
    pub(super) fn one_window(&mut self) -> Node {
        let both = [Relation::Less, Relation::Greater];
        let relation = self.rng.pick_or(&both, Relation::Less);
        let mut serving = self.serving(relation, 1);
        self.rng.shuffle(&mut serving);
        let [one, other, ..] = serving[..] else {
            return Node::False;
        };
        let last = self.rng.byte(1, one.min(other));
        let first = self.rng.byte(1, last);
        let [mut before, mut after] = [one, other].map(|steps| PlanNode {
            steps,
            summed: Summed::Gains { first, last },
            relation,
            bound: Bound { p: 0, q: 1 },
        });
        before.bound = match self.rng.once_in(3) {
            true => self.bound(&before, self.question.start),
            false => easy(relation),
        };
        after.bound = self.bound(&after, self.question.start);
        let both = [Node::Plan(before), Node::Plan(after)];
        self.question.nodes.extend(both);
        let kind = self.rng.below(4);
        if kind < 2 {
            self.question.nodes.push(Node::And(0, 1));
        }
        match kind {
            0 => surely(2, self.relation()),
            1 => Node::Not(2),
            _ => Node::And(0, 1),
        }
    }
}

/// A bound that every plan meets: no six steps earn more than 6,000 points.
fn easy(relation: Relation) -> Bound {
    let p = match relation {
        Relation::Less => 6_001,
        _ => -6_001,
    };
    Bound { p, q: 1 }
}
