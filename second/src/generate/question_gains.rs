//! Random questions about expected gains (operator 9): as the root, and below
//! it in places where they matter.

use super::question::Drawer;
use crate::logic::{Bound, Node, PlanNode, Summed};

/// The left byte of a node that sums gains.
pub(super) fn window(node: &Node) -> Option<u8> {
    match node {
        Node::Plan(PlanNode {
            summed: Summed::Gains { first, last },
            ..
        }) => Some(first + 8 * last),
        _ => None,
    }
}

impl Drawer<'_> {
    /// A root that sums gains, by a window that mostly tells plans apart. It has
    /// no child, and so no other node stands beside it.
    pub(super) fn gains_root(&mut self) -> Node {
        let start = self.question.start;
        let mut root = None;
        for _ in 0..8 {
            root = self.gains_from(start);
            if matches!(root, Some(Node::Plan(plan)) if self.tells_apart(&plan)) {
                break;
            }
        }
        root.unwrap_or(Node::False)
    }

    /// A node that sums gains, with a bound near the total of some plan from a
    /// state; none if no number of steps serves.
    pub(super) fn gains_from(&mut self, state: u8) -> Option<Node> {
        let relation = self.relation();
        let serving = self.serving(relation, 1);
        let steps = self.rng.pick(&serving)?;
        let last = match self.rng.once_in(3) {
            true => steps,
            false => self.rng.byte(1, steps),
        };
        let first = self.rng.byte(1, last);
        let mut plan = PlanNode {
            steps,
            summed: Summed::Gains { first, last },
            relation,
            bound: Bound { p: 0, q: 1 },
        };
        plan.bound = self.bound(&plan, state);
        Some(Node::Plan(plan))
    }

    /// A question with one or two such nodes below its root: under "not" or
    /// "and", or read some steps on in the paths of a plan.
    pub(super) fn about_gains(&mut self) -> Node {
        let nexts = self.rng.below(4);
        self.gains_met_after(nexts);
        let last = self.question.root() as u8;
        if nexts == 0 && self.rng.once_in(2) {
            return match self.rng.once_in(2) {
                true => Node::Not(last),
                false => Node::And(last, self.rng.below(usize::from(last) + 1) as u8),
            };
        }
        for _ in 0..nexts {
            self.add_over(Node::Next);
        }
        let condition = self.question.root() as u8;
        self.plan_over(condition).unwrap_or(Node::Not(last))
    }

    /// One or two nodes about gains from a state that can be met after so many
    /// steps, negated or not, joined by "and".
    fn gains_met_after(&mut self, steps: usize) {
        let mut joined = Vec::new();
        for _ in 0..self.rng.range(1, 2) {
            let state = self.state_after(steps);
            let node = self.gains_from(state).unwrap_or(Node::False);
            self.question.nodes.push(node);
            if self.rng.once_in(3) {
                self.add_over(Node::Not);
            }
            joined.push(self.question.root() as u8);
        }
        if let [left, right] = joined[..] {
            self.question.nodes.push(Node::And(left, right));
        }
    }

    /// The last state of a random path of so many steps.
    fn state_after(&mut self, steps: usize) -> u8 {
        let path = self.random_path(steps);
        path.states.last().copied().unwrap_or(0)
    }
}
