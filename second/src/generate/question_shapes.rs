//! Random questions with many nodes that are all used: nodes that nobody uses
//! gathered into a condition, towers of "and" over one node, nodes shared by a
//! plan's condition and a formula beside the plan, and chains in which each node
//! is reached in one way only.

use super::question::Drawer;
use crate::blocks::NodeImage;
use crate::logic::{Bound, Node, PlanNode, Relation, Summed};

/// The most nodes below a root.
const BELOW_ROOT: usize = 39;

/// How a node of a chain holds the one before it.
#[derive(Clone, Copy)]
enum Link {
    Not,
    /// Over it as the left child, with a node that is true as the right one.
    Left,
    /// The other way round.
    Right,
    Plan,
    /// "And" of it with itself.
    Doubled,
}

impl Drawer<'_> {
    /// The last node, or none where there is none.
    fn last(&self) -> Option<u8> {
        self.question
            .nodes
            .len()
            .checked_sub(1)
            .map(|own| own as u8)
    }

    fn has_room(&self, more: usize) -> bool {
        self.question.nodes.len() + more <= BELOW_ROOT
    }

    /// Joins the nodes that no node has as a child, two at a time and as far as
    /// there is room, so that a root over the last node reaches most of what was
    /// drawn. Conditions that look further ahead than any plan are left out.
    pub(super) fn gather(&mut self) {
        let most = self.serving(Relation::Less, 1).last().copied();
        let depths = self.question.depths();
        let shallow = |own: &u8| depths[usize::from(*own)] <= most.unwrap_or(0).into();
        let mut loose: Vec<u8> = self.unused().into_iter().filter(shallow).collect();
        self.rng.shuffle(&mut loose);
        while let (Some(one), Some(other), true) = (loose.pop(), loose.pop(), self.has_room(4)) {
            self.join(one, other);
            loose.extend(self.last());
        }
    }

    /// The nodes that no node has as a child.
    pub(super) fn unused(&self) -> Vec<u8> {
        let mut used = vec![false; self.question.nodes.len()];
        let images = self.question.nodes.iter().copied().map(NodeImage::from);
        for child in images.flat_map(NodeImage::children) {
            used[usize::from(child)] = true;
        }
        let numbered = (0u8..).zip(used);
        numbered.filter(|node| !node.1).map(|node| node.0).collect()
    }

    /// Adds that both are true, that one is and the other not, or that one of
    /// them is.
    fn join(&mut self, one: u8, other: u8) {
        let next = self.question.nodes.len() as u8;
        let more: &[Node] = match self.rng.below(4) {
            0 => &[Node::And(one, other)],
            1 => &[Node::Not(other), Node::And(one, next)],
            _ => &[
                Node::Not(one),
                Node::Not(other),
                Node::And(next, next + 1),
                Node::Not(next + 2),
            ],
        };
        self.question.nodes.extend(more);
    }

    /// A plan over a tower of "and" on some drawn nodes: each is of the last node
    /// with itself or with an earlier one. Followed as a tree, such a formula has
    /// more nodes than can be looked at.
    pub(super) fn tower(&mut self) -> Node {
        let drawn = self.close_gain(0);
        self.question.nodes.push(drawn);
        for _ in 0..self.rng.range(0, 3) {
            let node = self.node();
            self.question.nodes.push(node);
        }
        self.gather();
        let height = self.height();
        while self.question.nodes.len() < height {
            let last = self.question.root();
            let earlier = [last, last, last - last.min(1), self.rng.below(last + 1)];
            let earlier = self.rng.pick_or(&earlier, last) as u8;
            self.question.nodes.push(Node::And(last as u8, earlier));
        }
        self.plan_or_not()
    }

    /// How many nodes a tower or a chain has below its root, now and then as many
    /// as there is room for.
    fn height(&mut self) -> usize {
        match self.rng.below(4) {
            0 => BELOW_ROOT,
            1 => self.rng.range(12, BELOW_ROOT),
            _ => self.rng.range(4, 12),
        }
    }

    /// A plan over the last node, or its negation where no plan looks so far.
    fn plan_or_not(&mut self) -> Node {
        let last = self.question.root() as u8;
        self.plan_over(last).unwrap_or(Node::Not(last))
    }

    /// A state formula, a plan whose condition has it some steps on, and both
    /// together: at the root, or read by another plan.
    pub(super) fn shared(&mut self) -> Node {
        let state = self.state_formula();
        self.question.nodes.push(state);
        if self.rng.once_in(2) {
            self.add_over(Node::Not);
        }
        let shared = self.question.root() as u8;
        for _ in 0..self.rng.range(0, 3) {
            self.add_over(Node::Next);
        }
        let Some(plan) = self.plan_over(self.question.root() as u8) else {
            return Node::Not(shared);
        };
        self.question.nodes.push(plan);
        let plan = self.question.root() as u8;
        self.join(shared, plan);
        match self.rng.below(6) {
            0 => Node::Not(self.question.root() as u8),
            1 => Node::And(plan, self.question.root() as u8),
            _ => {
                self.add_over(Node::Next);
                self.plan_or_not()
            }
        }
    }

    fn state_formula(&mut self) -> Node {
        let start = self.question.start;
        let gains = self.gains_from(start).filter(|_| self.rng.once_in(3));
        gains.unwrap_or_else(|| self.proposition())
    }

    /// A chain of nodes, each of which only the one after it has as a child, by
    /// links of one kind or of all. Its truth is that of a plan at its bottom, or
    /// the contrary.
    pub(super) fn chain(&mut self) -> Node {
        let all = [
            Link::Not,
            Link::Left,
            Link::Right,
            Link::Plan,
            Link::Doubled,
        ];
        let kind = self.rng.pick(&all).filter(|_| !self.rng.once_in(4));
        // Node 1 is true, for the links that need such a one.
        self.question.nodes.extend([Node::False, Node::Not(0)]);
        let bottom = match self.rng.once_in(2) {
            true => self.close_gain(0),
            false => self.act(),
        };
        self.question.nodes.push(bottom);
        let plan = self.plan_over(2).unwrap_or(Node::False);
        self.question.nodes.push(plan);
        let height = self.height();
        while self.question.nodes.len() < height {
            let link = kind.unwrap_or(self.rng.pick_or(&all, Link::Not));
            self.add_link(link);
        }
        let last = self.question.root() as u8;
        match self.rng.below(6) {
            0 => Node::Not(last),
            1 => Node::And(last, last),
            _ => surely(last, self.relation()),
        }
    }

    fn add_link(&mut self, link: Link) {
        let last = self.question.root() as u8;
        let relation = self.relation();
        self.question.nodes.push(match link {
            Link::Not => Node::Not(last),
            Link::Left => Node::And(last, 1),
            Link::Right => Node::And(1, last),
            Link::Plan => surely(last, relation),
            Link::Doubled => Node::And(last, last),
        });
    }
}

/// Whether a state formula is true now, asked of a plan of one step: its paths
/// have all the weight or none. "Less" asks whether it is false.
pub(super) fn surely(condition: u8, relation: Relation) -> Node {
    let q = if relation == Relation::Equal { 1 } else { 2 };
    Node::Plan(PlanNode {
        steps: 1,
        summed: Summed::Weights { condition },
        relation,
        bound: Bound { p: 1, q },
    })
}
