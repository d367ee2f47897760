//! A question block as fields.

use super::frame::{fix_word_sums, BLOCK};
use crate::bytes::{i32_at, put, u32_at, u8_at};

/// The most nodes that a question block has room for.
pub const NODES: usize = 40;

pub(super) const NODES_AT: usize = 8;
pub(super) const NODE_BYTES: usize = 12;

/// A formula node as stored.
#[derive(Clone, Copy, Debug, Default, PartialEq, Eq)]
pub struct NodeImage {
    pub operator: u8,
    pub steps: u8,
    pub left: u8,
    pub right: u8,
    pub p: i32,
    pub q: u32,
}

impl NodeImage {
    /// The bytes that hold children, by document 01's table of operators. All
    /// that follows children asks here: a number of a proposition or an action, a
    /// relation and a window of steps are none.
    pub fn children_mut(&mut self) -> impl Iterator<Item = &mut u8> {
        let (left, right) = match self.operator {
            3 | 6 | 8 => (Some(&mut self.left), None),
            4 => (Some(&mut self.left), Some(&mut self.right)),
            _ => (None, None),
        };
        left.into_iter().chain(right)
    }

    /// The numbers of its children.
    pub fn children(mut self) -> Vec<u8> {
        self.children_mut().map(|child| *child).collect()
    }

    /// Gives the children other numbers; a child for which there is none stays.
    pub fn renumber(&mut self, number: impl Fn(u8) -> Option<u8>) {
        for child in self.children_mut() {
            *child = number(*child).unwrap_or(*child);
        }
    }
}

/// The fields of a question block, used or not.
#[derive(Clone, Debug, PartialEq, Eq)]
pub struct QuestionImage {
    pub start: u8,
    pub count: u8,
    pub nodes: [NodeImage; NODES],
}

impl Default for QuestionImage {
    fn default() -> Self {
        QuestionImage {
            start: 0,
            count: 0,
            nodes: [NodeImage::default(); NODES],
        }
    }
}

impl QuestionImage {
    /// The nodes within the count.
    pub fn counted(&self) -> &[NodeImage] {
        let count = usize::from(self.count);
        self.nodes.get(..count).unwrap_or(&self.nodes)
    }

    /// For each node within the count whether it is reached from the root, the
    /// last one, by following children. These have smaller numbers, so that one
    /// walk downwards comes to each node after all that have it as a child.
    pub fn reached(&self) -> Vec<bool> {
        let nodes = self.counted();
        let mut found = vec![false; nodes.len()];
        if let Some(root) = found.last_mut() {
            *root = true;
        }
        for (own, node) in nodes.iter().enumerate().rev() {
            if found[own] {
                mark(&mut found[..own], &node.children());
            }
        }
        found
    }

    /// The question without the nodes that are not reached, the others renumbered
    /// in their order.
    pub fn used_only(&self) -> QuestionImage {
        let reached = self.reached();
        let numbers = numbers_among(&reached);
        let mut used = QuestionImage {
            start: self.start,
            ..QuestionImage::default()
        };
        let kept = self.counted().iter().zip(&reached).filter(|node| *node.1);
        for ((place, (node, _)), count) in used.nodes.iter_mut().zip(kept).zip(1..) {
            *place = *node;
            place.renumber(|child| numbers.get(usize::from(child)).copied());
            used.count = count;
        }
        used
    }

    /// Reads the fields of one block.
    pub fn unpack(bytes: &[u8]) -> Self {
        let mut image = QuestionImage {
            start: u8_at(bytes, 2),
            count: u8_at(bytes, 3),
            ..QuestionImage::default()
        };
        for (number, node) in image.nodes.iter_mut().enumerate() {
            *node = unpack_node(bytes, NODES_AT + NODE_BYTES * number);
        }
        image
    }

    /// Lays the fields out in a block, spare bytes zero and word sum right.
    pub fn pack(&self) -> Vec<u8> {
        let mut bytes = vec![0; BLOCK];
        put(&mut bytes, 0, &[3, 0, self.start, self.count]);
        for (number, node) in self.nodes.iter().enumerate() {
            pack_node(&mut bytes, NODES_AT + NODE_BYTES * number, node);
        }
        fix_word_sums(&mut bytes);
        bytes
    }
}

/// For each node how many before it are kept: its number among those.
fn numbers_among(kept: &[bool]) -> Vec<u8> {
    let mut before = 0;
    let mut numbers = Vec::new();
    for keep in kept {
        numbers.push(before);
        before += u8::from(*keep);
    }
    numbers
}

/// Marks the children that exist.
fn mark(earlier: &mut [bool], children: &[u8]) {
    for child in children {
        if let Some(place) = earlier.get_mut(usize::from(*child)) {
            *place = true;
        }
    }
}

fn unpack_node(bytes: &[u8], at: usize) -> NodeImage {
    NodeImage {
        operator: u8_at(bytes, at),
        steps: u8_at(bytes, at + 1),
        left: u8_at(bytes, at + 2),
        right: u8_at(bytes, at + 3),
        p: i32_at(bytes, at + 4),
        q: u32_at(bytes, at + 8),
    }
}

fn pack_node(bytes: &mut [u8], at: usize, node: &NodeImage) {
    let first = [node.operator, node.steps, node.left, node.right];
    put(bytes, at, &first);
    put(bytes, at + 4, &node.p.to_le_bytes());
    put(bytes, at + 8, &node.q.to_le_bytes());
}
