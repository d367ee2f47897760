//! Questions for timing, written node by node.

/// The nodes of a question so far. Each call that adds one gives its number.
#[derive(Clone, Default)]
pub(super) struct Asked {
    nodes: Vec<String>,
}

impl Asked {
    pub(super) fn add(&mut self, node: &str) -> usize {
        self.nodes.push(node.to_string());
        self.nodes.len() - 1
    }

    pub(super) fn gain(&mut self, steps: usize, bound: &str) -> usize {
        self.add(&format!("gain {steps} steps {bound}"))
    }

    pub(super) fn not(&mut self, node: usize) -> usize {
        self.add(&format!("not {node}"))
    }

    pub(super) fn and(&mut self, left: usize, right: usize) -> usize {
        self.add(&format!("and {left} {right}"))
    }

    /// The node after so many steps.
    pub(super) fn after(&mut self, steps: usize, node: usize) -> usize {
        (0..steps).fold(node, |last, _| self.add(&format!("next {last}")))
    }

    pub(super) fn plan(&mut self, condition: usize, steps: usize, bound: &str) -> usize {
        self.add(&format!("plan {condition} steps {steps} {bound}"))
    }

    /// How many nodes there is still room for.
    pub(super) fn room(&self) -> usize {
        40 - self.nodes.len()
    }

    /// The nodes, the last of which is the root.
    pub(super) fn nodes(self) -> Vec<String> {
        self.nodes
    }

    /// How many nodes `everywhere` adds.
    pub(super) fn room_for_everywhere(steps: usize) -> usize {
        steps + 1
    }

    /// A root that needs a node in all states that so many steps lead to.
    pub(super) fn everywhere(mut self, node: usize, steps: usize) -> Vec<String> {
        let there = self.after(steps, node);
        self.plan(there, steps, "greater 1/1000");
        self.nodes
    }
}

#[cfg(test)]
mod tests {
    use super::*;

    #[test]
    fn nodes_are_numbered() {
        let mut asked = Asked::default();
        let gain = asked.gain(2, "greater 1");
        let held = asked.add("proposition 0");
        let later = asked.after(2, held);
        let both = asked.and(gain, later);
        let none = asked.not(both);
        assert_eq!((gain, held, later, both, none), (0, 1, 3, 4, 5));
        let plan = asked.plan(none, 2, "less 1/2");
        assert_eq!(asked.room(), 33);
        let nodes = asked.everywhere(plan, 3);
        assert_eq!(nodes.len(), 7 + Asked::room_for_everywhere(3));
        assert_eq!(nodes[6], "plan 5 steps 2 less 1/2");
        assert_eq!(nodes[9], "next 8");
        assert_eq!(nodes[10], "plan 9 steps 3 greater 1/1000");
    }
}
