//! Formulas as numbered nodes: state and path formulas, and their depth.

use super::Lamp;

/// How a total is compared with its bound.
#[derive(Clone, Copy, Debug, PartialEq, Eq, PartialOrd, Ord)]
pub enum Relation {
    Less,
    Equal,
    Greater,
}

impl Relation {
    pub fn from_number(number: u8) -> Option<Relation> {
        match number {
            1 => Some(Relation::Less),
            2 => Some(Relation::Equal),
            3 => Some(Relation::Greater),
            _ => None,
        }
    }

    pub fn number(self) -> u8 {
        match self {
            Relation::Less => 1,
            Relation::Equal => 2,
            Relation::Greater => 3,
        }
    }

    pub fn word(self) -> &'static str {
        match self {
            Relation::Less => "less",
            Relation::Equal => "equal",
            Relation::Greater => "greater",
        }
    }

    /// Whether `left` stands in this relation to `right`.
    pub fn relates<T: PartialOrd>(self, left: T, right: T) -> bool {
        match self {
            Relation::Less => left < right,
            Relation::Equal => left == right,
            Relation::Greater => left > right,
        }
    }
}

/// The fraction p/q that a plan's total over D to the n is compared with: a
/// chance, from 0 to 1, or an expected gain.
#[derive(Clone, Copy, Debug, PartialEq, Eq)]
pub struct Bound {
    pub p: i32,
    pub q: u32,
}

/// What a plan node sums over a plan's paths to its total.
#[derive(Clone, Copy, Debug, PartialEq, Eq)]
pub enum Summed {
    /// The weights of the paths on which the condition, a node, is true:
    /// document 01's W (operator 8).
    Weights { condition: u8 },
    /// The weight of each path times the gains of its steps `first` to `last`,
    /// counted from 1: Definition 13 of source document 000 (operator 9).
    Gains { first: u8, last: u8 },
}

impl Summed {
    /// The operator of such a node.
    pub fn operator(self) -> u8 {
        match self {
            Summed::Weights { .. } => 8,
            Summed::Gains { .. } => 9,
        }
    }

    /// A sheet's eight bytes as the claimed total: a weight is a number from 0
    /// on, a total of gains stands in two's complement.
    pub fn claimed(self, stored: u64) -> i128 {
        match self {
            Summed::Weights { .. } => i128::from(stored),
            Summed::Gains { .. } => i128::from(stored as i64),
        }
    }
}

/// "Plan" is document 01's word for a bounded policy; this node is the
/// diamond of source document 001 and its like for expected gains: some policy
/// of so many steps has a total in this relation to the bound.
#[derive(Clone, Copy, Debug, PartialEq, Eq)]
pub struct PlanNode {
    pub steps: u8,
    pub summed: Summed,
    pub relation: Relation,
    pub bound: Bound,
}

impl PlanNode {
    pub fn steps(&self) -> usize {
        usize::from(self.steps)
    }

    /// The node of the condition, if there is one.
    pub fn condition(&self) -> Option<usize> {
        match self.summed {
            Summed::Weights { condition } => Some(usize::from(condition)),
            Summed::Gains { .. } => None,
        }
    }

    /// Whether gains are summed (operator 9).
    pub fn sums_gains(&self) -> bool {
        matches!(self.summed, Summed::Gains { .. })
    }

    /// How a total over `whole` compares with the bound: the total times q against
    /// p times D to the n, in whole numbers.
    pub fn lamp(&self, total: i128, whole: u64) -> Lamp {
        let left = total * i128::from(self.bound.q);
        let right = i128::from(self.bound.p) * i128::from(whole);
        Lamp::of(left.cmp(&right))
    }

    /// Whether a total over `whole` stands in the relation to the bound.
    pub fn met_by(&self, total: i128, whole: u64) -> bool {
        self.lamp(total, whole).meets(self.relation)
    }
}

/// A node of a formula. Children are numbers of earlier nodes.
#[derive(Clone, Copy, Debug, PartialEq, Eq)]
pub enum Node {
    False,
    Proposition(u8),
    Not(u8),
    And(u8, u8),
    Do(u8),
    Next(u8),
    Gain {
        steps: u8,
        relation: Relation,
        bound: i32,
    },
    Plan(PlanNode),
}

/// A question: a formula and the state in which it is asked.
#[derive(Clone, Debug, PartialEq, Eq)]
pub struct Question {
    pub start: u8,
    /// The last node is the root.
    pub nodes: Vec<Node>,
}

impl Question {
    /// The number of the root.
    pub fn root(&self) -> usize {
        self.nodes.len().saturating_sub(1)
    }

    /// The root, if it is a plan node of either kind.
    pub fn root_plan(&self) -> Option<PlanNode> {
        match self.nodes.last() {
            Some(Node::Plan(plan)) => Some(*plan),
            _ => None,
        }
    }

    /// All plan nodes of both kinds with their numbers.
    pub fn plan_nodes(&self) -> impl Iterator<Item = (usize, PlanNode)> + '_ {
        let numbered = self.nodes.iter().enumerate();
        numbered.filter_map(|(number, node)| match node {
            Node::Plan(plan) => Some((number, *plan)),
            _ => None,
        })
    }

    /// How many steps of a path each node looks ahead.
    pub fn depths(&self) -> Vec<usize> {
        let mut depths: Vec<usize> = Vec::with_capacity(self.nodes.len());
        for node in &self.nodes {
            let of = |child: u8| depths.get(usize::from(child)).copied().unwrap_or(0);
            let depth = match *node {
                Node::False | Node::Proposition(_) | Node::Plan(_) => 0,
                Node::Do(_) => 1,
                Node::Gain { steps, .. } => usize::from(steps),
                Node::Not(child) => of(child),
                Node::And(left, right) => of(left).max(of(right)),
                Node::Next(child) => of(child) + 1,
            };
            depths.push(depth);
        }
        depths
    }

    /// Which nodes are path formulas; the others are state formulas.
    pub fn path_formulas(&self) -> Vec<bool> {
        let mut found: Vec<bool> = Vec::with_capacity(self.nodes.len());
        for node in &self.nodes {
            let of = |child: u8| found.get(usize::from(child)).copied().unwrap_or(false);
            let is_path = match *node {
                Node::False | Node::Proposition(_) | Node::Plan(_) => false,
                Node::Do(_) | Node::Next(_) | Node::Gain { .. } => true,
                Node::Not(child) => of(child),
                Node::And(left, right) => of(left) || of(right),
            };
            found.push(is_path);
        }
        found
    }

    /// Whether the root is a state formula and every plan node's condition
    /// looks no further ahead than its plans (ground 9 if not).
    pub fn well_formed(&self) -> bool {
        let depths = self.depths();
        let root_is_state = self.path_formulas().last() == Some(&false);
        let seen_ahead = |plan: &PlanNode| match plan.condition() {
            Some(condition) => depths.get(condition).copied(),
            None => Some(0),
        };
        let mut plans = self.plan_nodes().map(|(_, plan)| plan);
        root_is_state && plans.all(|plan| seen_ahead(&plan).is_some_and(|d| d <= plan.steps()))
    }
}
