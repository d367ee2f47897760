//! Verdicts, and answers to sheets.

use super::{Lamp, PlanNode};

/// A shown plan's figures.
#[derive(Clone, Copy, Debug, PartialEq, Eq)]
pub struct PlanRecord {
    /// The weight W of a plan or its total of gains, over D to the n.
    pub total: i128,
    pub steps: u8,
    /// How the total compares with the root's bound.
    pub lamp: Lamp,
    /// For "equal" the plan's place in dictionary order, else 0.
    pub count: u64,
}

/// The answer to a question.
#[derive(Clone, Copy, Debug, PartialEq, Eq)]
pub enum Verdict {
    No {
        /// The number of all plans where a plan root asks for "equal", else 0.
        count: u64,
        /// The lamp of the least total where a plan root asks for "less", of
        /// the greatest where it asks for "greater".
        lamp: Option<Lamp>,
    },
    /// Yes to a root that is no plan node.
    Yes,
    YesPlan(PlanRecord),
}

/// A verdict with the shown plan's choices beside it.
#[derive(Clone, Debug, PartialEq, Eq)]
pub struct Judged {
    pub verdict: Verdict,
    pub choices: Vec<u8>,
}

/// The answer to a sheet that is accepted: whether its own total meets the
/// bound, and its lamp.
#[derive(Clone, Copy, Debug, PartialEq, Eq)]
pub struct Checked {
    pub met: bool,
    pub lamp: Lamp,
}

impl Verdict {
    /// The lamp that it has.
    pub fn lamp(&self) -> Option<Lamp> {
        match self {
            Verdict::YesPlan(record) => Some(record.lamp),
            Verdict::No { lamp, .. } => *lamp,
            Verdict::Yes => None,
        }
    }
}

impl Judged {
    /// A verdict that shows no plan.
    pub fn plain(verdict: Verdict) -> Judged {
        Judged {
            verdict,
            choices: Vec::new(),
        }
    }

    /// The answer to a root that is no plan node, which has no bound and so no
    /// lamp.
    pub fn other_root(yes: bool) -> Judged {
        Judged::plain(match yes {
            true => Verdict::Yes,
            false => Verdict::No {
                count: 0,
                lamp: None,
            },
        })
    }

    /// A no to "equal" after so many plans, to which document 02 gives no lamp.
    pub fn none_equal(count: u64) -> Judged {
        Judged::plain(Verdict::No { count, lamp: None })
    }

    /// The answer to "less" or "greater" by the best total of all plans and the
    /// choices of the first plan that has it: shown if it meets the bound.
    pub fn by_best(node: &PlanNode, whole: u64, total: i128, choices: Vec<u8>) -> Judged {
        let lamp = node.lamp(total, whole);
        if !lamp.meets(node.relation) {
            let lamp = Some(lamp);
            return Judged::plain(Verdict::No { count: 0, lamp });
        }
        Judged::shown(node, whole, total, 0, choices)
    }

    /// A yes that shows a plan with its total and its count.
    pub fn shown(node: &PlanNode, whole: u64, total: i128, count: u64, choices: Vec<u8>) -> Judged {
        let record = PlanRecord {
            total,
            steps: node.steps,
            lamp: node.lamp(total, whole),
            count,
        };
        Judged {
            verdict: Verdict::YesPlan(record),
            choices,
        }
    }
}

impl Checked {
    /// The answer about a total over `whole`.
    pub fn by(node: &PlanNode, total: i128, whole: u64) -> Checked {
        let lamp = node.lamp(total, whole);
        Checked {
            met: lamp.meets(node.relation),
            lamp,
        }
    }
}
