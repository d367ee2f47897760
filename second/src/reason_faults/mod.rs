//! Explainers of a no (document 02, A.5) that err in one way each: which lines
//! of `whynot` they print otherwise than a right one does. Pairs of a model and
//! a question on which they print all alike cannot tell them from it.

mod fault;
mod listed;
mod picks;
mod print;

pub use fault::{Fault, ALL};

use crate::blocks::{read_model, read_question, BLOCK};
use crate::desk::{reason_lines, verdict_line, whynot_lines, JudgeKind};
use crate::logic::{check_limits, fast, plain, Model, PlanNode, Question};
use crate::logic::{Relation, Summed, Totals};
use listed::{all_plans, first_histories, Histories, Listed};
use picks::Picker;
use std::collections::BTreeMap;

/// For each fault the kind of the right line, and the operator of the root, 0
/// for another than 8 and 9: how many lines are printed otherwise.
pub type Differences = BTreeMap<(Fault, &'static str, u8), usize>;

const NO_REASON: &str = "no reason";

/// All plans of a question that takes more than this to list are not listed.
const AFFORDABLE: u128 = 2_000_000;

/// Lays explainers of each fault beside a right one, for each pair of a model
/// and a question.
pub fn differences(pairs: &[Vec<u8>]) -> Differences {
    let mut counts = Differences::new();
    for pair in pairs {
        let right = whynot_lines(pair, JudgeKind::Fast);
        let (model, question) = pair.split_at(pair.len().saturating_sub(BLOCK));
        let model = read_model(model).ok();
        let held = model.and_then(|model| Some((read_question(question, &model).ok()?, model)));
        let case = held
            .as_ref()
            .map(|(question, model)| Case::of(model, question, pair));
        let root = case.as_ref().and_then(|case| case.root);
        let operator = root.map_or(0, |root| root.summed.operator());
        for fault in ALL {
            let wrong = match &case {
                Some(case) => case.lines(fault, &right),
                None => otherwise(fault, &right),
            };
            for kind in differing(&right, &wrong) {
                *counts.entry((fault, kind, operator)).or_default() += 1;
            }
        }
    }
    counts
}

/// The lines where no plans are looked at.
fn otherwise(fault: Fault, right: &[String]) -> Vec<String> {
    match (fault, right.first().map_or("another", |line| kind(line))) {
        (Fault::RefusalIsNoReason, "refused") => vec![NO_REASON.to_string()],
        (Fault::NoForNoReason, NO_REASON) => vec!["no".to_string()],
        (Fault::LamplessYes, "yes") => right.iter().map(|line| lampless(line)).collect(),
        _ => right.to_vec(),
    }
}

fn lampless(line: &str) -> String {
    let words = line
        .split(' ')
        .filter(|word| !["below", "at", "above"].contains(word));
    words.collect::<Vec<&str>>().join(" ")
}

/// The kinds of the right lines in whose places others stand. Lines too many
/// count for the last.
fn differing(right: &[String], wrong: &[String]) -> Vec<&'static str> {
    let mut kinds = Vec::new();
    for (place, line) in right.iter().enumerate() {
        let too_many = place + 1 == right.len() && wrong.len() > right.len();
        if wrong.get(place) != Some(line) || too_many {
            kinds.push(kind(line));
        }
    }
    kinds
}

/// What a line tells.
fn kind(line: &str) -> &'static str {
    const KINDS: [&str; 9] = [
        "below none",
        "above none",
        NO_REASON,
        "refused",
        "yes",
        "greatest",
        "least",
        "below",
        "above",
    ];
    let found = KINDS.into_iter().find(|kind| line.starts_with(kind));
    found.unwrap_or("another")
}

/// A question with all plans of its root.
struct Case<'a> {
    model: &'a Model,
    question: &'a Question,
    pair: &'a [u8],
    root: Option<PlanNode>,
    steps: usize,
    whole: u64,
    /// None where they are too many.
    plans: Vec<Listed>,
    histories: Histories,
}

impl<'a> Case<'a> {
    fn of(model: &'a Model, question: &'a Question, pair: &'a [u8]) -> Case<'a> {
        let root = question.root_plan();
        let totals = Totals::of(model);
        let served = check_limits(question, &totals).is_ok();
        let listed = served && plain::cost(model, question, &totals) <= AFFORDABLE;
        let plans = match root {
            Some(root) if listed => all_plans(model, question, &root),
            _ => Vec::new(),
        };
        let steps = root.map_or(0, |root| root.steps());
        Case {
            model,
            question,
            pair,
            root,
            steps,
            whole: model.whole(steps),
            plans,
            histories: first_histories(model, question.start, steps),
        }
    }

    /// The lines of an explainer with the fault.
    fn lines(&self, fault: Fault, right: &[String]) -> Vec<String> {
        let first = right.first().map_or("another", |line| kind(line));
        match (fault, first, self.root) {
            (_, "refused", _) => otherwise(fault, right),
            (Fault::OtherRootExplained, NO_REASON, _) => self.first_node(right),
            (Fault::YesExplained, "yes", Some(root)) => self.explained(fault, &root, right),
            (_, "yes" | NO_REASON, _) | (_, _, None) => otherwise(fault, right),
            (_, _, Some(root)) => self.explained(fault, &root, right),
        }
    }

    /// The lines for a plan root.
    fn explained(&self, fault: Fault, root: &PlanNode, right: &[String]) -> Vec<String> {
        let not_whole = self.product() % i128::from(root.bound.q) != 0;
        let silenced = match (fault, root.relation) {
            (Fault::NoReasonForGains, _) => root.sums_gains(),
            (Fault::NoReasonForEqual, Relation::Equal) => true,
            (Fault::NotWholeNoReason, Relation::Equal) => not_whole,
            (Fault::NoReasonForBest, Relation::Less | Relation::Greater) => true,
            _ => false,
        };
        if silenced {
            return vec![NO_REASON.to_string()];
        }
        match fault {
            Fault::FirstNodeExplained => return self.first_node(right),
            Fault::VerdictFirst => {
                let mut lines = vec![verdict_line(self.pair, JudgeKind::Fast)];
                lines.extend_from_slice(right);
                return lines;
            }
            _ if self.plans.is_empty() => return right.to_vec(),
            _ => {}
        }
        let picker = Picker {
            case: self,
            root: *root,
            fault,
            plans: self.plans_by(root, fault),
        };
        let lines = picker.lines();
        let printed = lines.iter().map(|line| self.printed(root, fault, line));
        printed.collect()
    }

    /// The reason of the question's first plan node, as a question of its own.
    fn first_node(&self, right: &[String]) -> Vec<String> {
        let Some((number, node)) = self.question.plan_nodes().next() else {
            return right.to_vec();
        };
        let mut asked = self.question.clone();
        asked.nodes.truncate(number + 1);
        let reason = fast::reason(self.model, &asked, &node, &Totals::of(self.model));
        reason_lines(&reason, self.model.whole(node.steps()))
    }

    /// The root's p times D to the n.
    fn product(&self) -> i128 {
        let p = self.root.map_or(0, |root| root.bound.p);
        i128::from(p) * i128::from(self.whole)
    }

    /// How many steps the root's condition looks ahead, or to which step its
    /// gains are summed.
    fn depth(&self, root: &PlanNode) -> usize {
        match root.summed {
            Summed::Gains { last, .. } => last.into(),
            Summed::Weights { condition } => {
                let depths = self.question.depths();
                depths.get(usize::from(condition)).copied().unwrap_or(0)
            }
        }
    }
}
