//! What an answer was about: the root of the question, the sign of its total,
//! the field of operator 9 that was refused.

use super::lamps::{lamp_words, verdict_lamp_words};
use super::leftovers::put_words;
use crate::blocks::{NodeImage, QuestionImage, Sheet};
use crate::desk::{Answer, Call, Desk};
use crate::ground::Ground;
use crate::logic::{check_limits, fast, Bound, Judged, Model, Node, PlanNode};
use crate::logic::{Question, Relation, Summed, Totals, Verdict};

/// What there is to tell of an answer beside itself. `desk` is as it was after
/// the call.
pub(super) fn details(call: &Call, answer: &Answer, desk: &Desk) -> Vec<String> {
    match (call, answer) {
        (Call::Put(bytes), Answer::Put(right)) => {
            let mut found = put_words(bytes, *right, desk);
            found.extend(match right {
                Err(Ground::Range) => wrong_fields(bytes),
                Err(Ground::Formula) => asked_for_gains(bytes),
                _ => Vec::new(),
            });
            found
        }
        _ => match (desk.model(), desk.question()) {
            (Ok(model), Ok(question)) => held_details(call, answer, model, question),
            _ => Vec::new(),
        },
    }
}

/// The same where a model and a question are held.
fn held_details(call: &Call, answer: &Answer, model: &Model, question: &Question) -> Vec<String> {
    let root = question.root_plan();
    let about = |total: Option<i128>| -> Vec<String> {
        root.iter().map(|root| root_words(root, total)).collect()
    };
    match (call, answer) {
        (Call::Judge, Answer::Judge(Ok(judged))) => {
            let mut found = about(shown_total(judged));
            found.extend(inner_words(model, question));
            found.extend(verdict_lamp_words(model, question, judged));
            found.extend(root.and_then(|root| far_words(model, &root)));
            found
        }
        (Call::Judge, Answer::Judge(Err(ground))) => limit_words(model, question, *ground),
        (Call::Write(_), Answer::Write(Ok(length), buffer)) => {
            about(claimed(root, buffer.get(..*length).unwrap_or(buffer)))
        }
        (Call::Check(bytes), Answer::Check(Ok(_))) => {
            let total = claimed(root, bytes);
            let mut found = about(total);
            found.extend(lamp_words(model, root.zip(total)));
            found
        }
        (Call::Check(bytes), Answer::Check(Err(Ground::Total))) => about(claimed(root, bytes)),
        (Call::Write(_), Answer::Write(Err(ground), _))
        | (Call::Check(_), Answer::Check(Err(ground))) => match ground {
            Ground::RootNotPlan => below_words(question),
            Ground::TooManyPaths | Ground::TooManyPlans => limit_words(model, question, *ground),
            _ => about(None),
        },
        _ => Vec::new(),
    }
}

/// `operator 9 less, total below 0`.
pub(super) fn root_words(root: &PlanNode, total: Option<i128>) -> String {
    let sign = match total {
        Some(total) if total < 0 => ", total below 0",
        _ => "",
    };
    let (operator, relation) = (root.summed.operator(), root.relation.word());
    format!("operator {operator} {relation}{sign}")
}

/// `operator 9 less, far bound`: what is compared, totals times q and p times D
/// to the n, can lie 2^63 apart or more.
fn far_words(model: &Model, root: &PlanNode) -> Option<String> {
    let Summed::Gains { first, last } = root.summed else {
        return None;
    };
    let (p, q) = (i128::from(root.bound.p), i128::from(root.bound.q));
    let gained = 1000 * i128::from(last + 1 - first);
    let apart = (gained * q + p.abs()) * i128::from(model.whole(root.steps()));
    (apart >= 1 << 63).then(|| root_words(root, None) + ", far bound")
}

/// Whether nodes of operator 9 stand below a root of another kind.
fn below_words(question: &Question) -> Vec<String> {
    match question.nodes.iter().any(is_gains) {
        true => vec!["operator 9 below the root".to_string()],
        false => Vec::new(),
    }
}

/// Whether a question that is no formula has nodes of operator 9.
fn asked_for_gains(bytes: &[u8]) -> Vec<String> {
    let image = QuestionImage::unpack(bytes);
    match image.counted().iter().any(|node| node.operator == 9) {
        true => vec!["operator 9 in the question".to_string()],
        false => Vec::new(),
    }
}

fn shown_total(judged: &Judged) -> Option<i128> {
    match judged.verdict {
        Verdict::YesPlan(record) => Some(record.total),
        _ => None,
    }
}

/// The total that a sheet claims.
fn claimed(root: Option<PlanNode>, sheet: &[u8]) -> Option<i128> {
    let stored = Sheet::unpack(sheet).total;
    root.map(|root| root.summed.claimed(stored))
}

/// Whether the answer turns on the nodes of operator 9 below the root: it is
/// another if all of them are true than if none is.
fn inner_words(model: &Model, question: &Question) -> Option<String> {
    let with = |truth: bool| {
        let mut changed = question.clone();
        let below = changed.nodes.len() - 1;
        let mut found = false;
        for node in &mut changed.nodes[..below] {
            if is_gains(node) {
                *node = constant(truth);
                found = true;
            }
        }
        found.then(|| lampless(fast::judge(model, &changed, &Totals::of(model))))
    };
    let turns_on_them = with(true)? != with(false)?;
    turns_on_them.then(|| "by operator 9 below the root".to_string())
}

/// The same answer without the lamp of a no: whether it is yes or no, and what
/// is shown, shall turn on the nodes below, and not the lamp alone.
fn lampless(mut judged: Judged) -> Judged {
    if let Verdict::No { lamp, .. } = &mut judged.verdict {
        *lamp = None;
    }
    judged
}

fn is_gains(node: &Node) -> bool {
    matches!(node, Node::Plan(plan) if plan.sums_gains())
}

/// A node that is true, or false, in every state: no step earns 1,001 points.
fn constant(truth: bool) -> Node {
    Node::Plan(PlanNode {
        steps: 1,
        summed: Summed::Gains { first: 1, last: 1 },
        relation: match truth {
            true => Relation::Less,
            false => Relation::Greater,
        },
        bound: Bound { p: 1001, q: 1 },
    })
}

/// Whether a limit is passed just by nodes of operator 9, or just below the root.
fn limit_words(model: &Model, question: &Question, ground: Ground) -> Vec<String> {
    let limits = [Ground::TooManyPaths, Ground::TooManyPlans];
    let totals = Totals::of(model);
    let passed = |nodes: Vec<Node>| {
        let start = question.start;
        check_limits(&Question { start, nodes }, &totals) == Err(ground)
    };
    let nodes = question.nodes.iter().copied();
    let others = nodes.filter(|node| !is_gains(node)).collect();
    let root = question.nodes.last().copied().into_iter().collect();
    let found = [
        (!passed(others), "by operator 9 alone"),
        (!passed(root), "below the root alone"),
    ];
    let told = found.iter().filter(|row| row.0 && limits.contains(&ground));
    told.map(|row| row.1.to_string()).collect()
}

/// The fields of nodes of operator 9 that are beyond their ranges.
fn wrong_fields(bytes: &[u8]) -> Vec<String> {
    let image = QuestionImage::unpack(bytes);
    let nodes = image.counted().iter().filter(|node| node.operator == 9);
    let faults = nodes.flat_map(|node| {
        let NodeImage { steps, left, .. } = *node;
        let (first, last) = (left % 8, left / 8);
        [
            (!(1..=6).contains(&steps), "n"),
            (first < 1, "l below 1"),
            (first > last, "l over u"),
            (last > steps, "u over n"),
            (!(1..=3).contains(&node.right), "relation"),
            (node.p.unsigned_abs() > 6_000_000, "p"),
            (!(1..=1000).contains(&node.q), "q"),
        ]
    });
    let wrong = faults.filter(|(wrong, _)| *wrong);
    wrong
        .map(|(_, field)| format!("operator 9, {field}"))
        .collect()
}
