//! How the totals whose lamps answers tell compared with their bounds, and by
//! how much they missed them.

use super::details::root_words;
use crate::logic::{fast, Judged, Lamp, Model, Node, PlanNode, Question, Totals, Verdict};

/// What there is to tell of a verdict's lamp, or of its having none.
pub(super) fn verdict_lamp_words(
    model: &Model,
    question: &Question,
    judged: &Judged,
) -> Vec<String> {
    let Some(root) = question.root_plan() else {
        return other_root_words(question);
    };
    let total = match judged.verdict {
        Verdict::YesPlan(record) => Some(record.total),
        Verdict::No { lamp: Some(_), .. } => {
            let best = fast::best_plan(model, question, &root, &Totals::of(model));
            best.map(|(total, _)| total)
        }
        Verdict::No { lamp: None, .. } | Verdict::Yes => None,
    };
    lamp_words(model, total.map(|total| (root, total)))
}

/// `another root over plans`: there are bounds below it, and it has no lamp.
fn other_root_words(question: &Question) -> Vec<String> {
    let is_plan = |node: &Node| matches!(node, Node::Plan(_));
    match question.nodes.iter().any(is_plan) {
        true => vec!["another root over plans".to_string()],
        false => Vec::new(),
    }
}

/// `operator 9 less, at`, and how near the total is where it is not at the
/// bound: `operator 9 less, one unit above` (of 1 over D to the n),
/// `operator 9 less, less than a unit above`. Each again with `, total below 0`.
pub(super) fn lamp_words(model: &Model, about: Option<(PlanNode, i128)>) -> Vec<String> {
    let Some((root, total)) = about else {
        return Vec::new();
    };
    let whole = model.whole(root.steps());
    let lamp = root.lamp(total, whole);
    let asked = root_words(&root, None);
    let mut found = vec![format!("{asked}, {}", lamp.word())];
    found.extend(
        nearness(&root, total, whole).map(|near| format!("{asked}, {near} {}", lamp.word())),
    );
    if total < 0 {
        let below: Vec<String> = found
            .iter()
            .map(|words| format!("{words}, total below 0"))
            .collect();
        found.extend(below);
    }
    found
}

/// By how much a total misses its bound, where that is a unit or less.
fn nearness(root: &PlanNode, total: i128, whole: u64) -> Option<&'static str> {
    let q = i128::from(root.bound.q);
    let missed = (total * q - i128::from(root.bound.p) * i128::from(whole)).abs();
    match root.lamp(total, whole) {
        Lamp::At => None,
        _ if missed == q => Some("one unit"),
        _ if missed < q => Some("less than a unit"),
        _ => None,
    }
}
