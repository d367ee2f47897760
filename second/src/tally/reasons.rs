//! What the lines of `whynot` tell (document 02, A.5), counted.

use crate::blocks::{read_model, read_question, BLOCK};
use crate::desk::{whynot_lines, JudgeKind};
use crate::logic::{fast, Model, PlanNode, Question, Totals};
use std::collections::BTreeMap;

/// Ties are looked for among no more plans than this.
const FEW: u64 = 70_000;

/// For each pair of a model and a question what its lines tell: the operator of
/// the root and the line's first word, and each again with what its plan has: a
/// total below 0, silent moves, a total that other plans have as well, a bound
/// that is no whole number of units.
pub fn reason_tally(pairs: &[Vec<u8>]) -> BTreeMap<String, usize> {
    let mut counts = BTreeMap::new();
    for pair in pairs {
        let (model, question) = pair.split_at(pair.len().saturating_sub(BLOCK));
        let model = read_model(model).ok();
        let held = model.and_then(|model| Some((read_question(question, &model).ok()?, model)));
        for line in whynot_lines(pair, JudgeKind::Fast) {
            let root = held.as_ref().and_then(|(question, model)| {
                let root = question.root_plan()?;
                Some((model, question, root))
            });
            for words in line_words(&line, root) {
                *counts.entry(words).or_default() += 1;
            }
        }
    }
    counts
}

fn line_words(line: &str, root: Option<(&Model, &Question, PlanNode)>) -> Vec<String> {
    let mut words = line.split(' ');
    let (first, second) = (words.next().unwrap_or(""), words.next().unwrap_or(""));
    let explained = ["greatest", "least", "below", "above"].contains(&first);
    let Some((model, question, root)) = root.filter(|_| explained) else {
        return vec![match first {
            "no" => line.to_string(),
            _ => first.to_string(),
        }];
    };
    let told = format!("operator {} {first}", root.summed.operator());
    if second == "none" {
        return vec![format!("{told} none")];
    }
    let total = second.split('/').next().and_then(|word| word.parse().ok());
    let product = i128::from(root.bound.p) * i128::from(model.whole(root.steps()));
    let details = [
        (second.starts_with('-'), "total below 0"),
        (line.ends_with(" 255") || line.contains(" 255 "), "silent"),
        (is_tie(model, question, &root, total), "tie"),
        (product % i128::from(root.bound.q) != 0, "no whole bound"),
    ];
    let mut found = vec![told.clone()];
    for (_, detail) in details.iter().filter(|(is_so, _)| *is_so) {
        found.push(format!("{told}, {detail}"));
    }
    found
}

/// Whether several plans, as far as they matter, have the total.
fn is_tie(model: &Model, question: &Question, root: &PlanNode, total: Option<i128>) -> bool {
    let totals = Totals::of(model);
    if totals.plans(root.steps(), question.start) > FEW {
        return false;
    }
    let listed = fast::all_totals(model, question, root, &totals);
    let same = listed.iter().filter(|listed| Some(**listed) == total);
    same.count() > 1
}
