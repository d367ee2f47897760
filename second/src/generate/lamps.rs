//! Questions whose bounds lie at the total of some plan, a unit of 1 over D to
//! the n beside it or half a unit, with sheets of plans below, at and above the
//! bound (document 02, A.4). Random questions come to few of these for totals
//! below 0, and their sheets to few plans next to a bound.

use super::cases::{pack, question};
use super::rng::Rng;
use crate::blocks::{read_model, read_question, Sheet, BLOCK};
use crate::desk::{stored, Call};
use crate::logic::{fast, Bound, Lamp, Model, Plan, PlanNode, Question, Summed, Totals};

/// A model, and questions about it, each with some sheets.
pub(super) struct Cases {
    pub(super) model: Vec<u8>,
    pub(super) asked: Vec<(Vec<u8>, Vec<Vec<u8>>)>,
}

/// Such a model and its questions: each is judged, its plan written, and the
/// sheets are checked.
pub(super) fn lamps(rng: &mut Rng) -> Vec<Call> {
    let Some(cases) = cases(rng, 3) else {
        return Vec::new();
    };
    let mut calls = vec![Call::Load(cases.model)];
    for (question, sheets) in cases.asked {
        calls.extend([Call::Put(question), Call::Judge]);
        calls.push(Call::Write(vec![0; 3 * BLOCK]));
        calls.extend(sheets.into_iter().map(Call::Check));
    }
    calls
}

/// The same, not yet as calls, with so many questions.
pub(super) fn cases(rng: &mut Rng, questions: usize) -> Option<Cases> {
    let bytes = small_model(rng);
    let model = read_model(&bytes).ok()?;
    let asked = (0..questions).filter_map(|_| asked(rng, &model));
    let asked = asked.collect();
    Some(Cases {
        model: bytes,
        asked,
    })
}

/// A coin is tossed in each step, with other weights and rewards for each state
/// and action; in some models it may roll away, after which nothing can be
/// done. D to the 3 is at most 1,000, so that every unit of three steps can be
/// a bound.
pub(super) fn small_model(rng: &mut Rng) -> Vec<u8> {
    let base = rng.range(3, 10);
    let rolls = rng.once_in(3);
    // In some models nothing is earned, so that all totals of gains are below 0.
    let most = if rng.once_in(3) { 3 } else { 6 };
    let mut text = format!("model D {base}\nproposition 0 up\nproposition 1 gone\n");
    text += "state 0:\nstate 1: up\nstate 2: gone\n";
    for action in 0..2 {
        text += &format!("action {action} needs !gone\npost up !gone\npost !up !gone\n");
        text += if rolls { "post gone\n" } else { "" };
    }
    for state in 0..2 {
        for action in 0..2 {
            let gone = if rolls { rng.range(1, base - 2) } else { 0 };
            let up = rng.range(1, base - gone - 1);
            let down = base - gone - up;
            let mut reward = || rng.range(0, most) as i32 - 3;
            let (won, lost, rolled) = (reward(), reward(), reward());
            text += &format!("outcome {state} {action}: 1 weight {up} reward {won}, ");
            text += &format!("0 weight {down} reward {lost}");
            text += &match rolls {
                true => format!(", 2 weight {gone} reward {rolled}\n"),
                false => "\n".to_string(),
            };
        }
    }
    pack(&text)
}

/// A question, and sheets of a plan below, one at and one above its bound, as
/// far as there are such plans.
fn asked(rng: &mut Rng, model: &Model) -> Option<(Vec<u8>, Vec<Vec<u8>>)> {
    let steps = rng.range(1, 3);
    let start = rng.byte(0, 1);
    let relation = rng.pick_or(&["less", "equal", "greater"], "less");
    let nodes = nodes(rng, steps, relation);
    let with = |bound: Bound| {
        let Bound { p, q } = bound;
        let mut nodes = nodes.clone();
        let root = nodes.pop().unwrap_or_default();
        nodes.push(format!("{root} {p}/{q}"));
        question(start, &nodes)
    };
    let unset = read_question(&with(Bound { p: 0, q: 1 }), model).ok()?;
    let plans = plans(model, &unset, &unset.root_plan()?);
    let summed = unset.root_plan()?.summed;
    let totals: Vec<i128> = plans.iter().map(|(total, _)| *total).collect();
    let packed = with(bound(rng, summed, &totals, model.whole(steps).into()));
    let root = read_question(&packed, model).ok()?.root_plan()?;
    Some((packed, sheets(rng, model, start, &root, &plans)))
}

/// The nodes of a question, the root without its bound.
pub(super) fn nodes(rng: &mut Rng, steps: usize, relation: &str) -> Vec<String> {
    let last = rng.range(1, steps);
    if rng.once_in(2) {
        let first = rng.range(1, last);
        return vec![format!(
            "plan gain {first} to {last} steps {steps} {relation}"
        )];
    }
    let mut nodes = match rng.once_in(2) {
        true => {
            let earned = rng.range(0, 4) as i32 - 2;
            vec![format!("gain {last} steps greater {earned}")]
        }
        false => {
            let mut nodes = vec!["proposition 0".to_string()];
            nodes.extend((0..last).map(|own| format!("next {own}")));
            nodes
        }
    };
    let condition = nodes.len() - 1;
    nodes.push(format!("plan {condition} steps {steps} {relation}"));
    nodes
}

/// All plans in dictionary order, with their totals.
fn plans(model: &Model, question: &Question, root: &PlanNode) -> Vec<(i128, Plan)> {
    let totals = Totals::of(model);
    let mut plan = Plan::first(model, question.start, root.steps());
    let mut found = Vec::new();
    loop {
        let total = fast::total_of(model, question, root, &plan, &totals);
        found.push((total, plan.clone()));
        if !plan.advance(model) {
            return found;
        }
    }
}

/// A bound at the least total, the greatest, that of the first or last plan or
/// of any, or beside it by a unit or by half a unit.
fn bound(rng: &mut Rng, summed: Summed, totals: &[i128], whole: i128) -> Bound {
    let (least, greatest) = (totals.iter().min(), totals.iter().max());
    let any = totals.get(rng.below(totals.len()));
    let ends = [
        least,
        greatest,
        least,
        greatest,
        totals.first(),
        totals.last(),
        any,
    ];
    let total = rng.pick_or(&ends, None).copied().unwrap_or(0);
    let halves = 2 * total + rng.pick_or(&[0, 0, 2, -2, 2, -2, 1, -1], 0);
    let (mut p, mut q) = match halves % 2 {
        0 => (halves / 2, whole),
        _ => (halves, 2 * whole),
    };
    let (least_p, most_q) = match summed {
        Summed::Weights { .. } => (0, 1_000_000),
        Summed::Gains { .. } => (i128::MIN, 1000),
    };
    if q > most_q {
        (p, q) = (total, whole);
    }
    if least_p == 0 {
        p = p.clamp(0, q);
    }
    Bound {
        p: p as i32,
        q: q as u32,
    }
}

/// The sheets of a random plan of each lamp.
fn sheets(
    rng: &mut Rng,
    model: &Model,
    start: u8,
    root: &PlanNode,
    plans: &[(i128, Plan)],
) -> Vec<Vec<u8>> {
    let whole = model.whole(root.steps());
    let mut lamps = [Lamp::Below, Lamp::At, Lamp::Above];
    rng.shuffle(&mut lamps);
    let mut found = Vec::new();
    for lamp in lamps {
        let fitting = plans
            .iter()
            .filter(|(total, _)| root.lamp(*total, whole) == lamp);
        let fitting: Vec<&(i128, Plan)> = fitting.collect();
        if let Some((total, plan)) = rng.pick(&fitting) {
            let sheet = Sheet {
                steps: root.steps,
                start,
                total: stored(*total),
                choices: plan.choices(model),
            };
            found.push(sheet.pack());
        }
    }
    found
}
