//! Streams that dwell on one kind of call.

use super::cases::{self, Ends};
use super::lamps::lamps;
use super::leftovers::left_over;
use super::model::{random_model, Size};
use super::pitfalls::pitfalls;
use super::question::{random_choices, random_question, Scale};
use super::rng::Rng;
use super::{model_damage, question_damage, sheet_damage};
use crate::blocks::{read_model, read_question, QuestionImage, Sheet, BLOCK};
use crate::desk::{stored, Call};
use crate::logic::{check_limits, fast, plain, Model, Move, Node, Plan, PlanNode};
use crate::logic::{Question, Totals};

/// Random questions whose judging takes about a microsecond to a millisecond.
const SMALL: Scale = Scale {
    nodes: 14,
    paths: 1500,
    plans: 1500,
};

/// Applies none, one or two of the harms; each has its turn.
fn harmed<D>(rng: &mut Rng, draft: &mut D, harms: &[fn(&mut Rng, &mut D)], turn: usize) {
    let count = match rng.below(10) {
        0..=2 => 0,
        3..=7 => 1,
        _ => 2,
    };
    if count > 0 {
        harms[turn % harms.len()](rng, draft);
    }
    if count > 1 {
        harms[rng.below(harms.len())](rng, draft);
    }
}

fn size(rng: &mut Rng) -> Size {
    match rng.below(8) {
        0 => Size::LARGE,
        1..=2 => Size {
            posts: 4,
            actions: 8,
            ..Size::SMALL
        },
        3 => Size {
            states: 32,
            ..Size::SMALL
        },
        _ => Size::SMALL,
    }
}

/// Few states, and now and then up to eight actions.
pub(super) fn few_states(rng: &mut Rng) -> Size {
    match rng.once_in(5) {
        true => Size::EIGHT_ACTIONS,
        false => Size::SMALL,
    }
}

/// Loads of accepted, damaged and doubly damaged models.
pub fn models(rng: &mut Rng, count: usize) -> Vec<Call> {
    let mut calls = Vec::new();
    for turn in 0..count {
        let size = size(rng);
        calls.push(Call::Load(any_model(rng, size, turn)));
    }
    calls
}

/// A model that may be damaged.
pub(super) fn any_model(rng: &mut Rng, size: Size, turn: usize) -> Vec<u8> {
    let mut draft = model_damage::Draft::of(random_model(rng, size));
    harmed(rng, &mut draft, model_damage::HARMS, turn);
    draft.pack()
}

/// An accepted model, its bytes and its totals.
pub(super) fn good_model(rng: &mut Rng, size: Size) -> Option<(Vec<u8>, Model, Totals)> {
    let bytes = random_model(rng, size).pack();
    let model = read_model(&bytes).ok()?;
    let totals = Totals::of(&model);
    Some((bytes, model, totals))
}

/// Puts of accepted, damaged and doubly damaged questions.
pub fn questions(rng: &mut Rng, count: usize) -> Vec<Call> {
    let mut calls = vec![Call::Put(vec![0; BLOCK]), Call::Put(one_left_over())];
    let mut turn = 0;
    while calls.len() < count {
        let size = size(rng);
        let Some((bytes, model, totals)) = good_model(rng, size) else {
            continue;
        };
        calls.push(Call::Load(bytes));
        for _ in 0..40 {
            turn += 1;
            calls.push(Call::Put(any_question(rng, &model, &totals, turn)));
        }
    }
    calls
}

/// A question with a node left over, in whatever model: for a desk without one.
pub(super) fn one_left_over() -> Vec<u8> {
    cases::question(0, &["false".to_string(), "false".to_string()])
}

/// Now and then the question with nodes left over, which is refused, and a call
/// on what the desk still holds. The question itself is put next: it is the same
/// without the leftovers.
fn now_and_then_left_over(rng: &mut Rng, question: &Question, model: &Model) -> Vec<Call> {
    // There are few with so many nodes that a mark in 32 bits is not enough.
    let times = if question.nodes.len() > 32 { 3 } else { 14 };
    let refused = rng.once_in(times).then(|| left_over(rng, question, model));
    let Some(refused) = refused.flatten() else {
        return Vec::new();
    };
    let mut calls = vec![Call::Put(refused)];
    match rng.below(6) {
        0 => calls.push(Call::Judge),
        1..=2 => calls.push(Call::Write(vec![0; 3 * BLOCK])),
        3 => calls.push(Call::Check(vec![0; BLOCK])),
        _ => {}
    }
    calls
}

/// A question that may be damaged.
pub(super) fn any_question(rng: &mut Rng, model: &Model, totals: &Totals, turn: usize) -> Vec<u8> {
    let nodes = if rng.once_in(10) { 40 } else { 8 };
    let scale = Scale {
        nodes,
        paths: 200,
        plans: 200,
    };
    let question = random_question(rng, model, totals, scale);
    let mut draft = question_damage::Draft::of(QuestionImage::from(&question));
    harmed(rng, &mut draft, question_damage::HARMS, turn);
    draft.pack()
}

/// Judged questions of all sorts, now and then at or over a limit.
pub fn judges(rng: &mut Rng, count: usize) -> Vec<Call> {
    let mut calls = Vec::new();
    for (model, questions) in limit_cases() {
        calls.push(Call::Load(model));
        for question in questions {
            let sheet = Call::Check(vec![0; BLOCK]);
            calls.extend([Call::Put(question), sheet, Call::Judge]);
        }
    }
    // The cases at the limits are few but slow; a short stream has none.
    if count < 2 * calls.len() {
        calls.clear();
    }
    while calls.len() < count {
        let size = size(rng);
        let Some((bytes, model, totals)) = good_model(rng, size) else {
            continue;
        };
        calls.push(Call::Load(bytes));
        for _ in 0..6 {
            let question = judged_question(rng, &model, &totals);
            calls.extend(now_and_then_left_over(rng, &question, &model));
            let packed = QuestionImage::from(&question).pack();
            calls.extend([Call::Put(packed), Call::Judge]);
        }
        if rng.once_in(16) {
            calls.extend(pitfalls(rng));
        }
        if rng.once_in(14) {
            calls.extend(lamps(rng));
        }
    }
    calls
}

fn judged_question(rng: &mut Rng, model: &Model, totals: &Totals) -> Question {
    let scale = match rng.below(40) {
        0 => Scale {
            nodes: 40,
            paths: 20_000,
            plans: 20_000,
        },
        1..=10 => Scale { nodes: 24, ..SMALL },
        _ => SMALL,
    };
    let mut question = random_question(rng, model, totals, scale);
    if rng.once_in(10) {
        stretch(rng, &mut question, model, totals);
    }
    question
}

/// Gives one plan node six steps, where that is over a limit or quick.
pub(super) fn stretch(rng: &mut Rng, question: &mut Question, model: &Model, totals: &Totals) {
    let states = 0..model.states() as u8;
    let most = states
        .map(|state| totals.paths(6, state))
        .max()
        .unwrap_or(0);
    let plans: Vec<usize> = question.plan_nodes().map(|(number, _)| number).collect();
    let place = rng.pick_or(&plans, 0);
    if let (false, Some(Node::Plan(plan))) = (
        (3_000..=1_000_000).contains(&most),
        question.nodes.get_mut(place),
    ) {
        plan.steps = 6;
    }
}

/// Models and questions that just meet a limit or just pass it, also by paths
/// and plans that come to silent states.
fn limit_cases() -> Vec<(Vec<u8>, Vec<Vec<u8>>)> {
    let path_questions = |last| -> Vec<Vec<u8>> {
        let asked = [(last, 5, "greater"), (last, 6, "less"), (0, 6, "greater")];
        asked.into_iter().flat_map(limit_questions).collect()
    };
    let plan_questions: Vec<Vec<u8>> = [
        (0, 3, "equal"),
        (0, 3, "greater"),
        (0, 4, "equal"),
        (0, 2, "equal"),
        (9, 3, "equal"),
    ]
    .into_iter()
    .flat_map(limit_questions)
    .collect();
    vec![
        (cases::million_paths(false), path_questions(13)),
        (cases::million_paths(true), path_questions(13)),
        (cases::million_silent_paths(false), path_questions(12)),
        (cases::million_silent_paths(true), path_questions(12)),
        (cases::most_plans(false, false), plan_questions.clone()),
        (cases::most_plans(true, false), plan_questions.clone()),
        (cases::most_plans(false, true), plan_questions.clone()),
        (cases::most_plans(true, true), plan_questions),
    ]
}

/// Questions from a state about plans of so many steps: about the chance of a
/// gain, and about an expected gain, at the root and below it.
fn limit_questions((start, steps, relation): (u8, usize, &str)) -> [Vec<u8>; 3] {
    let chance = [
        "gain 2 steps greater 1".to_string(),
        format!("plan 0 steps {steps} {relation} 3/10"),
    ];
    let expected = format!("plan gain 1 to 2 steps {steps} {relation} 3/10");
    let below = [expected.clone(), "not 0".to_string()];
    [
        cases::question(start, &chance),
        cases::question(start, &[expected]),
        cases::question(start, &below),
    ]
}

/// Sheets written and checked: right, damaged and made up.
pub fn sheets(rng: &mut Rng, count: usize) -> Vec<Call> {
    let mut calls = vec![Call::Write(vec![7; 512]), Call::Check(vec![0; 512])];
    let mut turn = 0;
    while calls.len() < count {
        turn += 1;
        let large = rng.once_in(6).then(|| large_model(rng, turn));
        let size = few_states(rng);
        let (bytes, start) = match large {
            Some(ref large) => large.clone(),
            None => (random_model(rng, size).pack(), 0),
        };
        let Ok(model) = read_model(&bytes) else {
            continue;
        };
        let totals = Totals::of(&model);
        calls.push(Call::Load(bytes));
        let question = match large {
            Some(_) => large_question(rng, &model, start),
            None => random_question(rng, &model, &totals, SMALL),
        };
        calls.push(Call::Put(QuestionImage::from(&question).pack()));
        calls.extend(sheet_calls(rng, &model, &question, &totals, turn));
        if let Some(refused) = left_over(rng, &question, &model).filter(|_| turn % 6 == 0) {
            // The verdict and the question stay, and so do their sheets' answers.
            calls.extend([Call::Put(refused), canary(rng), Call::Judge]);
            let sheet = any_sheet(rng, &model, &question, &totals, turn);
            calls.push(Call::Check(sheet));
        }
        if rng.once_in(8) {
            calls.extend(lamps(rng));
        }
    }
    calls
}

/// A model whose plans of six steps fill about a whole number of blocks, a
/// third of the time with silent moves in them; and the start.
fn large_model(rng: &mut Rng, turn: usize) -> (Vec<u8>, u8) {
    let sizes = [489, 490, 491, 980, 981, 1365];
    match rng.below(9) {
        0 => cases::plan_of_size(490, 6, Ends::InStateTwo),
        1 => cases::plan_of_size(491, 6, Ends::InStateTwo),
        2 => (cases::late_silence(), 0),
        _ => cases::plan_of_size(sizes[turn % sizes.len()], 6, Ends::Never),
    }
}

/// A quick question of six steps: the condition looks only a little ahead, or
/// gains are summed.
fn large_question(rng: &mut Rng, model: &Model, start: u8) -> Question {
    let packed = match rng.once_in(4) {
        true => cases::question(start, &[large_gains(rng)]),
        false => cases::question(start, &large_condition(rng, model)),
    };
    read_question(&packed, model).unwrap_or(Question {
        start,
        nodes: vec![Node::False],
    })
}

/// The rewards of these models are from -3 to 3, and so some plan has more, or
/// less, than nothing.
fn large_gains(rng: &mut Rng) -> String {
    let last = rng.range(1, 6);
    let first = rng.range(1, last);
    let relation = rng.pick_or(&["less", "greater"], "less");
    let bound = rng.pick_or(&["0/1", "-1/7", "1/9"], "0/1");
    format!("plan gain {first} to {last} steps 6 {relation} {bound}")
}

fn large_condition(rng: &mut Rng, model: &Model) -> [String; 5] {
    [
        "gain 2 steps greater 0".to_string(),
        format!("do {}", rng.below(model.actions.len())),
        "not 1".to_string(),
        "and 0 2".to_string(),
        format!("plan 3 steps 6 greater {}/10", rng.below(10)),
    ]
}

/// Writes into buffers of every length about whole blocks, and checks.
fn sheet_calls(
    rng: &mut Rng,
    model: &Model,
    question: &Question,
    totals: &Totals,
    turn: usize,
) -> Vec<Call> {
    let mut calls = Vec::new();
    if rng.once_in(4) {
        calls.push(canary(rng));
    }
    calls.push(Call::Judge);
    for _ in 0..4 {
        calls.push(canary(rng));
    }
    for number in 0..10 {
        let sheet = any_sheet(rng, model, question, totals, 10 * turn + number);
        calls.push(Call::Check(sheet));
    }
    calls
}

/// A write into a buffer whose bytes are all marked.
pub(super) fn canary(rng: &mut Rng) -> Call {
    let length = BLOCK * rng.range(0, 4);
    let about = [length, length + 1, length.saturating_sub(1), length + 100];
    let length = rng.pick_or(&about, length);
    let mark = rng.byte(0, 255);
    Call::Write((0..length).map(|at| mark.wrapping_add(at as u8)).collect())
}

/// A sheet for the question's root that may be damaged.
pub(super) fn any_sheet(
    rng: &mut Rng,
    model: &Model,
    question: &Question,
    totals: &Totals,
    turn: usize,
) -> Vec<u8> {
    let mut sheet = Sheet {
        steps: 1,
        start: question.start,
        total: rng.below(100) as u64,
        choices: vec![0],
    };
    if let Some(root) = question.root_plan() {
        sheet.steps = root.steps;
        let offered = silent_everywhere(model);
        let more = Totals::of(&offered);
        // A further choice in every state can make far too many plans.
        if rng.once_in(10) && check_limits(question, &more).is_ok() {
            fill_sheet(rng, &offered, question, &root, &more, &mut sheet);
            return sheet.pack();
        }
        fill_sheet(rng, model, question, &root, totals, &mut sheet);
    }
    let mut draft = sheet_damage::Draft::of(sheet);
    harmed(rng, &mut draft, sheet_damage::HARMS, turn);
    draft.pack()
}

/// The sheet of a random plan for the question's root.
pub(super) fn right_sheet(
    rng: &mut Rng,
    model: &Model,
    question: &Question,
    totals: &Totals,
) -> Sheet {
    let mut sheet = Sheet {
        steps: 1,
        start: question.start,
        total: 0,
        choices: vec![0],
    };
    if let Some(root) = question.root_plan() {
        sheet.steps = root.steps;
        fill_sheet(rng, model, question, &root, totals, &mut sheet);
    }
    sheet
}

/// Gives a sheet the choices of a random plan, and its total.
fn fill_sheet(
    rng: &mut Rng,
    model: &Model,
    question: &Question,
    root: &PlanNode,
    totals: &Totals,
    sheet: &mut Sheet,
) {
    sheet.choices = random_choices(rng, model, question.start, root.steps());
    let plan = Plan::from_choices(model, question.start, root.steps(), &sheet.choices);
    if let Some(plan) = plan {
        sheet.total = stored(fast::total_of(model, question, root, &plan, totals));
    }
}

/// The model as it is not: with the silent move as a further choice where
/// actions are enabled. Its plans make sheets that are right but for that.
fn silent_everywhere(model: &Model) -> Model {
    let mut offered = model.clone();
    for (state, moves) in (0u8..).zip(&mut offered.moves) {
        if !moves.iter().any(Move::is_silent) {
            moves.push(Move::silent(state, model.denominator));
        }
    }
    offered
}

/// Questions that the plain judge looks at no more nodes than this for.
pub const AFFORDABLE: u128 = 200_000;

/// Judges of questions that the plain judge can afford, and writes of what they
/// show; now and then checks.
pub fn small(rng: &mut Rng, count: usize) -> Vec<Call> {
    let mut calls = Vec::new();
    while calls.len() < count {
        let size = size(rng);
        let Some((bytes, model, totals)) = good_model(rng, size) else {
            continue;
        };
        calls.push(Call::Load(bytes));
        for _ in 0..8 {
            let question = random_question(rng, &model, &totals, SMALL);
            if plain::cost(&model, &question, &totals) <= AFFORDABLE {
                calls.extend(now_and_then_left_over(rng, &question, &model));
                calls.push(Call::Put(QuestionImage::from(&question).pack()));
                calls.push(Call::Judge);
                calls.push(Call::Write(vec![0; 3 * BLOCK]));
            }
        }
        if rng.once_in(12) {
            calls.extend(pitfalls(rng));
        }
        if rng.once_in(11) {
            calls.extend(lamps(rng));
        }
    }
    calls
}
