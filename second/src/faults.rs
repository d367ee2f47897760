//! Judges that err about silent states (document 02, A.1), each in one way:
//! which calls of a stream they answer otherwise than a right one does. A
//! stream in which they answer all alike cannot tell them from it.

use crate::blocks::{fix_word_sums, read_model, ModelImage, NodeImage};
use crate::blocks::{QuestionImage, Sheet, BLOCK};
use crate::desk::{replay, Answer, Call, Desk};
use crate::ground::Ground;
use crate::logic::{check_limits, fast, Checked, Judged, Model, Move, Node, Plan, PlanNode};
use crate::logic::{Question, Summed, Totals, SILENT};
use std::collections::BTreeMap;

#[derive(Clone, Copy, Debug, PartialEq, Eq, PartialOrd, Ord)]
pub enum Fault {
    /// A state without an enabled action is still refused with 8.
    StillEight,
    /// The rows of silent states are not looked at, so no byte there is spare.
    RowsUnread,
    /// "Do 255" can be asked.
    DoSilentAsked,
    /// The silent move is taken for action 0: shown, written, asked for.
    ShownAsZero,
    /// Its weight is 1.
    WeightOne,
    /// It leads to state 0.
    ToStateZero,
    /// Its reward is that of the model's first outcome.
    StrayReward,
    /// "Do 0" is true of it, and nothing else is wrong.
    DoZeroTrue,
    /// "Do" of the last action is true of it: 255 cut to three bits is 7.
    DoLastTrue,
    /// The search may also choose it where actions are enabled.
    SearchedEverywhere,
    /// The check accepts it where actions are enabled.
    AcceptedEverywhere,
    /// The check accepts any action for it.
    ActionsAccepted,
    /// The check refuses it everywhere.
    NowhereAccepted,
    /// A path ends at the silent state, and so does its plan.
    PathEnds,
    /// Below the root, no plan is looked for in silent states.
    NotBelowRoot,
    /// Silent states have no paths when ground 24 is tested.
    PathsUncounted,
    /// Silent states have no plans when ground 25 is tested.
    PlansUncounted,
    /// Silent states have no plans when a plan's place is counted.
    UncountedInPlaces,
}

pub const ALL: [Fault; 18] = [
    Fault::StillEight,
    Fault::RowsUnread,
    Fault::DoSilentAsked,
    Fault::ShownAsZero,
    Fault::WeightOne,
    Fault::ToStateZero,
    Fault::StrayReward,
    Fault::DoZeroTrue,
    Fault::DoLastTrue,
    Fault::SearchedEverywhere,
    Fault::AcceptedEverywhere,
    Fault::ActionsAccepted,
    Fault::NowhereAccepted,
    Fault::PathEnds,
    Fault::NotBelowRoot,
    Fault::PathsUncounted,
    Fault::PlansUncounted,
    Fault::UncountedInPlaces,
];

/// How often a judge with a fault answers otherwise, for each call.
pub type Differences = BTreeMap<(Fault, &'static str), usize>;

/// Replays a stream from the empty desk beside a judge of each fault. Each of
/// their calls is made on what the right desk holds.
pub fn differences(stream: &[u8]) -> Differences {
    let mut counts = Differences::new();
    replay(stream, |call, answer, desk| {
        for fault in ALL {
            if differs(fault, call, answer, desk) {
                *counts.entry((fault, call.name())).or_default() += 1;
            }
        }
    });
    counts
}

/// Whether a judge with the fault answers otherwise. `desk` is the right one
/// after the call.
fn differs(fault: Fault, call: &Call, right: &Answer, desk: &Desk) -> bool {
    match (call, right) {
        (Call::Load(bytes), Answer::Load(answer)) => load_differs(fault, bytes, answer, desk),
        (Call::Put(bytes), Answer::Put(Err(Ground::Range))) => {
            fault == Fault::DoSilentAsked && only_do_silent(bytes, desk)
        }
        (Call::Write(_), Answer::Write(Ok(length), buffer)) => {
            let sheet = Sheet::unpack(buffer.get(..*length).unwrap_or(buffer));
            fault == Fault::ShownAsZero && sheet.choices.contains(&SILENT)
        }
        (Call::Judge, Answer::Judge(judged)) => held(desk).is_some_and(|(model, question)| {
            judge(fault, model, question, judged).is_some_and(|wrong| wrong != *judged)
        }),
        (Call::Check(bytes), Answer::Check(checked)) => {
            held(desk).is_some_and(|(model, question)| {
                check(fault, model, question, bytes, *checked) != *checked
            })
        }
        _ => false,
    }
}

/// The held model and question.
fn held(desk: &Desk) -> Option<(&Model, &Question)> {
    Some((desk.model().ok()?, desk.question().ok()?))
}

fn load_differs(fault: Fault, bytes: &[u8], answer: &Result<(), Ground>, desk: &Desk) -> bool {
    match (fault, answer) {
        (Fault::StillEight, Ok(())) => desk.model().is_ok_and(has_silent),
        (Fault::RowsUnread, Err(Ground::Spare)) => {
            let read = read_model(&silent_rows_cleared(bytes));
            read.err() != Some(Ground::Spare)
        }
        _ => false,
    }
}

/// Whether ground 5 is against a question only for "do 255".
fn only_do_silent(bytes: &[u8], desk: &Desk) -> bool {
    let mut image = QuestionImage::unpack(bytes);
    let silent = |node: &&mut NodeImage| (node.operator, node.left) == (5, SILENT);
    for node in image.nodes.iter_mut().filter(silent) {
        node.left = 0;
    }
    let put = desk.clone().put(&image.pack());
    put.err() != Some(Ground::Range)
}

fn has_silent(model: &Model) -> bool {
    model.moves.iter().flatten().any(Move::is_silent)
}

/// The blocks of a model with zeros in the rows of its silent states.
fn silent_rows_cleared(bytes: &[u8]) -> Vec<u8> {
    let image = ModelImage::unpack(bytes);
    let actions = usize::from(image.actions).min(image.moves.len());
    let silent = |mask: u32| {
        let mut actions = image.moves.iter().take(actions);
        !actions.any(|action| action.precondition.true_in(mask))
    };
    let mut cleared = bytes.to_vec();
    let masks = image.masks.iter().take(image.states.into());
    for (state, _) in masks.enumerate().filter(|(_, mask)| silent(**mask)) {
        let first = BLOCK * (1 + state / 3) + 4 + 128 * (state % 3);
        let row = cleared.iter_mut().skip(first).take(128);
        row.for_each(|byte| *byte = 0);
    }
    fix_word_sums(&mut cleared);
    cleared
}

/// Stands for the answer of a judge that serves what is over a limit: some
/// answer that is not the limit's.
const SERVED: Ground = Ground::NoShownPlan;

/// Whether an answer tells of a limit. A wrong model has other totals than the
/// right one; that alone does not count as a wrong answer.
fn is_limit(ground: Option<&Ground>) -> bool {
    matches!(ground, Some(Ground::TooManyPaths | Ground::TooManyPlans))
}

/// The verdict of a judge with the fault; none if it is right about verdicts.
fn judge(
    fault: Fault,
    model: &Model,
    question: &Question,
    right: &Result<Judged, Ground>,
) -> Option<Result<Judged, Ground>> {
    if limit_missed(fault, model, question, right.as_ref().err()) {
        return Some(Err(SERVED));
    }
    right.as_ref().ok()?;
    let wrong = wrong_verdict(fault, model, question)?;
    (!is_limit(wrong.as_ref().err())).then_some(wrong)
}

/// The same where the right judge gives a verdict.
fn wrong_verdict(
    fault: Fault,
    model: &Model,
    question: &Question,
) -> Option<Result<Judged, Ground>> {
    match fault {
        Fault::ShownAsZero
        | Fault::WeightOne
        | Fault::ToStateZero
        | Fault::StrayReward
        | Fault::SearchedEverywhere
        | Fault::PathEnds => {
            let mut desk = Desk::holding(wrong_model(fault, model), question.clone());
            Some(desk.judge().cloned())
        }
        Fault::DoZeroTrue | Fault::DoLastTrue => {
            let wrong = wrong_model(fault, model);
            let mut desk = Desk::holding(wrong.clone(), question.clone());
            let judged = desk.judge().cloned();
            Some(judged.map(|judged| Judged {
                choices: renamed(&wrong, model, question, &judged.choices).unwrap_or_default(),
                ..judged
            }))
        }
        Fault::NotBelowRoot => Some(not_below_root(model, question)?.judge().cloned()),
        Fault::UncountedInPlaces => {
            let totals = Totals::of(&wrong_model(fault, model));
            Some(Ok(fast::judge(model, question, &totals)))
        }
        _ => None,
    }
}

/// What a check with the fault answers.
fn check(
    fault: Fault,
    model: &Model,
    question: &Question,
    bytes: &[u8],
    right: Result<Checked, Ground>,
) -> Result<Checked, Ground> {
    if limit_missed(fault, model, question, right.as_ref().err()) {
        return Err(SERVED);
    }
    let wrong = wrong_check(fault, model, question, bytes, right);
    match is_limit(right.as_ref().err()) || is_limit(wrong.as_ref().err()) {
        true => right,
        false => wrong,
    }
}

/// The same, but for the limits.
fn wrong_check(
    fault: Fault,
    model: &Model,
    question: &Question,
    bytes: &[u8],
    right: Result<Checked, Ground>,
) -> Result<Checked, Ground> {
    let asked = |bytes: &[u8]| {
        let wrong = wrong_model(fault, model);
        Desk::holding(wrong, question.clone()).check(bytes)
    };
    match fault {
        Fault::StillEight
        | Fault::RowsUnread
        | Fault::DoSilentAsked
        | Fault::SearchedEverywhere
        | Fault::PathsUncounted
        | Fault::PlansUncounted
        | Fault::UncountedInPlaces => right,
        Fault::DoZeroTrue | Fault::DoLastTrue => {
            let mut sheet = Sheet::unpack(bytes);
            let wrong = wrong_model(fault, model);
            match renamed(model, &wrong, question, &sheet.choices) {
                Some(choices) if right.is_ok() || right == Err(Ground::Total) => {
                    sheet.choices = choices;
                    asked(&sheet.pack())
                }
                _ => right,
            }
        }
        Fault::NotBelowRoot => {
            not_below_root(model, question).map_or(right, |desk| desk.check(bytes))
        }
        _ => asked(bytes),
    }
}

/// Whether a limit is passed that is not, where silent states are not counted.
fn limit_missed(fault: Fault, model: &Model, question: &Question, right: Option<&Ground>) -> bool {
    let limit = match fault {
        Fault::PathsUncounted => Ground::TooManyPaths,
        Fault::PlansUncounted => Ground::TooManyPlans,
        _ => return false,
    };
    let totals = || Totals::of(&wrong_model(fault, model));
    right == Some(&limit) && check_limits(question, &totals()) != Err(limit)
}

/// A desk on which each plan below the root is asked for only where some
/// action is enabled; none if the model has no proposition left to tell that.
fn not_below_root(model: &Model, question: &Question) -> Option<Desk> {
    const LIVE: u8 = 31;
    if model.propositions > LIVE {
        return None;
    }
    let mut told = model.clone();
    for (state, mask) in (0u8..).zip(&mut told.valuation) {
        *mask |= u32::from(!model.is_silent(state)) << LIVE;
    }
    let mut asked = Question {
        start: question.start,
        nodes: vec![Node::Proposition(LIVE)],
    };
    let mut places: Vec<u8> = Vec::new();
    for (number, node) in question.nodes.iter().enumerate() {
        asked.nodes.push(moved(*node, &places));
        if matches!(node, Node::Plan(_)) && number != question.root() {
            let plan = asked.root() as u8;
            asked.nodes.push(Node::And(plan, 0));
        }
        places.push(asked.root() as u8);
    }
    Some(Desk::holding(told, asked))
}

/// A node whose children have moved to other places.
fn moved(node: Node, places: &[u8]) -> Node {
    let to = |child: u8| places.get(usize::from(child)).copied().unwrap_or(0);
    match node {
        Node::Not(child) => Node::Not(to(child)),
        Node::And(left, right) => Node::And(to(left), to(right)),
        Node::Next(child) => Node::Next(to(child)),
        Node::Plan(plan) => Node::Plan(PlanNode {
            summed: match plan.summed {
                Summed::Weights { condition } => Summed::Weights {
                    condition: to(condition),
                },
                gains => gains,
            },
            ..plan
        }),
        other => other,
    }
}

/// The choices of a plan of one model as those of another with as many moves
/// in each state.
fn renamed(from: &Model, to: &Model, question: &Question, choices: &[u8]) -> Option<Vec<u8>> {
    let root = question.root_plan()?;
    let plan = Plan::from_choices(from, question.start, root.steps(), choices)?;
    Some(plan.choices(to))
}

/// The model as a judge with the fault takes it.
fn wrong_model(fault: Fault, model: &Model) -> Model {
    let mut wrong = model.clone();
    let actions = u8::try_from(model.actions.len()).unwrap_or(u8::MAX);
    for (state, moves) in (0u8..).zip(&mut wrong.moves) {
        let everywhere = [Fault::SearchedEverywhere, Fault::AcceptedEverywhere];
        if moves.iter().any(Move::is_silent) {
            *moves = wrong_moves(
                fault,
                Move::silent(state, model.denominator),
                model,
                actions,
            );
        } else if everywhere.contains(&fault) {
            moves.push(Move::silent(state, model.denominator));
        }
    }
    wrong
}

/// The moves of a silent state as a judge with the fault takes them.
fn wrong_moves(fault: Fault, silent: Move, model: &Model, actions: u8) -> Vec<Move> {
    let mut entry = silent.clone();
    match fault {
        Fault::ShownAsZero | Fault::DoZeroTrue => entry.action = 0,
        Fault::DoLastTrue => entry.action = actions.saturating_sub(1),
        Fault::WeightOne => entry.outcomes.iter_mut().for_each(|o| o.weight = 1),
        Fault::ToStateZero => entry.outcomes.iter_mut().for_each(|o| o.target = 0),
        Fault::StrayReward => {
            let live = model
                .moves
                .iter()
                .flatten()
                .filter(|entry| !entry.is_silent());
            let first = live.flat_map(|entry| &entry.outcomes).next();
            let reward = first.map_or(0, |outcome| outcome.reward);
            entry.outcomes.iter_mut().for_each(|o| o.reward = reward);
        }
        Fault::PathEnds => entry.outcomes.clear(),
        Fault::NowhereAccepted
        | Fault::PathsUncounted
        | Fault::PlansUncounted
        | Fault::UncountedInPlaces => return Vec::new(),
        Fault::ActionsAccepted => {
            let named = |action| Move {
                action,
                ..silent.clone()
            };
            return (0..actions).map(named).chain([silent.clone()]).collect();
        }
        _ => {}
    }
    vec![entry]
}
