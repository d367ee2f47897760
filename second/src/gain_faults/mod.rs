//! Judges that err about expected gains (operator 9; document 02, A.3), each in
//! one way: which calls of a stream they answer otherwise than a right one
//! does. A stream in which they answer all alike cannot tell them from it.

mod fields;
mod misread;
mod sheets;
mod sums;
mod verdicts;

use crate::desk::{replay, Answer, Call, Desk};
use crate::ground::Ground;
use crate::logic::{check_limits, Model, Node, PlanNode, Question, Relation, Totals};
use std::collections::BTreeMap;

pub(crate) use sums::raised;

#[derive(Clone, Copy, Debug, PartialEq, Eq, PartialOrd, Ord)]
pub enum Fault {
    /// Steps are counted from 0, so that the window is one step late.
    StepsFromZero,
    /// Gains are summed up to step n and not to step u.
    UpToTheEnd,
    /// Gains are summed from step 1 and not from step l.
    FromTheStart,
    /// Gains are summed without the weights: each path counts once.
    Unweighted,
    /// Totals and bounds are compared without signs: below 0 is huge.
    UnsignedTotals,
    /// The sign of p is lost.
    BoundUnsigned,
    /// p and q are exchanged.
    BoundTurnedOver,
    /// p times D to the n is divided by q first, towards 0, and then compared.
    BoundTruncated,
    /// Both sides are raised, so that they are not below 0, and are compared in
    /// 64 bits with a sign.
    SidesSigned,
    /// The sides are compared by their difference, in 64 bits with a sign.
    DifferenceSigned,
    /// When doubled "and"s are pointed past, the left byte is taken for a child.
    LeftPointedPast,
    /// Best totals are kept for a window and a relation, and n is forgotten.
    WindowRemembered,
    /// "Equal" looks only at plans that choose by the steps left and the state.
    /// Where one of them meets the bound, the right plan is shown.
    EqualByState,
    /// The least total is taken for the greatest and the greatest for the least.
    WrongEnd,
    /// Of the plans with the best total the last is shown.
    LastAmongEquals,
    /// The first plan that meets the bound is shown, whatever its total.
    FirstThatMeets,
    /// A yes shows no plan.
    NoPlanShown,
    /// "Equal" is not counted.
    NotCounted,
    /// 24 is not asked of operator 9.
    PathsUnasked,
    /// 25 is not asked of operator 9.
    PlansUnasked,
    /// 25 is asked of operator 9 with every relation.
    PlansAskedOfAll,
    /// There is no operator 9.
    NoOperator,
    /// It is a path formula.
    PathFormula,
    /// Its depth is its n.
    DepthIsSteps,
    /// Its left byte is a child, as that of operator 8.
    LeftIsChild,
    /// An n over 6 is accepted.
    StepsUnchecked,
    /// An l of 0 is accepted.
    FirstZero,
    /// An l over u is accepted.
    FirstOverLast,
    /// A u over n is accepted.
    LastOverSteps,
    /// A u of n is refused.
    LastStepRefused,
    /// An l of u is refused.
    OneStepRefused,
    /// Any relation is accepted.
    RelationUnchecked,
    /// p is accepted one beyond its ends.
    POneBeyond,
    /// The ends of p are refused.
    PEndsRefused,
    /// p is from 0 to q, as that of operator 8.
    PAsOfPlans,
    /// p is from -6000 to 6000, as that of operator 7.
    PAsOfGains,
    /// A q of 0 is accepted.
    QZero,
    /// q is up to a million, as that of operator 8.
    QAsOfPlans,
    /// A q of 1000 is refused.
    QEndRefused,
    /// q is 1, as that of operator 7.
    QAsOfGains,
    /// 22 refuses operator 9.
    RootRefused,
    /// The total is shown, written and asked for without its sign.
    TotalUnsigned,
    /// The total is written and asked for in its low 32 bits.
    TotalCut,
    /// The totals of a sheet's blocks are compared without their top bits.
    BlocksUnsigned,
    /// The top bit of operator 8's weight is not looked at.
    TopBitDropped,
    /// Operator 8's weight is read in two's complement. No call tells this: a
    /// weight is far below 2^63, so that bytes from there up are 11 either way.
    WeightSigned,
}

pub const ALL: [Fault; 46] = [
    Fault::StepsFromZero,
    Fault::UpToTheEnd,
    Fault::FromTheStart,
    Fault::Unweighted,
    Fault::UnsignedTotals,
    Fault::BoundUnsigned,
    Fault::BoundTurnedOver,
    Fault::BoundTruncated,
    Fault::SidesSigned,
    Fault::DifferenceSigned,
    Fault::LeftPointedPast,
    Fault::WindowRemembered,
    Fault::EqualByState,
    Fault::WrongEnd,
    Fault::LastAmongEquals,
    Fault::FirstThatMeets,
    Fault::NoPlanShown,
    Fault::NotCounted,
    Fault::PathsUnasked,
    Fault::PlansUnasked,
    Fault::PlansAskedOfAll,
    Fault::NoOperator,
    Fault::PathFormula,
    Fault::DepthIsSteps,
    Fault::LeftIsChild,
    Fault::StepsUnchecked,
    Fault::FirstZero,
    Fault::FirstOverLast,
    Fault::LastOverSteps,
    Fault::LastStepRefused,
    Fault::OneStepRefused,
    Fault::RelationUnchecked,
    Fault::POneBeyond,
    Fault::PEndsRefused,
    Fault::PAsOfPlans,
    Fault::PAsOfGains,
    Fault::QZero,
    Fault::QAsOfPlans,
    Fault::QEndRefused,
    Fault::QAsOfGains,
    Fault::RootRefused,
    Fault::TotalUnsigned,
    Fault::TotalCut,
    Fault::BlocksUnsigned,
    Fault::TopBitDropped,
    Fault::WeightSigned,
];

/// How often a judge with a fault answers otherwise, for each call; calls about
/// operator 9 below another root are counted apart.
pub type Differences = BTreeMap<(Fault, &'static str), usize>;

/// Replays a stream from the empty desk beside a judge of each fault. Each of
/// their calls is made on what the right desk holds.
pub fn differences(stream: &[u8]) -> Differences {
    let mut counts = Differences::new();
    replay(stream, |call, answer, desk| {
        for found in wrong(call, answer, desk) {
            *counts.entry(found).or_default() += 1;
        }
    });
    counts
}

/// The faults with which the call is answered otherwise. `desk` is the right
/// one after the call.
fn wrong(call: &Call, right: &Answer, desk: &Desk) -> Vec<(Fault, &'static str)> {
    let held = desk.model().ok().zip(desk.question().ok());
    match (call, right, held) {
        (Call::Put(bytes), Answer::Put(answer), _) => {
            let differs = |fault: &Fault| fields::put_differs(*fault, bytes, *answer, desk);
            let found = ALL.into_iter().filter(differs);
            found.map(|fault| (fault, "put")).collect()
        }
        (Call::Judge, Answer::Judge(judged), Some((model, question))) => {
            let mut found = limits_missed(model, question, judged.as_ref().err(), "judge");
            if let Ok(judged) = judged {
                found.extend(verdicts::wrong(model, question, judged));
            }
            found
        }
        (Call::Write(_), Answer::Write(written, buffer), Some((_, question))) => {
            let differs = |fault: &Fault| sheets::write_differs(*fault, question, written, buffer);
            let found = ALL.into_iter().filter(differs);
            found.map(|fault| (fault, "write")).collect()
        }
        (Call::Check(bytes), Answer::Check(checked), Some((model, question))) => {
            let mut found = limits_missed(model, question, checked.as_ref().err(), "check");
            found.extend(sheets::wrong_checks(model, question, bytes, *checked));
            found
        }
        _ => Vec::new(),
    }
}

/// Limits that are not asked, or are asked too often.
fn limits_missed(
    model: &Model,
    question: &Question,
    refusal: Option<&Ground>,
    place: &'static str,
) -> Vec<(Fault, &'static str)> {
    let totals = Totals::of(model);
    let mut others = question.clone();
    others.nodes.retain(|node| !is_gains(node));
    let mut all_equal = question.clone();
    for node in &mut all_equal.nodes {
        if let Node::Plan(plan) = node {
            if plan.sums_gains() {
                plan.relation = Relation::Equal;
            }
        }
    }
    let missed = |ground| refusal == Some(&ground) && check_limits(&others, &totals) != Err(ground);
    let limits = [Ground::TooManyPaths, Ground::TooManyPlans];
    let served =
        !refusal.is_some_and(|ground| limits.contains(ground) || *ground >= Ground::NoModel);
    let found = [
        (missed(Ground::TooManyPaths), Fault::PathsUnasked),
        (missed(Ground::TooManyPlans), Fault::PlansUnasked),
        (
            served && check_limits(&all_equal, &totals).is_err(),
            Fault::PlansAskedOfAll,
        ),
    ];
    let told = found.into_iter().filter(|(wrong, _)| *wrong);
    told.map(|(_, fault)| (fault, place)).collect()
}

fn is_gains(node: &Node) -> bool {
    matches!(node, Node::Plan(plan) if plan.sums_gains())
}

/// The root, if it is of operator 9.
fn gains_root(question: &Question) -> Option<PlanNode> {
    question.root_plan().filter(PlanNode::sums_gains)
}
