//! Judges that err about lamps (document 02, A.4), each in one way, and about
//! nothing else: which calls of a stream they answer otherwise than a right one
//! does. A stream in which they answer all alike cannot tell them from it.

mod missed;
mod sides;
mod verdicts;

use crate::blocks::Sheet;
use crate::desk::{replay, Answer, Call};
use crate::logic::{Checked, Judged, Lamp, Model, PlanNode, Question};
use crate::logic::{Summed, Verdict};
use sides::Sides;
use std::collections::BTreeMap;

#[derive(Clone, Copy, Debug, PartialEq, Eq, PartialOrd, Ord)]
pub enum Fault {
    /// Below and above are exchanged.
    Exchanged,
    /// At is told as above.
    AtAsAbove,
    /// At is told as below.
    AtAsBelow,
    /// A total of 0 counts as at.
    ZeroIsAt,
    /// The lamp follows from the relation alone, as it does on yes.
    ByRelation,
    /// Where the bound is not met, the lamp is at.
    MissedIsAt,
    /// Where the bound is not met, the lamp is never at but on the other side:
    /// that of the relation negated, above for "less", below for "greater".
    MissedIsBeside,
    /// Where the bound is met, the lamp is at.
    MetIsAt,
    /// A yes has no lamp.
    NoLampOnYes,
    /// A no has no lamp.
    NoLampOnNo,
    /// A no to "equal" has a lamp.
    LampOnEqual,
    /// A root of another operator has a lamp, where there are plans below it.
    LampOnOtherRoot,
    /// A verdict has the lamp of the first plan in dictionary order.
    FirstPlan,
    /// It has that of the last plan.
    LastPlan,
    /// It has that of the greatest total, whatever is asked for.
    GreatestForAll,
    /// It has that of the least total, whatever is asked for.
    LeastForAll,
    /// A no has that of the greatest total for "less", of the least for
    /// "greater".
    WrongEnd,
    /// A no has that of the best total where only the first move is searched,
    /// and the lowest enabled actions follow.
    FirstMoveOnly,
    /// A no has that of the best total from state 0.
    FromStateZero,
    /// A no has that of the best total where paths end at silent states.
    PathsEnd,
    /// A no has that of the best total of the plans without silent moves.
    SilentPassedOver,
    /// A no has that of the best total where no plan below the root is true.
    NestedFalse,
    /// A no has that of the best of all totals of operator 9 without their
    /// signs.
    BestUnsigned,
    /// A no has that of the total of operator 9 that is nearest to 0 for
    /// "less", farthest from it for "greater", with its sign.
    BestBySize,
    /// A verdict has the last lamp of the verdicts before it on the same model.
    LastKept,
    /// A verdict that has no lamp is left with that last one.
    LastLeft,
    /// A verdict has that of the best total of the question's first plan node,
    /// where that stands below the root and does not ask for "equal".
    OfThePlanBelow,
    /// A sheet has the lamp of the yes that the desk holds.
    OfTheYes,
    /// A sheet has the lamp of the no that the desk holds.
    OfTheNo,
    /// The root's total is compared with the bound of the question's first plan
    /// node.
    OtherBound,
    /// Both fractions are divided first, in whole numbers, towards 0.
    DividedFirst,
    /// p times D to the n is divided by q first, towards 0.
    BoundCut,
    /// The same, downwards.
    BoundFloored,
    /// Both fractions are compared in millionths, cut off.
    Millionths,
    /// Two quotients of doubles are compared.
    DividedDoubles,
    /// Two products of doubles are compared.
    MultipliedDoubles,
    /// Two quotients of singles are compared.
    DividedSingles,
    /// The total is cut to 32 bits with a sign.
    TotalCut,
    /// D to the n is cut to 32 bits.
    WholeCut,
    /// Total and bound are compared without their signs.
    SignsLost,
    /// The total is read without a sign, as the eight bytes of a weight are.
    TotalUnsigned,
    /// The total of the steps that matter is compared with D to the n.
    ShortTotal,
    /// The total is compared with p times D to the steps that matter.
    ShortWhole,
    /// The total is compared with p times D.
    OneStep,
    /// q is left out.
    QLeftOut,
    /// A total one unit, of 1 over D to the n, beside the bound counts as at.
    OneUnitIsAt,
    /// A total less than a unit beside the bound counts as at.
    NearestIsAt,
    /// Both sides are raised, so that they are not below 0, and are compared in
    /// 64 bits with a sign.
    SidesSigned,
    /// The sides are compared by their difference in 64 bits with a sign.
    DifferenceSigned,
    /// The sides are compared by their difference in 32 bits with a sign.
    DifferenceCut,
}

pub const ALL: [Fault; 50] = [
    Fault::Exchanged,
    Fault::AtAsAbove,
    Fault::AtAsBelow,
    Fault::ZeroIsAt,
    Fault::ByRelation,
    Fault::MissedIsAt,
    Fault::MissedIsBeside,
    Fault::MetIsAt,
    Fault::NoLampOnYes,
    Fault::NoLampOnNo,
    Fault::LampOnEqual,
    Fault::LampOnOtherRoot,
    Fault::FirstPlan,
    Fault::LastPlan,
    Fault::GreatestForAll,
    Fault::LeastForAll,
    Fault::WrongEnd,
    Fault::FirstMoveOnly,
    Fault::FromStateZero,
    Fault::PathsEnd,
    Fault::SilentPassedOver,
    Fault::NestedFalse,
    Fault::BestUnsigned,
    Fault::BestBySize,
    Fault::LastKept,
    Fault::LastLeft,
    Fault::OfThePlanBelow,
    Fault::OfTheYes,
    Fault::OfTheNo,
    Fault::OtherBound,
    Fault::DividedFirst,
    Fault::BoundCut,
    Fault::BoundFloored,
    Fault::Millionths,
    Fault::DividedDoubles,
    Fault::MultipliedDoubles,
    Fault::DividedSingles,
    Fault::TotalCut,
    Fault::WholeCut,
    Fault::SignsLost,
    Fault::TotalUnsigned,
    Fault::ShortTotal,
    Fault::ShortWhole,
    Fault::OneStep,
    Fault::QLeftOut,
    Fault::OneUnitIsAt,
    Fault::NearestIsAt,
    Fault::SidesSigned,
    Fault::DifferenceSigned,
    Fault::DifferenceCut,
];

/// How often a judge with a fault answers otherwise, for each call, judge with
/// its answer, and for each operator of the root, 0 for another than 8 and 9.
pub type Differences = BTreeMap<(Fault, &'static str, u8), usize>;

/// Replays a stream from the empty desk beside a judge of each fault. Each of
/// their calls is made on what the right desk holds.
pub fn differences(stream: &[u8]) -> Differences {
    let mut counts = Differences::new();
    let mut last = None;
    replay(stream, |call, answer, desk| {
        if let Answer::Load(Ok(())) = answer {
            last = None;
        }
        let (Ok(model), Ok(question)) = (desk.model(), desk.question()) else {
            return;
        };
        let asked = Asked {
            model,
            question,
            root: question.root_plan(),
            held: desk.judged().map(|judged| judged.verdict),
            last,
        };
        let (name, found) = match (call, answer) {
            (Call::Judge, Answer::Judge(Ok(judged))) => asked.wrong_verdicts(judged),
            (Call::Check(bytes), Answer::Check(Ok(checked))) => asked.wrong_checks(bytes, checked),
            _ => return,
        };
        if let Answer::Judge(Ok(judged)) = answer {
            last = judged.verdict.lamp().or(last);
        }
        let operator = asked.root.map_or(0, |root| root.summed.operator());
        for fault in found {
            *counts.entry((fault, name, operator)).or_default() += 1;
        }
    });
    counts
}

/// What was asked, by a right desk.
struct Asked<'a> {
    model: &'a Model,
    question: &'a Question,
    root: Option<PlanNode>,
    /// The verdict on it, if there is one already.
    held: Option<Verdict>,
    /// The last lamp of the verdicts on this model before the call.
    last: Option<Lamp>,
}

impl Asked<'_> {
    /// The faults with which a verdict has another lamp, or has one wrongly.
    fn wrong_verdicts(&self, judged: &Judged) -> (&'static str, Vec<Fault>) {
        let yes = !matches!(judged.verdict, Verdict::No { .. });
        let right = judged.verdict.lamp();
        let lamps = verdicts::Lamps::of(self, judged);
        let by = |fault: Fault| match fault {
            Fault::LastKept if right.is_some() => self.last.or(right),
            Fault::LastLeft if right.is_none() => self.last,
            _ => lamps.by(fault),
        };
        let differs = |fault: &Fault| by(*fault) != right;
        let found = ALL.into_iter().filter(differs).collect();
        (if yes { "judge yes" } else { "judge no" }, found)
    }

    /// The faults with which an accepted sheet has another lamp.
    fn wrong_checks(&self, bytes: &[u8], checked: &Checked) -> (&'static str, Vec<Fault>) {
        let Some(root) = self.root else {
            return ("check", Vec::new());
        };
        let total = root.summed.claimed(Sheet::unpack(bytes).total);
        let sides = self.sides(&root, total);
        let by = |fault: Fault| match (fault, self.held) {
            (Fault::OfTheYes, Some(Verdict::YesPlan(record))) => record.lamp,
            (Fault::OfTheNo, Some(Verdict::No { lamp, .. })) => lamp.unwrap_or(checked.lamp),
            _ => sides.lamp(fault),
        };
        let differs = |fault: &Fault| by(*fault) != checked.lamp;
        ("check", ALL.into_iter().filter(differs).collect())
    }

    /// What is compared where the root has this total.
    fn sides(&self, root: &PlanNode, total: i128) -> Sides {
        let mut plans = self.question.plan_nodes();
        Sides {
            root: *root,
            total,
            base: self.model.denominator.into(),
            matter: self.steps_that_matter(root),
            other: plans.next().map_or(root.bound, |(_, first)| first.bound),
        }
    }

    /// How many steps the root's condition looks ahead, or to which step its
    /// gains are summed.
    fn steps_that_matter(&self, root: &PlanNode) -> u32 {
        let depths = self.question.depths();
        let matter = match root.summed {
            Summed::Weights { condition } => {
                depths.get(usize::from(condition)).copied().unwrap_or(0)
            }
            Summed::Gains { last, .. } => last.into(),
        };
        u32::try_from(matter).unwrap_or(0)
    }
}
