//! Which plans wrong explainers print.

use super::listed::Listed;
use super::{Case, Fault};
use crate::logic::{Lamp, PlanNode, Relation};

/// A line with its plan, or with none.
#[derive(Clone)]
pub(super) struct Line {
    pub(super) word: &'static str,
    pub(super) plan: Option<Listed>,
}

/// A root's plans, as an explainer with a fault sees them.
pub(super) struct Picker<'a> {
    pub(super) case: &'a Case<'a>,
    pub(super) root: PlanNode,
    pub(super) fault: Fault,
    pub(super) plans: Vec<Listed>,
}

impl Picker<'_> {
    /// The lines of the explainer.
    pub(super) fn lines(&self) -> Vec<Line> {
        match self.root.relation {
            Relation::Equal => self.both_sides(),
            _ if self.fault == Fault::NearestForAll => self.both_sides(),
            relation => vec![self.best(relation == Relation::Greater)],
        }
    }

    /// The line of the greatest total, or of the least.
    fn best(&self, greatest: bool) -> Line {
        let beyond = if greatest { Lamp::Below } else { Lamp::Above };
        let whole = self.case.whole;
        let looked_at = self.plans.iter().filter(|listed| match self.fault {
            Fault::AtLeftOut => self.root.lamp(listed.total, whole) == beyond,
            _ => true,
        });
        let plan = match self.fault {
            Fault::FirstPlan => self.plans.first(),
            Fault::LastPlan => self.plans.last(),
            Fault::BestBySize => self.pick(looked_at.collect(), greatest, i128::abs),
            Fault::OtherEnd => self.pick(looked_at.collect(), !greatest, |total| total),
            _ => self.pick(looked_at.collect(), greatest, |total| total),
        };
        let word = if greatest { "greatest" } else { "least" };
        Line {
            word,
            plan: self.remembered(plan.cloned(), greatest),
        }
    }

    /// The lines below and above.
    fn both_sides(&self) -> Vec<Line> {
        let not_whole = self.case.product() % i128::from(self.root.bound.q) != 0;
        let [mut below, mut above] = [Lamp::Below, Lamp::Above].map(|side| self.side(side));
        match self.fault {
            Fault::AlwaysNone => (below, above) = (None, None),
            Fault::NotWholeNone if not_whole => (below, above) = (None, None),
            Fault::NoneIfOneSided if below.is_none() || above.is_none() => {
                (below, above) = (None, None);
            }
            Fault::OtherForNone => {
                let other = below.clone().or(above.clone());
                (below, above) = (below.or(other.clone()), above.or(other));
            }
            Fault::SidesExchanged => (below, above) = (above, below),
            Fault::ChoicesExchanged => exchange_choices(&mut below, &mut above),
            _ => {}
        }
        let line = |word, plan| Line { word, plan };
        let mut lines = vec![line("below", below), line("above", above)];
        if self.fault == Fault::LinesExchanged {
            lines.reverse();
        }
        if self.fault == Fault::SideLeftOut {
            lines.retain(|line| line.plan.is_some());
        }
        lines
    }

    /// The plan for a side.
    fn side(&self, side: Lamp) -> Option<Listed> {
        let there = self.plans.iter().filter(|listed| self.lies(listed, side));
        let there: Vec<&Listed> = there.collect();
        let greatest = side == Lamp::Below;
        let plan = match self.fault {
            Fault::FirstPlan => self.plans.first(),
            Fault::LastPlan => self.plans.last(),
            Fault::FirstOnSide => there.first().copied(),
            Fault::LastOnSide => there.last().copied(),
            Fault::Farthest => self.pick(there, !greatest, |total| total),
            Fault::NearestOfBoth => {
                let all = self.plans.iter().collect();
                self.pick(all, false, |total| self.distance(total).abs())
            }
            Fault::DistanceCut | Fault::DistanceSigned => {
                self.pick(there, greatest, |total| self.distance(total))
            }
            Fault::OnlyEnds => self.pick(self.ends(there), greatest, |total| total),
            Fault::FirstMoveWithOne => {
                let first = there.first().and_then(|listed| listed.choices.first());
                let same = |listed: &&Listed| listed.choices.first() == first;
                let there = there.iter().copied().filter(same).collect();
                self.pick(there, greatest, |total| total)
            }
            _ => self.pick(there, greatest, |total| total),
        };
        self.remembered(plan.cloned(), greatest)
    }

    /// Those on a side that have the least or the greatest total of all plans.
    fn ends<'b>(&self, there: Vec<&'b Listed>) -> Vec<&'b Listed> {
        let totals = || self.plans.iter().map(|listed| listed.total);
        let ends = [totals().min(), totals().max()];
        let is_end = |listed: &&Listed| ends.contains(&Some(listed.total));
        there.into_iter().filter(is_end).collect()
    }

    /// What is left of a found plan where a total of 0 or -1 stands for none, or
    /// where the best total is 0 before the first plan.
    fn remembered(&self, plan: Option<Listed>, greatest: bool) -> Option<Listed> {
        let total = plan.as_ref().map(|listed| listed.total);
        match (self.fault, total) {
            (Fault::ZeroIsNone, Some(0)) | (Fault::MinusOneIsNone, Some(-1)) => None,
            (Fault::BegunAtZero, Some(total))
                if (greatest && total < 0) || (!greatest && total > 0) =>
            {
                let first = self.plans.first();
                first.map(|first| Listed {
                    total: 0,
                    ..first.clone()
                })
            }
            _ => plan,
        }
    }

    /// The plan with the greatest of something of its total, or with the least;
    /// of equal ones that which the explainer takes.
    fn pick<'b>(
        &self,
        plans: Vec<&'b Listed>,
        greatest: bool,
        of: impl Fn(i128) -> i128,
    ) -> Option<&'b Listed> {
        let values = plans.iter().map(|listed| of(listed.total));
        let best = if greatest { values.max() } else { values.min() };
        let tied = plans
            .into_iter()
            .filter(|listed| Some(of(listed.total)) == best);
        let tied: Vec<&Listed> = tied.collect();
        let depth = self.case.depth(&self.root);
        let shown = |listed: &Listed| self.case.first_choices(&listed.plan, depth);
        match self.fault {
            Fault::LastOfTie => tied.last().copied(),
            Fault::TieFromTheBack => tied
                .into_iter()
                .min_by_key(|listed| listed.choices.iter().rev().copied().collect::<Vec<u8>>()),
            Fault::LastAfterDepth => {
                let first = tied.first().map(|listed| shown(listed));
                tied.into_iter()
                    .rfind(|listed| Some(shown(listed)) == first)
            }
            _ => tied.first().copied(),
        }
    }

    /// Whether a plan lies on a side to the explainer.
    fn lies(&self, listed: &Listed, side: Lamp) -> bool {
        let (total, product) = (listed.total, self.case.product());
        let q = i128::from(self.root.bound.q);
        let whole = i128::from(self.case.whole);
        let by = |bound: i128| Lamp::of(total.cmp(&bound)) == side;
        let ceiled = -(-product).div_euclid(q);
        let lamp = self.root.lamp(total, self.case.whole);
        match self.fault {
            Fault::AtOnASide => lamp == side || lamp == Lamp::At,
            Fault::BoundFloored => by(product.div_euclid(q)),
            Fault::BoundCeiled => by(ceiled),
            Fault::BoundCut => by(product / q),
            Fault::BoundRounded => by((2 * product + q).div_euclid(2 * q)),
            Fault::FlooredIsAbove => (total < product.div_euclid(q)) == (side == Lamp::Below),
            Fault::CeiledIsBelow => (total > ceiled) == (side == Lamp::Above),
            Fault::Doubles => {
                let left = total as f64 / whole as f64;
                let right = f64::from(self.root.bound.p) / q as f64;
                Lamp::of(left.total_cmp(&right)) == side
            }
            _ => Lamp::of(self.distance(total).cmp(&0)) == side,
        }
    }

    /// By how much q times a total lies over p times D to the n, to the
    /// explainer.
    fn distance(&self, total: i128) -> i128 {
        let mut plans = self.case.question.plan_nodes();
        let first = plans.next().map_or(self.root.bound, |(_, node)| node.bound);
        let bound = match self.fault {
            Fault::OtherBound => first,
            _ => self.root.bound,
        };
        let p = match self.fault {
            Fault::BoundSignLost => i128::from(bound.p).abs(),
            _ => bound.p.into(),
        };
        let over = total * i128::from(bound.q) - p * i128::from(self.case.whole);
        match self.fault {
            Fault::DistanceCut => (over as i32).into(),
            Fault::DistanceSigned => (over as i64).into(),
            _ => over,
        }
    }
}

fn exchange_choices(below: &mut Option<Listed>, above: &mut Option<Listed>) {
    if let (Some(below), Some(above)) = (below, above) {
        std::mem::swap(&mut below.choices, &mut above.choices);
    }
}
